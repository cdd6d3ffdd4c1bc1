"""Makes definitions at random that BuildKit and llbm may take differently, with the trees of their sources.

The kinds: plain ones; wild ones, with odd names, modes, owners and numbers; those of many layers, with removals, merges
of merges and several outputs; plain ones with filters of their sources; and those with symbolic links in their sources,
and with copies that have patterns, which llbm takes only as the daemon rewrites them.
"""

import posixpath
import random
from typing import NamedTuple

from llbm_tools.daemon.runs import link_to
from llbm_tools.llb import messages
from llbm_tools.llb.messages import Message, made
from llbm_tools.trees.tree_maps import Entry, Path, Tree

PLAIN, WILD, LAYERS, FILTERS, LINKS = "plain", "wild", "layers", "filters", "links"
KINDS = (PLAIN, WILD, LAYERS, FILTERS, LINKS)
NAMES = ["a", "b", "c", "d"]
ODD_NAMES = ["a", "b", "ab", "f*", "a]", "\\a", "é", "€", "a b", ".h", "-x"]
MODES = [0o644, 0o755, 0o700, 0o604]
ODD_MODES = [*MODES, 0, 0o4755, 0o2777, 0o2711, 0o1777, 0o6755]
GIVEN_MODES = [0o644, 0o755, 0o600, 0o777]
ODD_GIVEN_MODES = [*GIVEN_MODES, 0, 0o1777, 0o4755, 0o2755, -1, -2, 0o10644, 0o177777]
OWNERS = [0, 7, 1000]
ODD_OWNERS = [0, 7, 1000, 4294967294, 4294967295]
TARGETS = ["a", "b", "../a", "/a", "..", ".", "/", "a/b", "/b/c", "missing", "../../b", "/n"]
# Fields of a copy that llbm has not: what patterns include, and what they exclude.
COPY_PATTERNS = (12, 13)
CHOSEN = ["a", "b", "*", "**", "a*", "*/b", "**/c", "[ab]", "!a", "b/**", "[a", "?"]
PATTERNS = ["*", "?", "a*", "*b", "[a-c]", "[^a]"]
ODD_PATTERNS = [
    *PATTERNS, "\\a", "\\*", "[a", "[]", "a\\", "[^b][^b]b", "*??", "[]-a]", "[\\]]", "f\\*", "*[^a]*", "d[/]a"
]  # fmt: skip
ATTRIBUTES = {
    "local.includepattern": [
        '["a"]', '["*"]', '["a/*","b"]', '["**/c"]', '["a/**"]', '["*/b","!a/b"]', '["?","b/../ab"]', '["/a"]',
        '["[a-b]/*"]', '[" a ","**/b/**"]', '["[a"]', "[]",
    ],
    "local.excludepatterns": [
        '["a"]', '["b/*"]', '["**","!a"]', '["**/b"]', '["*","!*/a"]', '["a/**","!a/b"]', '["[^a]"]', '["!"]', '["c*"]',
    ],
    "local.followpaths": ['["a"]', '["b/c"]', '["*"]', '["/a","b/*"]', '["."]', '["a","a/b"]', "null"],
}  # fmt: skip


class Made(NamedTuple):
    """A definition, and the trees of its local sources."""

    data: bytes
    sources: dict[str, Tree]


class Maker:
    """Makes one definition."""

    def __init__(self, seed: str, kind: str) -> None:
        self.random = random.Random(seed)
        self.kind = kind
        self.is_wild = kind == WILD
        self.entries: list[bytes] = []
        self.outputs: list[tuple[bytes, int]] = []
        self.sources: dict[str, Tree] = {}
        self.prefix = f"s{self.random.randrange(1 << 30)}"

    def chance(self, part: float) -> bool:
        """Returns True in this part of the cases."""
        return self.random.random() < part

    def name(self) -> str:
        """Returns a name."""
        return self.random.choice(ODD_NAMES if self.is_wild and self.chance(0.3) else NAMES)

    def tree(self) -> Tree:
        """Returns a tree with at most three levels."""
        modes = ODD_MODES if self.is_wild else MODES
        tree: Tree = {(): Entry(self.random.choice([0o755, 0o755, 0o700]), *self.owner_of_entry())}
        below: list[Path] = [()]
        for _ in range(self.random.choice([1, 4, 8, 16])):
            path = (*self.random.choice(below), self.name().encode())
            if path in tree:
                continue
            content = None if self.chance(0.5) and len(path) < 3 else self.content().hex().encode()
            tree[path] = Entry(self.random.choice(modes), *self.owner_of_entry(), content)
            if self.kind == LINKS and content is not None and self.chance(0.4):
                tree[path] = link_to(self.random.choice(TARGETS))
            if content is None:
                below.append(path)
        return tree

    def content(self) -> bytes:
        """Returns the content of a file."""
        return self.random.choice([b"", b"x", b"y\n", bytes([self.random.randrange(256)])])

    def owner_of_entry(self) -> tuple[int, int]:
        """Returns the owner of an entry of a source."""
        return (5, 6) if self.is_wild and self.chance(0.1) else (0, 0)

    def known_path(self) -> str:
        """Returns the text of a path of a source, without its first `/`."""
        paths = [path for tree in self.sources.values() for path in tree if path]
        return b"/".join(self.random.choice(paths)).decode() if paths else "a"

    def path(self) -> str:
        """Returns the text of a path."""
        text = "/".join(self.name() for _ in range(self.random.choice([1, 1, 2, 2, 3])))
        if self.chance(0.4):
            text = self.known_path()
        if self.chance(0.1):
            text = ""
        if self.is_wild and self.chance(0.25):
            text = self.odd(text)
        return text if self.is_wild and self.chance(0.1) else f"/{text}"

    def odd(self, text: str) -> str:
        """Returns another text of a path."""
        return self.random.choice(
            [f"{text}/", f"{text}/.", f"/{text}", f"{text}/..", f"./{text}", f"x/../{text}", f"{text}/../b", "..", ".",
             f"{text}/x/../../b", "\x01", "n" * 255, "n" * 256 + "/../a", "/".join("e" * 130), f"{text}//", "a\\b"]
        )  # fmt: skip

    def pattern(self) -> str:
        """Returns the text of a pattern."""
        patterns = ODD_PATTERNS if self.is_wild else PATTERNS
        count = self.random.choice([1, 1, 2, 3])
        parts = [self.random.choice(patterns) if self.chance(0.6) else self.name() for _ in range(count)]
        text = "/" + "/".join(parts)
        return text + self.random.choice(["/", "/.", "/.."]) if self.is_wild and self.chance(0.1) else text

    def user(self) -> Message | None:
        """Returns a user or a group."""
        if self.chance(0.25):
            return None
        if self.is_wild and self.chance(0.05):
            return made("UserOpt")
        return made("UserOpt", byID=self.random.choice(ODD_OWNERS if self.is_wild else OWNERS))

    def owner(self) -> Message | None:
        """Returns an owner."""
        return made("ChownOpt", user=self.user(), group=self.user()) if self.chance(0.3) else None

    def mode(self) -> int:
        """Returns the mode of an action."""
        return self.random.choice(ODD_GIVEN_MODES if self.is_wild else GIVEN_MODES)

    def timestamp(self) -> int:
        """Returns the time of an action, in whole seconds: then BuildKit's merges compare contents."""
        return self.random.choice([-1, -1, -1, 0, 1_000_000_000_000_000_000]) if self.is_wild else -1

    def dest(self) -> str:
        """Returns the text of a dest."""
        return self.path() + self.random.choice(["", "", "", "/", "/", "/."])

    def copy(self) -> tuple[str, Message]:
        """Returns a copy."""
        wild = self.chance(0.4)
        src = f"/{self.known_path()}" if self.chance(0.7) else self.path()
        src = self.pattern() if wild and self.chance(0.8) else src
        if not wild and self.chance(0.1):
            src += self.random.choice(["/", "/."])
        return "copy", made(
            "FileActionCopy", src=src, dest=self.dest(), owner=self.owner(), allowWildcard=wild,
            mode=self.mode() if self.chance(0.3) else -1, timestamp=self.timestamp(),
            followSymlink=self.chance(0.5 if self.kind == LINKS else 0.2), dirCopyContents=self.chance(0.4),
            createDestPath=self.chance(0.6), allowEmptyWildcard=self.chance(0.4),
        ) + self.copy_patterns()  # fmt: skip

    def copy_patterns(self) -> Message:
        """Returns fields of a copy with patterns, or none."""
        if self.kind != LINKS or self.chance(0.7):
            return []
        count = [self.random.randrange(3) for _ in COPY_PATTERNS]
        fields = [field for field, times in zip(COPY_PATTERNS, count) for _ in range(times)]
        return [(field, self.random.choice(CHOSEN).encode()) for field in fields]

    def mkfile(self) -> tuple[str, Message]:
        """Returns an mkfile."""
        return "mkfile", made(
            "FileActionMkFile", path=self.path(), mode=self.mode(), data=self.content(), owner=self.owner(),
            timestamp=self.timestamp(),
        )  # fmt: skip

    def mkdir(self) -> tuple[str, Message]:
        """Returns an mkdir."""
        return "mkdir", made(
            "FileActionMkDir", path=self.path(), mode=self.mode(), makeParents=self.chance(0.6), owner=self.owner(),
            timestamp=self.timestamp(),
        )  # fmt: skip

    def rm(self) -> tuple[str, Message]:
        """Returns an rm; none that leaves the tree, since BuildKit's daemon would remove its own state."""
        wild = self.chance(0.4)
        path = self.pattern() if wild and self.chance(0.8) else self.path()
        if not wild and posixpath.basename(posixpath.normpath(path)) == "..":
            path = "/a"
        return "rm", made("FileActionRm", path=path, allowNotFound=self.chance(0.6), allowWildcard=wild)

    def action(self, number: int, inputs: int, output: int) -> Message:
        """Returns an action of a file op."""
        makers = [self.copy, self.copy, self.copy, self.mkfile, self.mkdir, self.mkdir, self.rm]
        if self.kind == LAYERS:
            makers = [self.copy, self.mkfile, self.mkdir, self.rm, self.rm]
        kind, member = self.random.choice(makers)()
        before = range(-1, inputs + number)
        base = inputs + number - 1 if number and self.chance(0.85) else self.random.choice(before)
        base = 0 if not number and inputs and self.chance(0.8) else base
        second = self.random.choice(before) if kind == "copy" else -1
        if kind != "copy" and self.is_wild and self.chance(0.15):
            second = self.random.choice([0, inputs, inputs + number, 99, -2])
        return made("FileAction", input=base, secondaryInput=second, output=output, **{kind: member})

    def add(self, message: Message, count: int = 1) -> None:
        """Adds an op with some outputs."""
        entry = messages.encoded(message)
        if entry not in self.entries:
            self.entries.append(entry)
        self.outputs += [(entry, number) for number in range(count)]

    def some_inputs(self, count: int) -> list[Message]:
        """Returns edges to outputs of earlier ops."""
        return [messages.edge(*self.random.choice(self.outputs[-4:])) for _ in range(count)]

    def add_source(self) -> None:
        """Adds a local source."""
        name = f"{self.prefix}-{len(self.sources)}"
        self.sources[name] = self.tree()
        keys = [key for key in ATTRIBUTES if self.kind == FILTERS and self.chance(0.5)]
        attributes = [made("AttributeEntry", key=key, value=self.random.choice(ATTRIBUTES[key])) for key in keys]
        self.add(made("Op", source=made("SourceOp", identifier=f"local://{name}", attrs=tuple(attributes))))

    def add_file(self) -> None:
        """Adds a file op."""
        inputs = self.some_inputs(self.random.choice([0, 1, 2, 2, 3]) if self.outputs else 0)
        count = self.random.choice([1, 1, 1, 2, 3])
        is_many = self.kind in (WILD, LAYERS)
        chosen = [number for number in range(count) if number == count - 1 or (is_many and self.chance(0.4))]
        self.random.shuffle(chosen)
        outputs = {number: output for output, number in enumerate(chosen)}
        actions = [self.action(number, len(inputs), outputs.get(number, -1)) for number in range(count)]
        self.add(made("Op", inputs=tuple(inputs), file=made("FileOp", actions=tuple(actions))), len(chosen))

    def add_merge(self) -> None:
        """Adds a merge."""
        inputs = self.some_inputs(self.random.choice([1, 2, 2, 3])) if self.outputs else []
        numbers = list(range(len(inputs)))
        if self.is_wild and self.chance(0.3):
            self.random.shuffle(numbers)
            numbers += [self.random.randrange(-1, len(inputs)) for _ in range(self.random.randrange(3))]
        listed = tuple(made("MergeInput", input=number) for number in numbers)
        self.add(made("Op", inputs=tuple(inputs), merge=made("MergeOp", inputs=listed)))

    def made(self) -> Made:
        """Returns the definition; its result is the last op's output."""
        for _ in range(self.random.choice([1, 2, 2, 3])):
            self.add_source()
        makers = [self.add_file, self.add_file, self.add_merge]
        for _ in range(self.random.choice([2, 4, 6] if self.kind == LAYERS else [1, 1, 2, 3])):
            self.random.choice(makers)()
        last = messages.encoded(made("Op", inputs=(messages.edge(*self.outputs[-1]),)))
        return Made(messages.definition_of([*self.entries, last]), self.sources)


def make(seed: str, kind: str) -> Made:
    """Returns a definition of a kind; the same for the same seed."""
    return Maker(seed, kind).made()
