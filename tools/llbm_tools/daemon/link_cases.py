"""A fixed set of definitions with symbolic links, and with hard links, each with a name: at each place of an op where
BuildKit follows a link, or copies it as it is. Those with executions run scripts of llbm."""

from collections.abc import Iterable
from typing import NamedTuple

from llbm_tools.daemon.runs import hard_link_to, link_to
from llbm_tools.llb import messages
from llbm_tools.llb.messages import Message, made
from llbm_tools.trees import tree_maps
from llbm_tools.trees.tree_maps import ROOT, Entry, Tree

SCRATCH, SOURCE = -1, 0
SHELL = ("/bin/sh", "-c")
INCLUDED, EXCLUDED = 12, 13
NAME = "linked"
# What BuildKit mounts something at in each execution; where a tree has no such directory, it leaves an empty one.
MOUNT_POINTS = ("dev", "etc", "proc", "sys")

FILES = {
    "dir/file": "file", "dir/sub/deep": "deep", "other/dir": "a file", "other/file": "other",
    "other/toward/kept": "kept",
    "plain": "plain", "two": "two names",
}
LINKS = {
    "absolute": "/dir", "dangling": "missing", "dir/inner": "file", "dir/up": "../plain", "escaping": "../../../dir",
    "far": "/missing/below", "link": "dir/file", "loop": "loop", "other/link": "elsewhere", "ping": "pong",
    "pong": "ping", "toward": "dir",
    "twice": "toward",
}


def tree() -> Tree:
    """Returns the tree of the source."""
    found: Tree = {(): ROOT}
    entries = {path: tree_maps.file_of(text, 0o640) for path, text in FILES.items()}
    entries.update({path: link_to(target) for path, target in LINKS.items()})
    found.update({(name.encode(),): Entry(0o755, 0, 0) for name in MOUNT_POINTS})
    entries["two-again"] = hard_link_to("two", entries["two"])
    for text, entry in entries.items():
        tree_maps.add(found, text, entry)
    return found


class Linked(NamedTuple):
    """A case: its name, the definition, whether it has an execution, and whether llbmd refuses it by a link."""

    name: str
    data: bytes
    runs: bool
    is_refused: bool


def owner() -> Message:
    """Returns the owner 7:8."""
    return made("ChownOpt", user=made("UserOpt", byID=7), group=made("UserOpt", byID=8))


def copy(
    src: str, dest: str = "/to", *patterns: tuple[int, bytes],
    flags: str = "", owner: Message | None = None, mode: int = -1,
) -> tuple[str, Message]:
    """Returns a copy from the source; `f` follows links, `w` takes wildcards, `c` copies what directories have."""
    member = made(
        "FileActionCopy", src=src, dest=dest, owner=owner, mode=mode,
        followSymlink="f" in flags, dirCopyContents="c" in flags, createDestPath=True, allowWildcard="w" in flags,
        timestamp=-1,
    )  # fmt: skip
    return "copy", [*member, *patterns]


def mkfile(path: str) -> tuple[str, Message]:
    """Returns an mkfile."""
    return "mkfile", made("FileActionMkFile", path=path, mode=0o604, data=b"made", timestamp=-1)


def mkdir(path: str, with_parents: bool = False) -> tuple[str, Message]:
    """Returns an mkdir."""
    return "mkdir", made("FileActionMkDir", path=path, mode=0o711, makeParents=with_parents, timestamp=-1)


def rm(path: str, **others: bool) -> tuple[str, Message]:
    """Returns an rm."""
    return "rm", made("FileActionRm", path=path, **others)


def edges(entries: Iterable[bytes]) -> tuple[Message, ...]:
    """Returns the inputs that name these entries."""
    return tuple(messages.edge(entry) for entry in entries)


class Maker:
    """Adds ops on the source to a definition."""

    def __init__(self) -> None:
        self.entries = [messages.encoded(made("Op", source=made("SourceOp", identifier=f"local://{NAME}")))]

    def add(self, op: Message) -> bytes:
        """Adds an op, and returns its entry."""
        self.entries.append(messages.encoded(op))
        return self.entries[-1]

    def files(self, base: int, *actions: tuple[str, Message], on: bytes | None = None) -> bytes:
        """Adds a file op on the empty tree, the source or another entry."""
        inputs = [self.entries[0]] + ([] if on is None else [on])
        message = []
        for number, (kind, member) in enumerate(actions):
            before = (len(inputs) - 1 if on else base) if number == 0 else len(inputs) + number - 1
            output = 0 if number == len(actions) - 1 else -1
            second = 0 if kind == "copy" else -1
            message.append(made("FileAction", input=before, secondaryInput=second, output=output, **{kind: member}))
        file = made("FileOp", actions=tuple(message))
        return self.add(made("Op", inputs=edges(inputs), file=file))

    def merge(self, *entries: bytes) -> bytes:
        """Adds a merge."""
        listed = tuple(made("MergeInput", input=number) for number in range(len(entries)))
        return self.add(made("Op", inputs=edges(entries), merge=made("MergeOp", inputs=listed)))

    def run(self, script: str, on: bytes, cwd: str = "/", **mount: str) -> bytes:
        """Adds an execution on an entry, with a mount of the source if it is given."""
        mounts = [made("Mount", input=0, dest="/", output=0)]
        inputs = [on]
        if mount:
            inputs.append(self.entries[0])
            mounts.append(made("Mount", input=1, output=-1, readonly=True, **mount))
        exec_op = made("ExecOp", meta=made("Meta", args=(*SHELL, script), cwd=cwd), mounts=tuple(mounts))
        return self.add(made("Op", inputs=edges(inputs), exec=exec_op))

    def ends(self, name: str, last: bytes, runs: bool = False, is_refused: bool = False) -> Linked:
        """Returns the case."""
        end = messages.encoded(made("Op", inputs=(messages.edge(last),)))
        return Linked(name, messages.definition_of([*self.entries, end]), runs, is_refused)


COPIES = {
    "a link": copy("/link"), "a link, followed": copy("/link", flags="f"),
    "a link into a directory": copy("/link", "/to/", flags="f"),
    "a link to a directory": copy("/toward"), "a link to a directory, followed": copy("/toward", flags="f"),
    "what a link to a directory has": copy("/toward", flags="fc"), "a link to a link": copy("/twice", flags="f"),
    "a directory with links": copy("/dir"), "all": copy("/", "/", flags="c"),
    "all, followed": copy("/", "/", flags="cf"),
    "through a link": copy("/toward/file"), "through two links": copy("/twice/sub/deep"),
    "through an absolute link": copy("/absolute/file"),
    "through an escaping link": copy("/escaping/file"), "up from a link": copy("/toward/../other/file"),
    "a loop": copy("/loop"), "a loop, followed": copy("/loop", flags="f"), "through a loop": copy("/loop/x"),
    "a loop of two, followed": copy("/ping", flags="f"),
    "a dangling link": copy("/dangling"), "a dangling link, followed": copy("/dangling", flags="f"),
    "through a dangling link": copy("/dangling/x"),
    "a wildcard over links": copy("/*", "/to/", flags="w"),
    "a wildcard over links, followed": copy("/[lt]*", "/to/", flags="wf"),
    "a wildcard over a dangling link, followed": copy("/d*", "/to/", flags="wf"),
    "a wildcard through a link": copy("/toward/f*", "/to/", flags="w"),
    "a wildcard of links' names": copy("/*/inner", "/to/", flags="wf"),
    "included links": copy("/", "/to", (INCLUDED, b"**/inner"), (INCLUDED, b"link"), flags="c"),
    "excluded links": copy("/dir", "/to", (EXCLUDED, b"up"), flags="c"),
    "a link's target alone": copy("/", "/to", (INCLUDED, b"toward/file"), flags="c"),
    "a mode of a link": copy("/link", mode=0o600), "a mode of links": copy("/dir", mode=0o700),
    "an owner of a link": copy("/link", owner=owner()),
    "an owner of links": copy("/dir", owner=owner()),
    "an owner of what a link leads to": copy("/link", flags="f", owner=owner()),
    "one of two names": copy("/two"), "both of two names": copy("/two*", "/to/", flags="w"),
}
ONTO = {
    "a dest below a link": copy("/plain", "/toward/new"),
    "a dest that is a link to a directory": copy("/plain", "/toward"),
    "a dest that is a link to a directory, with a slash": copy("/plain", "/toward/"),
    "a dest that is a link to a file": copy("/plain", "/link"),
    "a dest below an absolute link": copy("/plain", "/absolute/sub/new"),
    "a dest below an escaping link": copy("/plain", "/escaping/new"),
    "a dest that is a dangling link": copy("/plain", "/dangling"),
    "a dest below a dangling link": copy("/plain", "/far/new"),
    "a dest below a loop": copy("/plain", "/loop/new"), "a directory at a link": copy("/dir", "/toward"),
    "a directory's content at a link": copy("/other", "/toward", flags="c"),
    "a link at a link": copy("/link", "/toward/"),
    "a file over a link, and a directory": copy("/other", "/", flags="c"),
    "a link over a directory": copy("/toward", "/other/"),
    "a link over a file": copy("/dangling", "/plain"), "a link over a link": copy("/dangling", "/other/link"),
    "an mkfile at a link": mkfile("/link"), "an mkfile at a dangling link": mkfile("/dangling"),
    "an mkfile at a link far away": mkfile("/far"),
    "an mkfile at a link to a directory": mkfile("/toward"), "an mkfile through a link": mkfile("/toward/new"),
    "an mkfile through an absolute link": mkfile("/absolute/new"),
    "an mkfile through an escaping link": mkfile("/escaping/new"),
    "an mkfile through a loop": mkfile("/loop/new"), "an mkfile over one of two names": mkfile("/two"),
    "an mkdir at a link to a directory": mkdir("/toward"), "an mkdir at a link to a file": mkdir("/link"),
    "an mkdir at a dangling link": mkdir("/dangling"),
    "an mkdir through a link": mkdir("/toward/new"),
    "an mkdir with parents through a link": mkdir("/absolute/a/b", True),
    "an mkdir with parents through a dangling link": mkdir("/dangling/a", True),
    "an mkdir through a loop": mkdir("/loop/new"),
    "an rm of a link": rm("/link"), "an rm of a link to a directory": rm("/toward"),
    "an rm of a dangling link": rm("/dangling"),
    "an rm of a dangling link that may be missing": rm("/dangling", allowNotFound=True),
    "an rm of a loop": rm("/loop", allowNotFound=True),
    "an rm through a link": rm("/toward/file"),
    "an rm through an absolute link": rm("/absolute/sub", allowNotFound=True),
    "an rm of links by a wildcard": rm("/l*", allowWildcard=True, allowNotFound=True),
    "an rm through a link by a wildcard": rm("/toward/*", allowWildcard=True, allowNotFound=True),
}  # fmt: skip
SCRIPTS = {
    "a call at a link": "write /link x", "a call at a dangling link": "write /dangling x",
    "a call through links": "append /twice/sub/deep x",
    "a call through an absolute link": "write /absolute/new x",
    "a call through an escaping link": "write /escaping/new x",
    "an mkdir of a call through a link": "mkdir /toward/new",
    "an mkdir -p of a call through a link": "mkdir -p /absolute/a/b",
    "an mkdir of a call at a link": "mkdir /toward",
    "an mkdir -p of a call at a dangling link": "mkdir -p /dangling/a",
    "an rm of a call of a link": "rm /toward", "an rm of a call through a link": "rm /toward/file",
    "a cp of a link": "cp /link /to", "a cp of a link into a directory": "cp /link /dir",
    "a cp into a link": "cp /plain /toward",
    "a cp of a link into a new directory": "mkdir /new && cp /link /new", "a chmod of a link": "chmod 700 /link",
    "a test of a link": "test -d /toward && test -f /link", "a call up from a link": "write /toward/../new x",
    "a link that a call removes": "rm /toward && mkdir /toward && write /toward/new x",
    "a loop of a call": "write /new x ; test -e /dir/inner",
}  # fmt: skip


def cases() -> list[Linked]:
    """Returns all cases."""
    found = []
    for name, action in COPIES.items():
        maker = Maker()
        found.append(maker.ends(f"a copy: {name}", maker.files(SCRATCH, action)))
    for name, action in ONTO.items():
        maker = Maker()
        found.append(maker.ends(name, maker.files(SOURCE, action)))
    for name, script in SCRIPTS.items():
        maker = Maker()
        found.append(maker.ends(name, maker.run(script, maker.entries[0]), True))
    return [*found, *merges(), *mounts(), *after_executions()]


def merges() -> list[Linked]:
    """Returns cases with merges, in which a link is a file."""
    found = []
    for name, action in {
        "a link": copy("/link", "/plain"), "a link over a directory": copy("/link", "/dir"),
        "a directory over a link": copy("/dir", "/toward/"),
        "a directory's content over a link": copy("/other", "/", flags="c"),
        "a file over a link": copy("/plain", "/link"),
    }.items():  # fmt: skip
        maker = Maker()
        found.append(maker.ends(f"a merge: {name}", maker.merge(maker.entries[0], maker.files(SCRATCH, action))))
        found.append(maker.ends(f"a merge below: {name}", maker.merge(maker.files(SCRATCH, action), maker.entries[0])))
    return found


def mounts() -> list[Linked]:
    """Returns cases of executions with a directory or a mount through a link."""
    found = []
    cases: list[tuple[str, str, str, dict[str, str]]] = [
        ("a selector", "cp /m/file /to", "/", {"dest": "/m", "selector": "/toward"}),
        ("a selector of an absolute link", "cp /m /to", "/", {"dest": "/m", "selector": "/absolute/inner"}),
        ("a selector of an escaping link", "cp /m/file /to", "/", {"dest": "/m", "selector": "/escaping"}),
        ("a dest", "cp /dir/sub/plain /to", "/", {"dest": "/toward/sub"}),
        ("a link of a mount", "cp /m/toward/file /to", "/", {"dest": "/m"}),
        ("an absolute link of a mount", "cp /m/absolute/file /to", "/", {"dest": "/m"}),
        ("a directory", "write new x", "/toward", {}),
        ("a directory through links", "write ../new x", "/twice/sub", {}),
    ]  # fmt: skip
    for name, script, cwd, mount in cases:
        maker = Maker()
        found.append(maker.ends(f"{name} of an execution", maker.run(script, maker.entries[0], cwd, **mount), True))
    return found


def after_executions() -> list[Linked]:
    """Returns cases that llbmd refuses: what an execution made is known only by running."""
    found = []
    for name, action in {
        "an mkfile through a link": mkfile("/toward/new"), "a dest below a link": copy("/plain", "/toward/new"),
        "an rm through a link": rm("/toward/file"),
    }.items():
        maker = Maker()
        ran = maker.run("true", maker.entries[0])
        found.append(maker.ends(f"{name} after an execution", maker.files(SOURCE, action, on=ran), True, True))
    maker = Maker()
    ran = maker.run("true", maker.entries[0])
    again = maker.run("write /toward/new x", ran)
    found.append(maker.ends("a call through a link after an execution", again, True, True))
    maker = Maker()
    found.append(maker.ends("a cp to a link", maker.run("cp /plain /link", maker.entries[0]), True, True))
    return found


def least() -> Linked:
    """Returns a case by which a daemon shows that it runs scripts of llbm."""
    maker = Maker()
    return maker.ends("an execution", maker.run("write /new x", maker.entries[0]), True)


def exported() -> Linked:
    """Returns the definition of which all exporters make the same: links, among them two names of one file."""
    maker = Maker()
    return maker.ends("all", maker.files(SCRATCH, copy("/", "/", flags="c")))
