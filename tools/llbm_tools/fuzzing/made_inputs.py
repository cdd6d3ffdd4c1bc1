"""Makes random inputs of the program that mostly obey its rules: ops, trees and sessions.

All randomness comes from the generator that is passed in, so equal seeds make equal inputs.
"""

import random

from llbm_tools.fuzzing import applet_calls
from llbm_tools.llb import messages
from llbm_tools.llb.messages import Givens, Message, made

ALPHA, OMEGA = "\N{GREEK SMALL LETTER ALPHA}", "\N{GREEK SMALL LETTER OMEGA}"

SOURCES = ["p", "q", "source", "words", "a b"]
PATHS = ["/a", "/b", "/a/b", "/a/c", "/d", "/d/e", "/d/e/f", "/src/x.c", "/src/y.c", "/src", "/.h", "/-"]
STRANGE_PATHS = [
    "", "/", ".", "..", "a", "a/b", "//a//b/", "/a/../b", "/a/.", "/a/", ALPHA, "/" + ALPHA, "/a\tb", "/\x7f", "/a b",
    "/" + "n" * 255, "/" + "n" * 256, "/x" * 128, "/x" * 129, "/\U00010000", "/..", "/...", "/a\nb", "/[a]", "/*",
]
ATOMS = [
    "*", "?", "[a-c]", "[^a-c]", "[abc]", "[^a]", "[b-a]", "[a^[*]", r"[\]\-]", r"\*", r"\a", "a", "b", ".c", "x", "/",
    "**", "[a-z]*", f"[{ALPHA}-{OMEGA}]", "[ -~]", r"[\^]", "[?]", "src", "d", "e",
]
WRONG_ATOMS = ["[]", "[^]", "[a", "[-a]", "[a-]", "[a-b-c]", "\\", "[", "[^", "]", "[a/b]", r"[\]", "\x01"]
WORDS = ["k", "x=1", "long" * 20, "a,b:c@d%e+f", ALPHA, "0", "-", "--", "-e", "%0"]
STRANGE_WORDS = ["'a b'", '"x"', "$HOME", "a;b", "a&b", "|", "&", "\\", "`ls`", "~", "(", "#", "\t", "*", "\x7f", "!"]
SEPARATORS = ["&&", "&&", "&&", ";", ";", "||"]
COMMANDS = [
    *["next"] * 4, *["claim W V"] * 3, *["step W"] * 3, *["settle W"] * 2, "cancel W", *["back"] * 3, "go",
    "break claim V", "break settle V", "break fail", "clear", "tree V I",
]
MODES = [0, 420, 493, 448, 4095, 4096, 0o7777777, -1, 2147483647]
IDS = ["k", "objects", ALPHA + " b"]
NAMES = ["a", "b", "c", "x.c", "y.c", "d", "e", "-", ".h", ALPHA, "a-b", "A", "z z", "src", "\U00010000"]
ENTRIES = ["LANG=C", "A=b", "", "=", ALPHA + "=1"]


def one_in(dice: random.Random, count: int) -> bool:
    """Returns true in one of `count` cases."""
    return dice.random() * count < 1


def path(dice: random.Random) -> str:
    """Returns a path, now and then a strange one."""
    return dice.choice(STRANGE_PATHS if one_in(dice, 25) else PATHS)


def pattern(dice: random.Random) -> str:
    """Returns a pattern, now and then a wrong one."""
    atoms = [dice.choice(ATOMS) for _ in range(dice.randint(1, 5))]
    if one_in(dice, 12):
        atoms.insert(dice.randint(0, len(atoms)), dice.choice(WRONG_ATOMS))
    return "/" + "".join(atoms)


def owner(dice: random.Random) -> Message | None:
    """Returns an owner, in most cases none."""
    if not one_in(dice, 5):
        return None
    ids = [made("UserOpt", byID=dice.choice([0, 1, 7, 4294967295])) if one_in(dice, 2) else None for _ in range(2)]
    if one_in(dice, 30):
        ids[0] = made("UserOpt", byName=b"root")
    return made("ChownOpt", user=ids[0], group=ids[1])


def copy(dice: random.Random) -> Message:
    """Returns a copy."""
    wild = one_in(dice, 3)
    values: dict[str, Givens] = {
        "src": pattern(dice) if wild else path(dice),
        "dest": path(dice) + dice.choice(["", "", "/"]),
        "owner": owner(dice),
        "mode": dice.choice(MODES),
        "followSymlink": one_in(dice, 8),
        "dirCopyContents": one_in(dice, 3),
        "attemptUnpackDockerCompatibility": one_in(dice, 80),
        "createDestPath": not one_in(dice, 4),
        "allowWildcard": wild,
        "allowEmptyWildcard": not one_in(dice, 3),
        "timestamp": dice.choice([0, -1, 5]),
    }
    if one_in(dice, 80):
        values[dice.choice(["include_patterns", "exclude_patterns"])] = (pattern(dice),)
    return made("FileActionCopy", **values)


def mkfile(dice: random.Random) -> Message:
    """Returns a mkfile."""
    data = bytes(dice.randrange(256) for _ in range(dice.choice([0, 1, 2, 9])))
    mode = dice.choice(MODES)
    return made("FileActionMkFile", path=path(dice), mode=mode, data=data, owner=owner(dice), timestamp=-1)


def mkdir(dice: random.Random) -> Message:
    """Returns a mkdir."""
    parents = not one_in(dice, 4)
    return made("FileActionMkDir", path=path(dice), mode=dice.choice(MODES), makeParents=parents, owner=owner(dice))


def rm(dice: random.Random) -> Message:
    """Returns an rm."""
    wild = one_in(dice, 2)
    text = pattern(dice) if wild else path(dice)
    return made("FileActionRm", path=text, allowNotFound=not one_in(dice, 4), allowWildcard=wild)


def outputs(dice: random.Random, count: int) -> list[int]:
    """Returns the outputs of actions or mounts: some have one, numbered from 0, each once."""
    places = sorted(dice.sample(range(count), dice.randint(1, min(count, 3))))
    numbers = list(range(len(places)))
    dice.shuffle(numbers)
    output_of = dict(zip(places, numbers))
    return [output_of.get(place, -1) for place in range(count)]


def file_op(dice: random.Random, inputs: tuple[Message, ...]) -> tuple[Message, int]:
    """Returns a file op on inputs, and how many outputs it has."""
    count = dice.randint(1, 5)
    actions = []
    for place, output in enumerate(numbers := outputs(dice, count)):
        kind = dice.choice(["copy", "mkfile", "mkdir", "mkdir", "rm"])
        makers = {"copy": copy, "mkfile": mkfile, "mkdir": mkdir, "rm": rm}
        most = len(inputs) + place - 1
        action: dict[str, Givens] = {"input": dice.randint(max(-1, most - 2), most), "output": output}
        action[kind] = makers[kind](dice)
        action["secondaryInput"] = dice.randint(-1, most) if kind == "copy" else -1
        actions.append(made("FileAction", **action))
    return made("Op", inputs=inputs, file=made("FileOp", actions=tuple(actions))), sum(one >= 0 for one in numbers)


def call(dice: random.Random) -> list[str]:
    """Returns a call of an applet, now and then a wrong one."""
    words = []
    for word in dice.choice(applet_calls.calls()):
        if word == applet_calls.PATH:
            at = dice.choice(["", "", "", "/in", "/tmp", "/cache"])
            word = (at + path(dice)).replace(" ", "") or "/"
        elif word == applet_calls.MODE:
            word = dice.choice(["0644", "7", "0777", "755", "4755", "0000"])
        words.append(dice.choice(WORDS) if word == applet_calls.WORD else word)
    if one_in(dice, 60):
        words.insert(dice.randint(0, len(words)), dice.choice(STRANGE_WORDS + ["apk", "ls"]))
    if one_in(dice, 80):
        words.pop(dice.randrange(len(words)))
    return words


def script(dice: random.Random) -> str:
    """Returns calls with separators between them."""
    words = call(dice)
    for _ in range(dice.choice([0, 1, 2, 3, 5])):
        words += [dice.choice(SEPARATORS), *call(dice)]
    if one_in(dice, 60):
        words.insert(dice.randint(0, len(words)), dice.choice(SEPARATORS))
    return dice.choice([" ", " ", " ", "  "]).join(words)


def args(dice: random.Random) -> tuple[str, ...]:
    """Returns the words of an exec."""
    if one_in(dice, 6):
        words = call(dice)
        return (*words[:-1], dice.choice(WORDS + STRANGE_WORDS)) if one_in(dice, 3) else tuple(words)
    return ("/bin/sh", "-c", script(dice))


def cache_mount(dice: random.Random, dest: str, most: int) -> Message:
    """Returns a cache mount."""
    options = made("CacheOpt", ID=dice.choice(IDS), sharing=dice.randrange(3))
    shown, selector = dice.randint(-1, most), dice.choice(["", "", "/a"])
    return made("Mount", input=shown, selector=selector, dest=dest, output=-1, mountType=3, cacheOpt=options)


def mounts(dice: random.Random, count: int) -> tuple[tuple[Message, ...], int]:
    """Returns mounts that show some of `count` inputs, and how many of the mounts have an output."""
    dests = ["/", *dice.sample(["/in", "/tmp", "/cache", "/a", "/a/b", "//d/."], dice.choice([0, 1, 2, 2, 3]))]
    numbers = outputs(dice, len(dests))
    made_mounts, output_count = [], 0
    for dest, output in zip(dests, numbers):
        kind = "bind" if dest == "/" or output >= 0 else dice.choice(["bind", "bind", "tmpfs", "cache"])
        output_count += output >= 0
        if kind == "cache" and not one_in(dice, 3):
            made_mounts.append(cache_mount(dice, dest, count - 1))
        elif kind == "tmpfs":
            size = made("TmpfsOpt", size=dice.choice([0, 1, 1 << 40])) if one_in(dice, 3) else None
            made_mounts.append(made("Mount", input=-1, dest=dest, output=-1, mountType=4, TmpfsOpt=size))
        else:
            selector = dice.choice(["", "", "", "/a", "/src", "/none"])
            shown, readonly = dice.randint(-1, count - 1), one_in(dice, 4)
            made_mounts.append(
                made("Mount", input=shown, selector=selector, dest=dest, output=output, readonly=readonly)
            )
    if one_in(dice, 4):
        dice.shuffle(made_mounts)
    return tuple(made_mounts), output_count


def exec_op(dice: random.Random, inputs: tuple[Message, ...]) -> tuple[Message, int]:
    """Returns an exec on inputs, and how many outputs it has."""
    shown, count = mounts(dice, len(inputs))
    env = tuple(dice.choices(ENTRIES, k=dice.choice([0, 0, 1, 2])))
    meta = made("Meta", args=args(dice), env=env, cwd=dice.choice(["/", "", "/a", "/in", "/work"]))
    return made("Op", inputs=inputs, exec=made("ExecOp", meta=meta, mounts=shown)), count


def merge_op(dice: random.Random, inputs: tuple[Message, ...]) -> tuple[Message, int]:
    """Returns a merge of inputs, which has one output."""
    places = [dice.randint(-1 if one_in(dice, 6) else 0, len(inputs) - 1) for _ in range(dice.randint(1, 4))]
    merged = tuple(made("MergeInput", input=place) for place in places)
    return made("Op", inputs=inputs, merge=made("MergeOp", inputs=merged)), 1


def source_op(dice: random.Random) -> tuple[Message, int]:
    """Returns a source, now and then an unsupported or a missing one; it has one output."""
    identifier = "local://" + dice.choice(SOURCES)
    if one_in(dice, 60):
        identifier = dice.choice(["docker-image://a", "local://", "local://missing", "git://a", "", "local:///"])
    attrs = (made("AttributeEntry", key="local.unique", value="a"),) if one_in(dice, 8) else ()
    return made("Op", source=made("SourceOp", identifier=identifier, attrs=attrs)), 1


class Entries:
    """Ops that are made one after another, with how many outputs each has."""

    def __init__(self, dice: random.Random) -> None:
        self.dice = dice
        self.ops: list[Message] = []
        self.bytes: list[bytes] = []
        self.outputs: list[int] = []

    def add(self, op: Message, outputs_of_it: int) -> None:
        """Adds an op."""
        self.ops.append(op)
        self.bytes.append(messages.encoded(op))
        self.outputs.append(outputs_of_it)

    def some_edge(self) -> Message:
        """Returns an edge to an output, more often of a late entry."""
        place = max(self.dice.randrange(len(self.ops)), self.dice.randrange(len(self.ops)))
        index = self.dice.randrange(self.outputs[place])
        if one_in(self.dice, 150):
            index += self.dice.choice([1, -1, 1 << 32])
        return messages.edge(self.bytes[place], index)

    def some_op(self) -> tuple[Message, int]:
        """Returns an op on some of the earlier entries."""
        most = 0 if not self.ops else self.dice.choice([0, 1, 1, 2, 2, 3])
        inputs = tuple(self.some_edge() for _ in range(most))
        kind = self.dice.choice(["file", "file", "exec", "exec", "merge", "source"])
        if kind == "source" or (kind == "merge" and not inputs):
            return source_op(self.dice)
        return {"file": file_op, "exec": exec_op, "merge": merge_op}[kind](self.dice, inputs)


def ops(dice: random.Random) -> list[Message]:
    """Returns the canonical ops of a definition; the last one names the result."""
    entries = Entries(dice)
    for _ in range(dice.choice([1, 2, 3, 4, 5, 6, 8, 12])):
        entries.add(*entries.some_op())
    late = messages.edge(entries.bytes[-1], dice.randrange(entries.outputs[-1]))
    return [*entries.ops, made("Op", inputs=(late if dice.random() < 0.9 else entries.some_edge(),))]


def tree(dice: random.Random) -> bytes:
    """Returns the text of a random tree."""
    places: dict[tuple[bytes, ...], bool] = {(): True}
    for _ in range(dice.choice([0, 2, 5, 12])):
        above = dice.choice([place for place, is_dir in places.items() if is_dir])
        name = dice.choice(NAMES if dice.random() < 0.95 else ["n" * 255, "~", "\xa0"]).encode()
        places.setdefault((*above, name), dice.random() < 0.5)
    lines = []
    for place in sorted(places):
        mode = f"{dice.choice([0o755, 0o644, 0, 0o7777]):04o} {dice.choice([0, 7, 4294967295])} {dice.choice([0, 5])} "
        content = b"" if places[place] else (dice.randbytes(dice.randrange(6)).hex() or "-").encode() + b" "
        lines.append((b"d " if places[place] else b"f ") + mode.encode() + content + b"/" + b"/".join(place))
    return b"".join(line + b"\n" for line in lines)


def command(dice: random.Random, vertices: int, workers: int) -> str:
    """Returns a session command for this many vertices and workers, in most cases a valid one."""
    vertex = dice.randrange(vertices + (1 if one_in(dice, 10) else 0))
    worker = dice.randrange(workers + (1 if one_in(dice, 20) else 0))
    template = dice.choice(COMMANDS)
    return template.replace("V", str(vertex)).replace("W", str(worker)).replace("I", str(dice.randrange(2)))
