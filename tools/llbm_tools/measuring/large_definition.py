"""Writes a large definition of one kind, for measuring growth.

In: KIND and COUNT. The kinds:

  chain   COUNT mkdir vertices, each on the one before.
  fan     COUNT mkfile vertices under merges of up to 1,024 inputs.
  pairs   COUNT file vertices, each with two inputs among the earlier ones.
  files   COUNT mkfile actions of 4 KiB, in ops of 512.
  glob    a file whose name is COUNT times `a`, and an rm with a pattern of COUNT stars that matches nothing.
  execs   COUNT executions, each of which appends a line to a file of the one before.
  mounts  one execution with COUNT mounts and as many commands.
  routes  one execution with 1,024 mounts and COUNT commands, all of which write a file below the last of them.
  appends  one execution that appends COUNT lines to a file.
  versions  COUNT mkfile vertices, each on the one before, all in one directory.
  seeds   COUNT executions, each with a locked cache of one ID that starts from the output of the one before.
  ids     the same with COUNT IDs.

The following use the local trees p and q (texts by `large tree`); source, rm, wipe, copy, lay and graft ignore COUNT:

  source  the tree p.
  rm      p without all its files, which one pattern removes.
  copy    the lower directories of p, which one pattern copies to the root of the empty tree.
  lay     a merge of p and q.
  graft   all of q copied onto p.
  layers  COUNT mkdir vertices, each on the one before, the first on p.
  builds  the same, with executions that write a file.
  reads   COUNT executions that each list p, mounted read-only, into a file, and a merge of them.
  hashes  COUNT executions that each hash the one file of p (`large tree 1 1 BYTES`) four times, and a merge of them.
  caches  COUNT executions, each on the one before, with 8 commands on one locked cache that starts from p.
  wipe    p without the files of its one directory (`large tree FILES 1`), which one pattern removes.
  mkdirs  one execution that makes COUNT directories in the one directory of p.
  binds   one execution that shows p at COUNT places, read-only but for the root.
  outputs  COUNT executions that each write a file into p, and merges of their outputs.

Out: the definition on standard output. The same arguments always write the same definition.

Exit status: 0 the definition is written; 2 the command line is refused; 3 a write failed.
"""

import argparse
import sys

from llbm_tools.command_line import Parser
from llbm_tools.common import check_open
from llbm_tools.llb import messages
from llbm_tools.llb.messages import edge, encoded, made
from llbm_tools.streams import exit_status

MOST_INPUTS = 1024
MOST_ACTIONS = 512
MOST_MOUNTS = 1024
MOST_COUNT = 65_535

Entries = list[bytes]


def file_op(inputs: Entries, *actions: messages.Message) -> bytes:
    """Returns a file op with these actions and inputs."""
    return encoded(made("Op", inputs=tuple(map(edge, inputs)), file=made("FileOp", actions=actions)))


def mkdir(path: str, on: int) -> messages.Message:
    """Returns the action that makes a directory on a tree, with output 0."""
    values = made("FileActionMkDir", path=path, mode=0o755, timestamp=-1)
    return made("FileAction", input=on, secondaryInput=-1, mkdir=values)


def mkfile(path: str, data: bytes, on: int = -1, output: int = 0) -> messages.Message:
    """Returns the action that makes a file on a tree."""
    values = made("FileActionMkFile", path=path, mode=0o644, data=data, timestamp=-1)
    return made("FileAction", input=on, secondaryInput=-1, output=output, mkfile=values)


def merge(entries: Entries) -> bytes:
    """Returns a merge of the outputs of entries."""
    places = tuple(made("MergeInput", input=place) for place in range(len(entries)))
    return encoded(made("Op", inputs=tuple(map(edge, entries)), merge=made("MergeOp", inputs=places)))


def source(name: str) -> bytes:
    """Returns a local source."""
    return encoded(made("Op", source=made("SourceOp", identifier=f"local://{name}")))


def mount(dest: str, shown: int, output: int, **others: messages.Givens) -> messages.Message:
    """Returns a mount of an input."""
    return made("Mount", input=shown, dest=dest, output=output, **others)


def execution(inputs: Entries, script: str, *mounts: messages.Message) -> bytes:
    """Returns an execution of a script."""
    meta = made("Meta", args=("/bin/sh", "-c", script), cwd="/")
    return encoded(made("Op", inputs=tuple(map(edge, inputs)), exec=made("ExecOp", meta=meta, mounts=mounts)))


def chain(count: int) -> Entries:
    """Makes directories, each on the vertex before it; the entries differ because their inputs' digests do."""
    entries: Entries = []
    for number in range(count):
        path = "/d" if number % 2 else f"/e{number % 7}"
        entries.append(file_op(entries[-1:], mkdir(path, 0 if number else -1)))
    return entries


def fan(count: int) -> Entries:
    """Makes files, and merges of them."""
    level = [file_op([], mkfile(f"/f{number}", b"x")) for number in range(count)]
    entries = list(level)
    while len(level) > 1:
        level = [merge(level[place : place + MOST_INPUTS]) for place in range(0, len(level), MOST_INPUTS)]
        entries += level
    return entries


def pairs(count: int) -> Entries:
    """Makes vertices with two inputs each."""
    entries: Entries = []
    for number in range(count):
        inputs = [entries[number - 1], entries[number // 2]] if number else []
        entries.append(file_op(inputs, mkdir(f"/d{number % 13}", 0 if number else -1)))
    return entries


def files(count: int) -> Entries:
    """Makes files of 4 KiB, each on the one before it."""
    entries: Entries = []
    for start in range(0, count, MOST_ACTIONS):
        inputs = len(entries[-1:])
        several = min(MOST_ACTIONS, count - start)
        actions = []
        for place in range(several):
            on = place - 1 + inputs if place or inputs else -1
            data = b"%04x" % (start + place) * 1024
            actions.append(mkfile(f"/f{start + place}", data, on, 0 if place == several - 1 else -1))
        entries.append(file_op(entries[-1:], *actions))
    return entries


def glob(count: int) -> Entries:
    """Makes a file, and an rm whose pattern has to be tried at all positions of its name."""
    one = file_op([], mkfile("/" + "a" * count, b"x"))
    values = made("FileActionRm", path="*a" * count + "b", allowNotFound=True, allowWildcard=True)
    return [one, file_op([one], made("FileAction", secondaryInput=-1, rm=values))]


def execs(count: int) -> Entries:
    """Makes executions on one file that grows."""
    entries: Entries = []
    for number in range(count):
        entries.append(execution(entries[-1:], f"append /log {number}", mount("/", 0 if number else -1, 0)))
    return entries


def mounts(count: int) -> Entries:
    """Makes one execution with many mounts."""
    script = " && ".join(f"write /m{number}/f {number}" for number in range(1, count))
    others = (mount(f"/m{number}", -1, -1) for number in range(1, count))
    return [execution([], script or "true", mount("/", -1, 0), *others)]


def routes(count: int) -> Entries:
    """Makes one execution with as many mounts as it may have, and many commands."""
    last = MOST_MOUNTS - 1
    others = (mount(f"/m{number}", -1, -1) for number in range(1, MOST_MOUNTS))
    return [execution([], " && ".join([f"write /m{last}/f k"] * count), mount("/", -1, 0), *others)]


def rm(_count: int) -> Entries:
    """Makes a local tree from which a pattern removes all files."""
    values = made("FileActionRm", path="/*/*/*", allowNotFound=True, allowWildcard=True)
    given = [source("p")]
    return [*given, file_op(given, made("FileAction", secondaryInput=-1, rm=values))]


def copy(_count: int) -> Entries:
    """Copies directories of a local tree by a pattern."""
    values = made("FileActionCopy", src="/*/*", dest="/", mode=-1, allowWildcard=True, timestamp=-1)
    given = [source("p")]
    return [*given, file_op(given, made("FileAction", input=-1, copy=values))]


def lay(_count: int) -> Entries:
    """Merges two local trees."""
    locals_given = [source("p"), source("q")]
    return [*locals_given, merge(locals_given)]


def graft(_count: int) -> Entries:
    """Copies a local tree onto another one."""
    locals_given = [source("p"), source("q")]
    values = made("FileActionCopy", src="/", dest="/", mode=-1, dirCopyContents=True, timestamp=-1)
    return [*locals_given, file_op(locals_given, made("FileAction", secondaryInput=1, copy=values))]


def layers(count: int) -> Entries:
    """Makes directories on a local tree."""
    entries = [source("p")]
    for number in range(count):
        entries.append(file_op(entries[-1:], mkdir(f"/layer{number}", 0)))
    return entries


def builds(count: int) -> Entries:
    """Makes executions on a local tree."""
    entries = [source("p")]
    for number in range(count):
        script = f"write /log{number} k && append /log{number} k"
        entries.append(execution(entries[-1:], script, mount("/", 0, 0)))
    return entries


def side_by_side(count: int, script: str) -> Entries:
    """Makes executions that each mount a local tree at `/in`, and a merge of them; K in a script is the number."""
    entries = [source("p")]
    for number in range(count):
        shown = (mount("/", -1, 0), mount("/in", 0, -1, readonly=True))
        entries.append(execution(entries[:1], script.replace("K", str(number)), *shown))
    return [*entries, merge(entries[1:])]


def reads(count: int) -> Entries:
    """Makes executions that list a local tree."""
    return side_by_side(count, "listing /in /outK")


def hashes(count: int) -> Entries:
    """Makes executions that hash a file."""
    return side_by_side(count, " && ".join(f"sha256 /in/d000/s00000/f000000 /hK-{number}" for number in range(4)))


def caches(count: int) -> Entries:
    """Makes executions on one locked cache."""
    entries = [source("p")]
    for number in range(count):
        script = " && ".join(f"append /c/log {8 * number + place}" for place in range(8))
        options = made("CacheOpt", ID="k", sharing=2)
        shown = (mount("/", 0, 0), mount("/c", 1, -1, mountType=3, cacheOpt=options))
        entries.append(execution([entries[-1], entries[0]], script, *shown))
    return entries


def binds(count: int) -> Entries:
    """One execution that shows a local tree at many places."""
    given = [source("p")]
    shown = (mount(f"/m{number}", 0, -1, readonly=True) for number in range(1, count))
    return [*given, execution(given, "write /done k", mount("/", 0, 0), *shown)]


def wipe(_count: int) -> Entries:
    """A local tree with one wide directory, from which a pattern removes all files."""
    values = made("FileActionRm", path="/d000/s00000/*", allowNotFound=True, allowWildcard=True)
    given = [source("p")]
    return [*given, file_op(given, made("FileAction", secondaryInput=-1, rm=values))]


def mkdirs(count: int) -> Entries:
    """One execution that makes directories in one directory of a local tree."""
    given = [source("p")]
    script = " && ".join(f"mkdir -p /d000/s00000/n{number}" for number in range(count))
    return [*given, execution(given, script, mount("/", 0, 0))]


def appends(count: int) -> Entries:
    """One execution that appends lines to a file."""
    return [execution([], " && ".join(["append /log k"] * count), mount("/", -1, 0))]


def seeded(count: int, names: int) -> Entries:
    """Executions that each mount a locked cache that starts from the output of the one before, with NAMES cache IDs."""
    entries: Entries = []
    for number in range(count):
        options = made("CacheOpt", ID=f"k{number % names}", sharing=2)
        cache = mount("/c", 0 if number else -1, -1, mountType=3, cacheOpt=options)
        entries.append(execution(entries[-1:], f"write /n {number}", mount("/", -1, 0), cache))
    return entries


def seeds(count: int) -> Entries:
    """Executions with caches of one ID, each with another seed."""
    return seeded(count, 1)


def ids(count: int) -> Entries:
    """The same with as many IDs."""
    return seeded(count, count)


def versions(count: int) -> Entries:
    """Files in one directory, each in a vertex on the one before."""
    entries: Entries = []
    for number in range(count):
        entries.append(file_op(entries[-1:], mkfile(f"/f{number}", b"x", 0 if number else -1)))
    return entries


def outputs(count: int) -> Entries:
    """Executions that each write a file into a local tree, and a merge of their outputs."""
    entries = [source("p")]
    for number in range(count):
        entries.append(execution(entries[:1], f"write /w{number} k", mount("/", 0, 0)))
    level = entries[1:]
    while len(level) > 1:
        level = [merge(level[place : place + MOST_INPUTS]) for place in range(0, len(level), MOST_INPUTS)]
        entries += level
    return entries


KINDS = {
    "chain": chain, "fan": fan, "pairs": pairs, "files": files, "glob": glob, "execs": execs, "mounts": mounts,
    "routes": routes, "source": lambda _count: [source("p")], "rm": rm, "copy": copy, "lay": lay, "graft": graft,
    "layers": layers, "builds": builds, "reads": reads, "hashes": hashes, "caches": caches, "appends": appends,
    "versions": versions, "seeds": seeds, "ids": ids, "wipe": wipe, "mkdirs": mkdirs, "binds": binds,
    "outputs": outputs,
}


def count_of(word: str) -> int:
    """Parses COUNT."""
    if not word.isdecimal() or not word.isascii() or not 1 <= int(word) <= MOST_COUNT:
        raise argparse.ArgumentTypeError(f"{word!r} is not a number from 1 to {MOST_COUNT}")
    return int(word)


def parse_options() -> argparse.Namespace:
    """Parses the command line."""
    parser = Parser(
        description=__doc__, formatter_class=argparse.RawDescriptionHelpFormatter
    )
    parser.add_argument("kind", metavar="KIND", choices=KINDS, help="one of the kinds above")
    parser.add_argument("count", metavar="COUNT", type=count_of, help=f"1 to {MOST_COUNT:,}")
    return parser.parse_args()


def write(options: argparse.Namespace) -> None:
    """Writes the definition."""
    check_open(sys.stdout, "standard output")
    entries = KINDS[options.kind](options.count)
    terminal = encoded(made("Op", inputs=(edge(entries[-1]),)))
    sys.stdout.buffer.write(messages.definition_of([*entries, terminal]))
    sys.stdout.flush()


def main() -> int:
    """Runs the tool, and returns its exit status."""
    options = parse_options()
    return exit_status(lambda: write(options))
