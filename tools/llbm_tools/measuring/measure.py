"""Measures the program llbm: pairs of runs in the same minutes, and their ratios.

In: the measurements in the table in this file, or only those named NAME .. . The program is --llbm PROGRAM, or else
crates/llbm/out/llbm of the repository, or else its out/llbm-unproved, which is named on standard error as not proved
(it is much slower). Inputs are made by `large definition` and `large tree`, in a temporary folder that is removed
at the end. Each pair runs --runs N times (5 by default), the two runs one after the other; --part N makes all counts N
times smaller, for a quick look or a slow machine. --list prints the names and runs nothing. The pairs chain-go,
pairs-go and fan-go compare `show` with a program in Go, which `go_show` builds; where it can't, they are skipped.
With --scale the largest definitions that the limits allow are measured instead, or the one of the kind NAME. With
--repeated builds of 100,000 files are measured that are repeated after nothing or one file has changed, in turn with
`git status` on these files, which needs git.

Out: a line on standard error as each pair begins, or is skipped, and then on standard output a table in Markdown: for
each pair both runs, the medians of their seconds on the clock and of the processor, the most memory of all runs, and
the ratios of these. Ratios can be compared with those of another day; seconds cannot. The system counts the memory of
this tool, some 15 MB, for each run that takes less. With --scale the table has a column for each definition and a row
for each command, with 1 to 64 workers: the medians of its seconds on the clock and, in parentheses, of the processor,
and the most memory. With --repeated it has the least seconds of the build and of git.

Exit status: 0 the table is written; 1 a run did not end with status 0, or the program in Go was not built; 2 the
command line is refused, or the program does not exist; 3 a read or a write failed.
"""

import argparse
import os
import pathlib
import statistics
import subprocess
import sys
import tempfile
import time
from typing import NamedTuple

from llbm_tools.command_line import Parser
from llbm_tools.commands import line_of
from llbm_tools.common import check_open, say
from llbm_tools.measuring import go_show, largest_graphs, repeated_builds
from llbm_tools.streams import exit_status, program_at

RUNS = 5


class Side(NamedTuple):
    """One of two runs: words of `large definition`, of the program, and of `large tree` for each local source.

    Numbers that --part makes smaller are in braces. With `in_go` the program in Go runs in place of llbm.
    """

    definition: str
    words: str = "run"
    p: str = ""
    q: str = ""
    in_go: bool = False


class Pair(NamedTuple):
    """A measurement: its name, a run, and the run that it is compared with."""

    name: str
    side: Side
    other: Side


class Cost(NamedTuple):
    """The cost of a run: seconds on the clock and of the processor, and megabytes."""

    clock: float
    processor: float
    memory: float


class Broken(Exception):
    """A run did not exit with status 0."""


TREE = "{100000} {10000}"
SMALL = "{30000} {3000}"
OTHER_TREE = "{100000} {10000} 16 e"
DIRECTORIES = "{10000} {10000}"
WIDE = "{100000} 1"
BETWEEN = "{100000} 1 16 d x"
ONE_FILE = "1 1 {8388608}"

PAIRS = [
    Pair("chain", Side("chain {65535}"), Side("chain {32768}")),
    Pair("chain-show", Side("chain {65535}", "show"), Side("chain {32768}", "show")),
    Pair("chain-go", Side("chain {65535}", "show"), Side("chain {65535}", "show", in_go=True)),
    Pair("pairs-go", Side("pairs {65535}", "show"), Side("pairs {65535}", "show", in_go=True)),
    Pair("fan-go", Side("fan {30000}", "show"), Side("fan {30000}", "show", in_go=True)),
    Pair("chain-dis", Side("chain {65535}", "dis"), Side("chain {32768}", "dis")),
    Pair("chain-workers", Side("chain {65535}", "run --workers 4"), Side("chain {65535}")),
    Pair("chain-crowd", Side("chain {65535}", "run --workers 64"), Side("chain {65535}")),
    Pair("pairs", Side("pairs {32768}"), Side("pairs {16384}")),
    Pair("pairs-crowd", Side("pairs {65535}", "run --workers 64"), Side("pairs {65535}")),
    Pair("fan", Side("fan {30000}"), Side("fan {30000}", "show")),
    Pair("fan-workers", Side("fan {30000}", "run --workers 4"), Side("fan {30000}")),
    Pair("fan-crowd", Side("fan {30000}", "run --workers 64"), Side("fan {30000}")),
    Pair("files", Side("files {512}"), Side("files {256}")),
    Pair("execs", Side("execs {4000}"), Side("execs {2000}")),
    Pair("mounts", Side("mounts {1024}"), Side("mounts {512}")),
    Pair("routes", Side("routes {60000}"), Side("appends {60000}")),
    Pair("glob", Side("glob {127}"), Side("glob {63}")),
    Pair("source", Side("source 1", p="{300000} {30000}"), Side("source 1", p="{150000} {15000}")),
    Pair("rm", Side("rm 1", p=TREE), Side("source 1", p=TREE)),
    Pair("copy", Side("copy 1", p=DIRECTORIES), Side("source 1", p=DIRECTORIES)),
    Pair("lay-others", Side("lay 1", p=TREE, q=OTHER_TREE), Side("source 1", p=TREE)),
    Pair("lay-same", Side("lay 1", p=TREE, q=TREE), Side("source 1", p=TREE)),
    Pair("graft-others", Side("graft 1", p=TREE, q=OTHER_TREE), Side("source 1", p=TREE)),
    Pair("graft-same", Side("graft 1", p=TREE, q=TREE), Side("source 1", p=TREE)),
    Pair("layers", Side("layers {100}", p=TREE), Side("source 1", p=TREE)),
    Pair("wipe", Side("wipe 1", p=WIDE), Side("source 1", p=WIDE)),
    Pair("lay-between", Side("lay 1", p=WIDE, q=BETWEEN), Side("source 1", p=WIDE)),
    Pair("mkdirs", Side("mkdirs {1000}", p=WIDE), Side("source 1", p=WIDE)),
    Pair("appends", Side("appends {60000}"), Side("appends {30000}")),
    Pair("versions", Side("versions {8000}"), Side("versions {4000}")),
    Pair("seeds", Side("seeds {20000}"), Side("ids {20000}")),
    Pair("outputs", Side("outputs {1000}", p=SMALL), Side("source 1", p=SMALL)),
    Pair("binds", Side("binds {1000}", "run --workers 2", p=TREE), Side("binds {1000}", p=TREE)),
    Pair("layers-workers", Side("layers {50}", "run --workers 2", p=TREE), Side("layers {50}", p=TREE)),
    Pair("layers-crowd", Side("layers {50}", "run --workers 64", p=TREE), Side("layers {50}", p=TREE)),
    Pair("builds", Side("builds {100}", p=TREE), Side("source 1", p=TREE)),
    Pair("builds-workers", Side("builds {50}", "run --workers 2", p=TREE), Side("builds {50}", p=TREE)),
    Pair("builds-crowd", Side("builds {50}", "run --workers 64", p=TREE), Side("builds {50}", p=TREE)),
    Pair("reads", Side("reads {200}", p=TREE), Side("source 1", p=TREE)),
    Pair("reads-workers", Side("reads {200}", "run --workers 2", p=TREE), Side("reads {200}", p=TREE)),
    Pair("reads-crowd", Side("reads {200}", "run --workers 64", p=TREE), Side("reads {200}", p=TREE)),
    Pair("caches", Side("caches {100}", p=SMALL), Side("source 1", p=SMALL)),
    Pair("hashes-workers", Side("hashes 32", "run --workers 2", p=ONE_FILE), Side("hashes 32", p=ONE_FILE)),
    Pair("hashes-four", Side("hashes 32", "run --workers 4", p=ONE_FILE), Side("hashes 32", p=ONE_FILE)),
]


class Inputs:
    """The programs and the input files of the runs, each made once."""

    def __init__(self, folder: pathlib.Path, options: argparse.Namespace) -> None:
        self.folder = folder
        self.llbm: str = options.llbm
        self.part: int = options.part
        self.made: dict[str, pathlib.Path] = {}

    def smaller(self, text: str) -> list[str]:
        """Returns words in which the numbers in braces are made smaller."""
        words = text.split(" ")
        return [str(max(1, int(word.strip("{}")) // self.part)) if word.startswith("{") else word for word in words]

    def file(self, tool: str, text: str) -> pathlib.Path:
        """Returns the file that a tool writes for these words."""
        key = f"{tool} {text}"
        if key not in self.made:
            place = self.folder / str(len(self.made))
            with open(place, "wb") as file:
                subprocess.run(line_of(tool, *self.smaller(text)), stdout=file, check=True)
            self.made[key] = place
        return self.made[key]

    def sources(self, side: Side) -> list[str]:
        """Returns the words for the local sources of a run."""
        given = [("p", side.p), ("q", side.q)]
        return [f"{name}={self.file('large tree', text)}" for name, text in given if text]

    def program_in_go(self) -> pathlib.Path:
        """Returns the program in Go."""
        if "go" not in self.made:
            self.made["go"] = go_show.built(self.folder / "go")
        return self.made["go"]

    def command(self, side: Side) -> list[str]:
        """Returns the words of a run."""
        if side.in_go:
            return [str(self.program_in_go())]
        return [self.llbm, *side.words.split(" "), *self.sources(side)]


def cost_of(command: list[str], given: pathlib.Path) -> Cost:
    """Runs a command, and returns its cost."""
    with open(given, "rb") as definition:
        start = time.monotonic()
        child = subprocess.Popen(command, stdin=definition, stdout=subprocess.DEVNULL)
        _, status, used = os.wait4(child.pid, 0)
        child.returncode = os.waitstatus_to_exitcode(status)
    seconds = time.monotonic() - start
    if child.returncode:
        raise Broken(f"ended with status {child.returncode}: {' '.join(command)}")
    return Cost(seconds, used.ru_utime + used.ru_stime, used.ru_maxrss / 1000)


def middle(costs: list[Cost]) -> Cost:
    """Returns the medians of several runs, and the most memory of all."""
    clock = statistics.median(cost.clock for cost in costs)
    processor = statistics.median(cost.processor for cost in costs)
    return Cost(clock, processor, max(cost.memory for cost in costs))


def ratio(one: float, other: float) -> str:
    """Returns a ratio as a cell, or a dash if the other run is too short to measure."""
    return f"{one / other:.2f}" if other >= 0.001 else "-"


def text_of(side: Side, inputs: Inputs) -> str:
    """Returns a run as a cell."""
    trees = [f"{name}: {' '.join(inputs.smaller(text))}" for name, text in (("p", side.p), ("q", side.q)) if text]
    definition = " ".join(inputs.smaller(side.definition))
    words = f"`{side.words}` in Go" if side.in_go else f"`{side.words}`"
    return f"{words} of `{definition}`" + (f" ({', '.join(trees)})" if trees else "")


def row_of(pair: Pair, inputs: Inputs, runs: int) -> str:
    """Measures a pair, and returns its row."""
    sides = (pair.side, pair.other)
    commands = [(inputs.command(side), inputs.file("large definition", side.definition)) for side in sides]
    costs: list[list[Cost]] = [[], []]
    for _ in range(runs):
        for found, (command, given) in zip(costs, commands):
            found.append(cost_of(command, given))
    one, other = map(middle, costs)
    cells = [pair.name]
    for side, cost in ((pair.side, one), (pair.other, other)):
        cells += [text_of(side, inputs), f"{cost.clock:.2f} s", f"{cost.processor:.2f} s", f"{cost.memory:.0f} MB"]
    cells += [ratio(cost, against) for cost, against in zip(one, other)]
    return "| " + " | ".join(cells) + " |"


COSTS = ["Clock", "Processor", "Memory"]
HEAD = ["Name", "Run", *COSTS, "Against", *COSTS, "Ratio", "of processor", "of memory"]


def scale_rows(inputs: Inputs, options: argparse.Namespace) -> list[str]:
    """Measures the largest definitions, and returns the rows of their table."""

    def measured(command: list[str], given: pathlib.Path) -> str:
        cost = middle([cost_of(command, given) for _ in range(options.runs)])
        return f"{cost.clock:.2f} ({cost.processor:.2f}) s, {cost.memory:.0f} MB"

    def file(text: str) -> tuple[str, pathlib.Path]:
        return " ".join(inputs.smaller(text)), inputs.file("large definition", text)

    return largest_graphs.scale(inputs.llbm, options.name[0] if options.name else "", inputs.folder, file, measured)


def measure(options: argparse.Namespace) -> int:
    """Prints the table, and returns the exit status."""
    check_open(sys.stdout, "standard output")
    pairs = [pair for pair in PAIRS if not options.name or pair.name in options.name]
    if options.list:
        print("\n".join(pair.name for pair in pairs))
        return 0
    options.llbm = program_at(options.llbm)
    with tempfile.TemporaryDirectory(prefix="llbm-measure-") as folder:
        inputs = Inputs(pathlib.Path(folder), options)
        if options.repeated:
            definition, below = inputs.file("large definition", repeated_builds.DEFINITION), inputs.folder
            rows = repeated_builds.rows_of(below, inputs.llbm, definition, inputs.part, options.runs, cost_of)
            print("\n".join(rows))
            sys.stdout.flush()
            return 0
        if options.scale:
            print("\n".join(scale_rows(inputs, options)))
            sys.stdout.flush()
            return 0
        rows = []
        for pair in pairs:
            missing = go_show.missing() if pair.other.in_go else []
            if missing:
                say(f"{pair.name} is skipped, since there is no {', no '.join(missing)}")
                continue
            say(f"measuring {pair.name}")
            rows.append(row_of(pair, inputs, options.runs))
    print("\n".join(["| " + " | ".join(HEAD) + " |", "|---" * len(HEAD) + "|", *rows]))
    sys.stdout.flush()
    return 0


def number(word: str) -> int:
    """Parses a number that is at least 1."""
    if not word.isdecimal() or not word.isascii() or not int(word):
        raise argparse.ArgumentTypeError(f"{word!r} is not a number above 0")
    return int(word)


def parse_options() -> argparse.Namespace:
    """Parses the command line."""
    parser = Parser(description="Measures the program llbm: pairs of runs, and their ratios.")
    parser.add_argument("--llbm", metavar="PROGRAM", help="the program llbm")
    parser.add_argument("--runs", metavar="N", type=number, default=RUNS, help="the number of runs of each pair")
    parser.add_argument("--part", metavar="N", type=number, default=1, help="make all counts N times smaller")
    parser.add_argument("--list", action="store_true", help="print the names of the measurements")
    parser.add_argument("--scale", action="store_true", help="measure the largest definitions that the limits allow")
    parser.add_argument("--repeated", action="store_true", help="measure repeated builds beside `git status`")
    parser.add_argument("name", metavar="NAME", nargs="*", help="a measurement (default: all)")
    options = parser.parse_args()
    known = largest_graphs.kinds() if options.scale else {pair.name for pair in PAIRS}
    for name in options.name:
        if name not in known:
            parser.error(f"there is no measurement {name}; --list prints their names")
    return options


def work(options: argparse.Namespace) -> int:
    """Measures, and returns the exit status."""
    try:
        return measure(options)
    except (Broken, go_show.NotBuilt) as fault:
        say(str(fault))
        return 1


def main() -> int:
    """Runs the tool, and returns its exit status."""
    options = parse_options()
    return exit_status(lambda: work(options))
