"""Runs a command, and prints how many processor minutes each crate took below it, in proofs, tests' proofs and edits.

In: the words of a command, `rt ci` if there are none. While it runs, the processes below it are looked at in /proc once
in a second: what each of them has used of the processors, and, of a process of the prover, its crate and whether it
proves the crate, the crate's tests, or an edit that has to be refused. A process that begins and ends between two looks
is not seen. Processor time is steadier than the clock on a machine that others use too.

Out: what the command prints; then on standard output a table with a line for each crate, the dearest first, `(other)`
for the processes that are not the prover's, and a line for all; and lines with all processor minutes, those on the
clock, and the minutes in units:

    crate            proof   tests   edits     sum   processor minutes
    llb_tree           7.5     0.0     6.1    13.6
    (other)            1.2     0.0     0.0     1.2
    all                8.7     0.0     6.1    14.8
    14.8 processor minutes, 4.1 on the clock with 4 processors
    9.5 units of 1.56 minutes

A unit is what the proofs of eight crates take in the same run: llb_wire, llb_ops, llb_tree, llb_mount, llb_cache,
llb_asm, llb_applet and llb_loader. A slow host has longer minutes, but not more units. The line is left out if one of
the eight was not proved in the run.

Exit status: that of the command, or 128 and the number of the signal that ended it; 2 if it does not start; 130
interrupted.
"""

import argparse
import contextlib
import os
import pathlib
import signal
import subprocess
import sys
import threading
import time
from collections.abc import Iterator
from typing import NamedTuple

from llbm_tools.command_line import Parser
from llbm_tools.os_errors import in_words
from llbm_tools.streams import Refused, exit_status

PROC = pathlib.Path("/proc")
TICKS = os.sysconf("SC_CLK_TCK")
PAUSE = 1.0
MINUTE = 60

KINDS = ("proof", "tests", "edits")
PROOF, TESTS, EDITS = KINDS
OTHER = "(other)"
# The crates whose proofs are one unit of processor time.
UNIT = ("llb_wire", "llb_ops", "llb_tree", "llb_mount", "llb_cache", "llb_asm", "llb_applet", "llb_loader")
CRATE, IS_TEST, EDIT = "--crate-name", "--test", "rt-edit-"
PROVER = "rattle"


class Process(NamedTuple):
    """A process at a moment: its parent, when it started, and the seconds that it used of the processors."""

    parent: int
    start: str
    seconds: float


class Part(NamedTuple):
    """What a process works on: a crate or `(other)`, and its proof, its tests' proof or one of its edits."""

    crate: str
    kind: str


def process_in(stat: str) -> Process:
    """Returns a process from its line in /proc, whose second word is in parentheses and may have any characters."""
    words = stat.rpartition(") ")[2].split()
    return Process(int(words[1]), words[19], (int(words[11]) + int(words[12])) / TICKS)


def processes() -> dict[int, Process]:
    """Returns all processes by number; those that end meanwhile are left out."""
    found = {}
    for name in filter(str.isdecimal, os.listdir(PROC)):
        with contextlib.suppress(OSError, ValueError, IndexError):
            found[int(name)] = process_in((PROC / name / "stat").read_text("utf-8", "replace"))
    return found


def below(roots: list[int], known: dict[int, Process]) -> Iterator[int]:
    """Yields the numbers of processes and of all that they started, and that those started."""
    children: dict[int, list[int]] = {}
    for number, process in known.items():
        if number not in roots:
            children.setdefault(process.parent, []).append(number)
    waiting = list(roots)
    while waiting:
        number = waiting.pop()
        if number in known:
            yield number
        waiting += children.pop(number, [])


def part_of(words: list[str], folder: str) -> Part:
    """Returns what a process works on, by its words and its working directory."""
    if not words or CRATE not in words[:-1] or PROVER not in os.path.basename(words[0]):
        return Part(OTHER, PROOF)
    crate = words[words.index(CRATE) + 1]
    return Part(crate, EDITS if EDIT in folder else TESTS if IS_TEST in words else PROOF)


def part_at(number: int) -> Part:
    """Returns what a process works on; a process that has ended is not known."""
    place = PROC / str(number)
    with contextlib.suppress(OSError):
        words = (place / "cmdline").read_bytes().decode("utf-8", "replace").split("\0")
        return part_of(words, os.readlink(place / "cwd"))
    return Part(OTHER, PROOF)


class Watch:
    """What the processes below one have used so far."""

    def __init__(self, root: int) -> None:
        self.root = root
        self.begin = time.monotonic()
        self.seconds: dict[tuple[int, str], float] = {}
        self.parts: dict[tuple[int, str], Part] = {}

    def look(self) -> None:
        """Looks at all processes once."""
        known = processes()
        seen = [number for number, start in self.seconds if number in known and known[number].start == start]
        for number in below(list({self.root, *seen}), known):
            key = (number, known[number].start)
            self.seconds[key] = known[number].seconds
            if self.parts.get(key, Part(OTHER, PROOF)).crate == OTHER:
                self.parts[key] = part_at(number)

    def table(self) -> dict[str, dict[str, float]]:
        """Returns the minutes of each crate by kind."""
        found: dict[str, dict[str, float]] = {}
        for key, seconds in self.seconds.items():
            row = found.setdefault(self.parts[key].crate, dict.fromkeys(KINDS, 0.0))
            row[self.parts[key].kind] += seconds / MINUTE
        return found

    def lines(self) -> list[str]:
        """Returns the table, and the last line."""
        clock = (time.monotonic() - self.begin) / MINUTE
        return lines_of(self.table(), clock)


def line_of(name: str, row: dict[str, float]) -> str:
    """Returns a line of the table."""
    return f"{name:14} " + " ".join(f"{minutes:7.1f}" for minutes in [*row.values(), sum(row.values())])


def lines_of(table: dict[str, dict[str, float]], clock: float) -> list[str]:
    """Returns the lines of a table, the dearest crate first, and lines with the sum in minutes and in units."""
    head = f"{'crate':14} " + " ".join(f"{word:>7}" for word in [*KINDS, "sum"]) + "   processor minutes"
    rows = sorted(table.items(), key=lambda each: (-sum(each[1].values()), each[0]))
    whole = {kind: sum(row[kind] for row in table.values()) for kind in KINDS}
    count = len(os.sched_getaffinity(0))
    last = f"{sum(whole.values()):.1f} processor minutes, {clock:.1f} on the clock with {count} processors"
    return [head, *(line_of(name, row) for name, row in rows), line_of("all", whole), last, *units_of(table)]


def units_of(table: dict[str, dict[str, float]]) -> list[str]:
    """Returns a line with the sum of a table in units, if all crates of a unit were proved."""
    proofs = [table.get(crate, {}).get(PROOF, 0.0) for crate in UNIT]
    if not all(proofs):
        return []
    whole = sum(sum(row.values()) for row in table.values())
    return [f"{whole / sum(proofs):.1f} units of {sum(proofs):.2f} minutes"]


@contextlib.contextmanager
def watched(root: int, pause: float = PAUSE) -> Iterator[Watch]:
    """Watches the processes below one, in a thread, until the `with` body ends; a look that fails is passed over.

    A process that was seen is watched further where what started it has ended.
    """
    watch, over = Watch(root), threading.Event()

    def look_again() -> None:
        """Looks until it is over."""
        while not over.wait(pause):
            with contextlib.suppress(OSError, ValueError, RuntimeError):
                watch.look()

    thread = threading.Thread(target=look_again, daemon=True)
    with contextlib.suppress(RuntimeError):
        thread.start()
    try:
        yield watch
    finally:
        over.set()
        if thread.is_alive():
            thread.join()


def started(command: list[str]) -> subprocess.Popen[bytes]:
    """Starts the command."""
    try:
        return subprocess.Popen(command)
    except OSError as fault:
        raise Refused(f"{in_words(fault)}: {command[0]}") from fault


def run(command: list[str], pause: float) -> int:
    """Runs the command, prints the table, and returns the exit status."""
    sys.stdout.flush()
    child = started(command)
    with watched(child.pid, pause) as watch:
        try:
            status = child.wait()
        except KeyboardInterrupt:
            child.terminate()
            child.wait()
            raise
    for line in watch.lines():
        print(line)
    sys.stdout.flush()
    return status if status >= 0 else 128 - status


def pause_of(word: str) -> float:
    """Parses a number of seconds between two looks."""
    with contextlib.suppress(ValueError):
        if 0 < float(word) <= MINUTE:
            return float(word)
    raise argparse.ArgumentTypeError(f"{word!r} is not a number of seconds up to {MINUTE}")


def main() -> int:
    """Runs the tool, and returns its exit status."""
    parser = Parser(
        description="Runs a command, and prints the processor minutes of each crate below it."
    )
    parser.add_argument("--pause", metavar="SECONDS", type=pause_of, default=PAUSE, help="between two looks")
    parser.add_argument("command", nargs=argparse.REMAINDER, metavar="COMMAND", help="default: rt ci")
    options = parser.parse_args()
    signal.signal(signal.SIGTERM, signal.default_int_handler)
    return exit_status(lambda: run(options.command or ["rt", "ci"], options.pause))
