"""Runs the program llbm on random inputs, and prints which rule an input breaks.

In: SECONDS, the duration, or --cases N, the number of cases; with both it ends by what is sooner. The program is --llbm
PROGRAM, or else crates/llbm/out/llbm of the repository, or else its out/llbm-unproved, which is named on standard error
as not proved.
The inputs are the examples of the repository and random definitions, texts of entries, texts of trees and sessions;
half of the definitions are changed at random, in most cases so that digests and inputs match again. --seed N makes the
same cases in the same order; without it a random seed is used. With --jobs N the cases are shared by N processes. Each
run has limits on memory (--memory MEGABYTES, 4096 by default, 0 for none; none for a program that is built with an
address sanitizer), on processor time and on file sizes, and may take --patience SECONDS, 600 by default.

These rules must hold: each run exits with a status of 0 to 3; if the input is refused, nothing is printed except the
answers of a session; docs/FAULTS.md has each line on standard error, with that status; `dis` and then `asm` return the
same entries; a text of a tree comes back or is refused at its first faulty line; several workers print the same as one
if no cache is mounted; a session ends where `run` ends, and the same record always has the same status; a run on tokens
in the place of contents prints the same with the contents put back.

Out: on standard output the seed, a line for each finding, how many cases ran, and at the end `N passed, M failed, K
skipped`. The files of a finding and the commands that repeat it are stored in their own folder in --keep FOLDER, by
default a new temporary folder. After 100 findings further ones are printed but not stored.

Exit status: 0 there is no finding; 1 there are findings; 2 the command line is refused, or the program or the examples
do not exist; 3 a read or a write failed; 130 interrupted.
"""

import argparse
import contextlib
import math
import multiprocessing
import multiprocessing.connection
import os
import pathlib
import random
import signal
import sys
import tempfile
import time
from collections.abc import Callable, Iterator

from llbm_tools.command_line import Parser
from llbm_tools.common import check_open, printable, say
from llbm_tools.counts import Counts
from llbm_tools.fuzzing import fuzz_cases as fuzz_cases
from llbm_tools.fuzzing import limited_runs
from llbm_tools.paths import ROOT
from llbm_tools.streams import INTERRUPTED, Refused, exit_status, program_at

EXAMPLES = ROOT / "examples"

MOST_STORED = 100
MOST_JOBS = 64
PATIENCE = 600
FOREVER = 1 << 62


def work(options: argparse.Namespace, job: int, folder: str, sender: multiprocessing.connection.Connection) -> None:
    """Tries the cases of one job: sends each finding, and at the end the number of cases."""
    signal.signal(signal.SIGINT, signal.SIG_DFL)
    signal.signal(signal.SIGTERM, signal.SIG_DFL)
    os.chdir(folder)
    limited_runs.limit_runs(options.memory)
    cases = fuzz_cases.Cases(limited_runs.Runner(options.llbm, options.patience), options.seed, EXAMPLES)
    end = time.monotonic() + options.seconds if options.seconds else math.inf
    count = 0
    for number in range(job, options.cases, options.jobs):
        if time.monotonic() >= end:
            break
        found = cases.found(number)
        count += 1
        if found:
            sender.send(found)
    sender.send(count)


@contextlib.contextmanager
def jobs_of(options: argparse.Namespace) -> Iterator[list[multiprocessing.connection.Connection]]:
    """Starts the jobs, each in its own folder, and stops them at the end."""
    with contextlib.ExitStack() as stack:
        receivers = []
        for job in range(options.jobs):
            folder = stack.enter_context(tempfile.TemporaryDirectory(prefix="llbm-fuzz-"))
            receiver, sender = multiprocessing.Pipe(duplex=False)
            process = multiprocessing.get_context("fork").Process(target=work, args=(options, job, folder, sender))
            process.start()
            sender.close()
            stack.callback(process.join)
            stack.callback(process.terminate)
            receivers.append(receiver)
        yield receivers


class Findings:
    """The findings so far."""

    def __init__(self, options: argparse.Namespace) -> None:
        self.options = options
        self.count = 0
        self.folder: pathlib.Path | None = options.keep

    def take(self, found: fuzz_cases.Found) -> None:
        """Stores a finding, and prints it."""
        self.count += 1
        line = fuzz_cases.finding_line(found, self.options.llbm)
        if self.count <= MOST_STORED:
            self.folder = self.folder or pathlib.Path(tempfile.mkdtemp(prefix="llbm-findings-"))
            line += f": stored in {fuzz_cases.store(found, self.options.seed, self.folder, self.options.llbm)}"
        print(printable(line), flush=True)


def collect(options: argparse.Namespace, findings: Findings) -> int:
    """Collects the findings of all jobs, and returns how many cases ran."""
    count = 0
    with jobs_of(options) as receivers:
        left = list(receivers)
        while left:
            ready = multiprocessing.connection.wait(left)
            for receiver in [one for one in left if one in ready]:
                try:
                    got = receiver.recv()
                except EOFError as fault:
                    raise Refused("a job of this tool ended early") from fault
                if isinstance(got, int):
                    count += got
                    left.remove(receiver)
                else:
                    findings.take(got)
    return count


def fuzz(options: argparse.Namespace) -> int:
    """Runs all cases, and returns the exit status."""
    check_open(sys.stdout, "standard output")
    options.llbm = program_at(options.llbm)
    if not EXAMPLES.is_dir():
        raise Refused(f"there are no examples: {EXAMPLES}")
    if options.memory is None:
        options.memory = limited_runs.memory_of(options.llbm)
    print(f"seed {options.seed}", flush=True)
    start = time.monotonic()
    findings = Findings(options)
    count = collect(options, findings)
    seconds = time.monotonic() - start
    ended = f"{count} cases in {seconds:.0f} seconds with seed {options.seed}"
    counts = Counts(count - findings.count, findings.count)
    print(ended, counts.line(), sep="\n", flush=True)
    return counts.status()


def number_from(least: int, most: int) -> Callable[[str], int]:
    """Returns a parser of numbers between two limits."""

    def read(word: str) -> int:
        if not word.isdecimal() or not word.isascii() or not least <= int(word) <= most:
            raise argparse.ArgumentTypeError(f"{word!r} is not a number from {least} to {most}")
        return int(word)

    return read


def parse_options() -> argparse.Namespace:
    """Parses the command line."""
    parser = Parser(
        description="Runs the program llbm on random inputs, and prints which rule an input breaks."
    )
    add, seed = parser.add_argument, random.randrange(1 << 32)
    add("seconds", nargs="?", metavar="SECONDS", type=number_from(1, 1_000_000), help="the duration (no limit)")
    add("--llbm", metavar="PROGRAM", help="the program llbm")
    add("--seed", metavar="N", type=number_from(0, FOREVER), default=seed, help="the seed of the cases (random)")
    add("--cases", metavar="N", type=number_from(1, FOREVER), help="run at most N cases (no limit)")
    add("--keep", metavar="FOLDER", type=pathlib.Path, help="the folder for findings (a new temporary folder)")
    add("--jobs", metavar="N", type=number_from(1, MOST_JOBS), default=1, help="the number of processes (1)")
    add("--patience", metavar="SECONDS", type=number_from(1, 1000), default=PATIENCE, help="the limit of a run (600)")
    add("--memory", metavar="MEGABYTES", type=number_from(0, 1 << 20), help="the limit of a run; 0 for none (4096)")
    options = parser.parse_args()
    if not options.seconds and not options.cases:
        parser.error("SECONDS or --cases N says when to end")
    options.cases = options.cases or FOREVER
    return options


def main() -> int:
    """Runs the tool, and returns its exit status."""
    signal.signal(signal.SIGTERM, signal.default_int_handler)
    options = parse_options()
    status = exit_status(lambda: fuzz(options))
    if status == INTERRUPTED:
        say("interrupted")
    return status
