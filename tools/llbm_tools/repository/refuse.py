"""Refuses each growth of memory of each call in turn, and each thread of some runs: runs the tests of `llb_refusals`
with memory and threads that fail on demand.

In: the program of the tests, crates/llb_refusals/out/llb_refusals_tests, as `rt ci` and `rt test` build it, or TESTS;
and `refuse.c` beside this file, which the toolchain's clang compiles to a library. The library is preloaded into each
test, which is run by itself, and refuses the growth, or the start of the thread, that the test asks for.

Out: on standard output a line for each call: how often it was refused a growth or a thread, the number of its fault (or
`none`), and the call with what it was made on. A test fails if its exit status is not 0, if the library counted another
number of refusals than the test, if a call that takes memory or threads was refused none, or if one that takes neither
was refused some. The last line is `N passed, M failed, K skipped`, over the tests.

Exit status: 0 all passed; 1 one or more failed; 2 the command line is refused, or the tests or the toolchain do not
exist; 3 a write failed.
"""

import argparse
import os
import pathlib
import re
import subprocess
import sys
import tempfile
from typing import NamedTuple

from llbm_tools.command_line import Parser
from llbm_tools.common import check_open, discard_output, printable, say
from llbm_tools.counts import Counts
from llbm_tools.os_errors import os_error_text
from llbm_tools.paths import ROOT

TESTS = ROOT / "crates" / "llb_refusals" / "out" / "llb_refusals_tests"
SOURCE = pathlib.Path(__file__).with_name("refuse.c")
PATIENCE = 3000

NAMED = re.compile(r"(\S+): test")
REFUSED = re.compile(r"refused ([0-9]+) \(([^()]+)\): (.*)")


class Call(NamedTuple):
    """A call: how often it was refused, its fault number (`none` if nothing of it can be refused), and its name."""

    refused: int
    number: str
    call: str

    def is_right(self) -> bool:
        """Returns whether it was refused exactly if it can be."""
        return (self.refused > 0) == (self.number != "none")


class Ran(NamedTuple):
    """The result of a test: its exit status, its output, and how often the library refused it something."""

    status: int
    lines: list[str]
    refused: int

    def calls(self) -> list[Call]:
        """Returns the calls that the test printed."""
        found = map(REFUSED.fullmatch, self.lines)
        return [Call(int(one[1]), one[2], one[3]) for one in found if one]


def build_library(folder: str) -> str:
    """Builds the library that refuses memory and threads."""
    page = subprocess.run(["rt", "doc"], capture_output=True, check=True, text=True).stdout.strip()
    clang = pathlib.Path(page).parent / "toolchain" / "bin" / "clang"
    library = os.path.join(folder, "refuse.so")
    words = ["-O1", "-shared", "-fPIC", "-nostdlib", "-fuse-ld=lld", "-o", library, str(SOURCE)]
    subprocess.run([str(clang), *words], check=True)
    return library


def names_of(tests: str) -> list[str]:
    """Returns the names of the tests of a program."""
    listed = subprocess.run([tests, "--list"], capture_output=True, check=True, text=True).stdout
    return [found[1] for line in listed.splitlines() if (found := NAMED.fullmatch(line))]


def run(tests: str, name: str, library: str, folder: str) -> Ran:
    """Runs one test with the library."""
    counted = os.path.join(folder, "counted")
    with open(counted, "wb") as counts:
        to = counts.fileno()
        given = {**os.environ, "LD_PRELOAD": library, "REFUSED": str(to)}
        with subprocess.Popen(
            [tests, name], env=given, pass_fds=[to],
            stdin=subprocess.DEVNULL, stdout=subprocess.PIPE, stderr=subprocess.STDOUT,
        ) as child:
            try:
                text, status = child.communicate(timeout=PATIENCE)[0], child.returncode
            except subprocess.TimeoutExpired:
                child.kill()
                text, status = child.communicate()[0] + b"\nno answer: it did not end", 1
    lines = text.decode("utf-8", "backslashreplace").splitlines()
    return Ran(status, lines, os.path.getsize(counted))


def why_wrong(ran: Ran) -> list[str]:
    """Describes what is wrong with the result of a test; empty if it passed."""
    calls = ran.calls()
    wrong = [
        f"refused {one.refused}, which is wrong for {one.number}: {one.call}" for one in calls if not one.is_right()
    ]
    if ran.status:
        wrong += [line for line in ran.lines if line and not REFUSED.fullmatch(line)]
        wrong.append(f"it ended with status {ran.status}")
    elif not calls:
        wrong.append("it names no call")
    elif sum(one.refused for one in calls) != ran.refused:
        wrong.append(f"{ran.refused} refusals, but it reports {sum(one.refused for one in calls)}")
    return wrong


def run_all(tests: str, library: str, folder: str) -> int:
    """Runs and prints all tests, and returns how many failed."""
    names, failed, refused, calls = names_of(tests), 0, 0, 0
    for name in names:
        ran = run(tests, name, library, folder)
        wrong = why_wrong(ran)
        print(f"{name}: {'failed' if wrong else 'passed'}, {ran.refused} refusals")
        for one in ran.calls():
            print(f"{one.refused:6}  {one.number:<4}  {printable(one.call)}")
        for line in wrong:
            print(f"    {printable(line)}")
        sys.stdout.flush()
        failed += bool(wrong)
        refused += ran.refused
        calls += len(ran.calls())
    print(f"{refused} refusals of {calls} calls")
    print(Counts(len(names) - failed, failed).line())
    return failed + (not names)


def parse_options() -> argparse.Namespace:
    """Parses the command line."""
    parser = Parser(
        description="Refuses each growth of memory of each call in turn, and threads of runs."
    )
    parser.add_argument("tests", metavar="TESTS", nargs="?", default=str(TESTS), help="the program of the tests")
    return parser.parse_args()


def main() -> int:
    """Runs the tool, and returns its exit status."""
    options = parse_options()
    try:
        check_open(sys.stdout, "standard output")
    except OSError as fault:
        say(os_error_text(fault))
        return 3
    with tempfile.TemporaryDirectory(prefix="refuse-") as folder:
        try:
            names_of(options.tests)
            library = build_library(folder)
        except OSError as fault:
            say(os_error_text(fault))
            return 2
        except subprocess.CalledProcessError as fault:
            say(f"{fault.cmd[0]} ended with status {fault.returncode}")
            return 2
        try:
            return int(run_all(options.tests, library, folder) > 0)
        except OSError as fault:
            say(os_error_text(fault))
            discard_output()
            return 3
