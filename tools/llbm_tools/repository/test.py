"""Tests the tools by examples, in temporary folders that are removed at the end.

In: the tools, with their tests in tools/tests; names of test cases on the command line, with or without their package,
as in `test trees.RoundTrip`, or none for all. Some tests need the program: it is --llbm PROGRAM, or else
crates/llbm/out/llbm of the repository, or else its out/llbm-unproved, which is named on standard error as not proved;
without one they are skipped. It can run as root, who can set owners, or as another user, who cannot: the number of
examples is the same. Test cases run in parallel, in --jobs N processes, or in one for each processor; with --order SEED
in an order that follows from the seed, a number. No test depends on the order.

Out: on standard output the number of runs of the tools, how many tests were skipped and why, and at the end `N passed,
M failed, K skipped`; failures are printed on standard error. A test has failed with the words `no answer` if a program
did not end within the test's limit: that says nothing of the code, only that the host was too busy or that the program
hangs. --slowest N also lists there the N tests that took longest, in seconds.

Exit status: 0 all tests pass; 1 some fail; 2 the command line is refused; 130 interrupted.
"""

import argparse
import collections
import concurrent.futures
import contextlib
import io
import multiprocessing
import os
import pathlib
import random
import select
import shutil
import signal
import subprocess
import sys
import tempfile
import time
import unittest
from collections.abc import Iterator
from types import TracebackType
from typing import NamedTuple, TextIO, cast
from unittest import mock

from llbm_tools import common, paths, streams
from llbm_tools.command_line import Parser
from llbm_tools.counts import Counts, total
from tests import base

MODULES = [
    "compiling.lost_numbers",
    "debugging.adapter_runs",
    "debugging.adapter_steps",
    "debugging.adapter_scopes",
    "debugging.adapter_stops",
    "debugging.adapter_breaks",
    "debugging.shown_changes",
    "debugging.prompting",
    "sessions.tracing",
    "debugging.adapter_parts",
    "debugging.adapter_listening",
    "program",
    "definitions.linting",
    "definitions.adopting",
    "fuzzing.fuzzing",
    "repository.gating",
    "repository.transcript_runs",
    "repository.proof_minutes",
    "trees.directory_tools",
    "definitions.dot_graphs",
    "definitions.explained_lines",
    "building.building",
    "building.builds_by_reference",
    "building.rebuilding",
    "building.caching",
    "building.filtering",
    "building.linking",
    "building.killed_builds",
    "bad_inputs",
    "repository.repository",
    "repository.pages",
    "repository.floor_checks",
    "definitions.from_buildkit",
    "repository.refusing",
    "measuring.measuring",
    "trees.tar_tools",
    "images.images",
    "trees.differences",
    "sessions.json_of_lines",
    "building.build_progress",
    "llb.entry_names",
    "compiling.compiling",
    "compiling.embedding",
    "repository.planting",
    "installing.installing",
    "running.command_line_pages",
    "running.running",
    "running.checking",
    "running.filtered_runs",
    "statuses",
    "llb.properties",
    "definitions.impacting",
    "definitions.impact_runs",
    "page.page_adopting",
    "page.page_serving",
    "page.paging",
    "page.page_parts",
    "starting",
    "helping",
    "definitions.dumping",
    "images.layouts",
    "installing.completion_pages",
    "daemon.package_downloads",
    "rules.field_table",
    "daemon.daemon_suites",
    "measuring.measuring_daemons",
    "daemon.daemon_clients",
    "daemon.daemon_dockerfiles",
    "daemon.daemon_warnings",
    "daemon.daemon_hostile",
    "rules.rule_examples",
    "rules.rule_tools",
    "daemon.daemon_comparisons",
    "repository.layering",
    "repository.ordering",
    "repository.forked",
]

# Where tools keep what they compile, unless they can write it beside their modules.
HOME = "XDG_CACHE_HOME"

PLACES = {module.rpartition(".")[2]: module for module in MODULES}

OptExcInfo = tuple[type[BaseException], BaseException, TracebackType] | tuple[None, None, None]


class Timed(unittest.TextTestResult):
    """A result that measures how long each test takes, and tells tests that got no answer from those that are wrong."""

    def __init__(self, stream: TextIO, descriptions: bool, verbosity: int) -> None:
        super().__init__(stream, descriptions, verbosity)
        self.seconds: list[tuple[float, str]] = []
        self.silent: list[str] = []
        self.start = 0.0

    def addError(self, test: unittest.TestCase, err: OptExcInfo) -> None:
        """Adds a test that ended in an exception; one that a limit of time ended has got no answer."""
        super().addError(test, err)
        if isinstance(err[1], (subprocess.TimeoutExpired, base.NoAnswer)):
            self.silent.append(f"no answer: {test.id()}: {err[1]}")

    def startTest(self, test: unittest.TestCase) -> None:
        """Starts the clock of a test."""
        super().startTest(test)
        self.start = time.monotonic()

    def stopTest(self, test: unittest.TestCase) -> None:
        """Stops the clock of a test."""
        super().stopTest(test)
        self.seconds.append((time.monotonic() - self.start, test.id()))


class GroupResult(NamedTuple):
    """The result of some tests: the output of those that failed, and counts."""

    output: str
    counts: Counts
    runs: int
    left_out: collections.Counter[str]
    seconds: list[tuple[float, str]]


groups: list[unittest.TestSuite] = []


def tests_in(suite: unittest.TestSuite) -> Iterator[unittest.TestCase]:
    """Yields all tests of a suite, in order."""
    for one in suite:
        if isinstance(one, unittest.TestSuite):
            yield from tests_in(one)
        else:
            yield one


def grouped(suite: unittest.TestSuite) -> list[unittest.TestSuite]:
    """Returns the tests one by one; those of a class with a `setUpClass` stay together."""
    whole: dict[type, unittest.TestSuite] = {}
    found = []
    for test in tests_in(suite):
        kind = type(test)
        if "setUpClass" not in vars(kind):
            found.append(unittest.TestSuite([test]))
        elif kind in whole:
            whole[kind].addTest(test)
        else:
            whole[kind] = unittest.TestSuite([test])
            found.append(whole[kind])
    return found


@contextlib.contextmanager
def temporary_folder() -> Iterator[None]:
    """Makes a folder for temporary files, which all users can write, as /tmp. There a build says what another left."""
    with (
        tempfile.TemporaryDirectory(prefix="tools-test-", ignore_cleanup_errors=True) as folder,
        mock.patch.dict(os.environ, TMPDIR=folder),
        mock.patch.object(tempfile, "tempdir", folder),
    ):
        os.chmod(folder, 0o1777)
        yield


def run_group(number: int) -> GroupResult:
    """Runs a group of tests, which have temporary files of their own."""
    base.runs = 0
    out = io.StringIO()
    with temporary_folder():
        result = cast(Timed, unittest.TextTestRunner(out, verbosity=0, resultclass=Timed).run(groups[number]))
    output = "" if result.wasSuccessful() else out.getvalue().rpartition("-" * 70)[0]
    output += "".join(f"{line}\n" for line in result.silent)
    left_out = collections.Counter(cause for _, cause in result.skipped)
    return GroupResult(output, counts_of(result), base.runs, left_out, result.seconds)


def counts_of(result: unittest.TestResult) -> Counts:
    """Returns the counts of a result: a test with several wrong parts has failed once."""
    wrong = {test.id().partition(" ")[0] for test, _ in [*result.failures, *result.errors]}
    wrong.update(test.id() for test in result.unexpectedSuccesses)
    skipped = {test.id().partition(" ")[0] for test, _ in result.skipped} - wrong
    # (a class that can't be set up fails or is skipped without that a test of it ran)
    return Counts(max(0, result.testsRun - len(wrong) - len(skipped)), len(wrong), len(skipped))


def run_groups(jobs: int) -> Iterator[GroupResult]:
    """Runs all groups in this many processes, and yields their results as they end.

    A process that dies is an error, and none is waited for longer than its groups take: they end by themselves if all
    went well, and else by SIGKILL, since a test may leave a handler for any other signal.
    """
    if jobs == 1:
        yield from map(run_group, range(len(groups)))
        return
    forked = multiprocessing.get_context("fork")
    with concurrent.futures.ProcessPoolExecutor(jobs, forked, signal.signal, (signal.SIGTERM, signal.SIG_DFL)) as pool:
        try:
            tasks = [pool.submit(run_group, number) for number in range(len(groups))]
            yield from (task.result() for task in concurrent.futures.as_completed(tasks))
        except BaseException:
            for child in multiprocessing.active_children():
                child.kill()
            raise


def known(word: str) -> str:
    """Returns the place of a module of tests, or of a part of it, if it is one; its package can be left out."""
    name, dot, part = word.partition(".")
    for place in [*([PLACES[name] + dot + part] if name in PLACES else []), word]:
        loader = unittest.TestLoader()
        loader.loadTestsFromName(f"tests.{place}")
        if f"{place}.".startswith(tuple(f"{module}." for module in MODULES)) and not loader.errors:
            return place
    raise argparse.ArgumentTypeError(f"there are no such tests: {word}")


def positive(word: str) -> int:
    """Parses a number that is at least 1."""
    if not word.isdecimal() or int(word) == 0:
        raise argparse.ArgumentTypeError(f"not a number above 0: {word}")
    return int(word)


def parse_options() -> argparse.Namespace:
    """Parses the command line."""
    parser = Parser(description="Tests the tools of this folder.")
    parser.add_argument("--llbm", metavar="PROGRAM", help="the program llbm")
    jobs = len(os.sched_getaffinity(0))
    parser.add_argument("--jobs", metavar="N", type=positive, default=jobs, help="the number of processes")
    parser.add_argument("--slowest", metavar="N", type=positive, default=0, help="list the N tests that took longest")
    parser.add_argument("--order", metavar="SEED", help="run the tests in an order that follows from this seed")
    named = "a module of tests, or a part of it"
    parser.add_argument("name", nargs="*", metavar="NAME", type=known, default=MODULES, help=named)
    return parser.parse_args()


def test_all(options: argparse.Namespace) -> int:
    """Runs all tests, prints the results, and returns the exit status."""
    groups.extend(grouped(unittest.defaultTestLoader.loadTestsFromNames([f"tests.{name}" for name in options.name])))
    if options.order is not None:
        reorder(groups, random.Random(options.order))
    start = time.monotonic()
    each: list[Counts] = []
    runs = 0
    left_out: collections.Counter[str] = collections.Counter()
    seconds: list[tuple[float, str]] = []
    for one in run_groups(options.jobs):
        sys.stderr.write(one.output)
        each.append(one.counts)
        runs, seconds = runs + one.runs, seconds + one.seconds
        left_out += one.left_out
    print(f"Ran the tests in {time.monotonic() - start:.1f} s", file=sys.stderr)
    for taken, name in sorted(seconds, reverse=True)[: options.slowest]:
        print(f"{taken:6.2f} s {name}", file=sys.stderr)
    sys.stderr.flush()
    for cause, count in left_out.items():
        print(f"{count} skipped: {cause}")
    print(f"{runs} runs of the tools, as {'root' if base.IS_ROOT else 'another user'}")
    counts = total(each)
    print(counts.line())
    return counts.status()


def reorder(suites: list[unittest.TestSuite], dice: random.Random) -> None:
    """Puts groups, and the tests of each, into a random order."""
    dice.shuffle(suites)
    for place, suite in enumerate(suites):
        tests = list(tests_in(suite))
        dice.shuffle(tests)
        suites[place] = unittest.TestSuite(tests)


def kill_started_with(setting: str) -> None:
    """Kills all processes that were started with a setting in their environment, and waits for their ends."""
    for place in pathlib.Path("/proc").glob("[0-9]*/environ"):
        with contextlib.suppress(OSError), open(os.pidfd_open(int(place.parent.name)), "rb") as process:
            if os.fsencode(setting) in place.read_bytes().split(b"\0"):
                signal.pidfd_send_signal(process.fileno(), signal.SIGKILL)
                select.select([process], [], [])


@contextlib.contextmanager
def cache_folder() -> Iterator[str]:
    """Yields a folder for what copies of the tools keep compiled, which is removed at the end.

    What tests leave running, as where one of their processes dies, may write there: it is killed before. Nothing that
    the removal meets hides what went wrong first.
    """
    with tempfile.TemporaryDirectory(prefix="tools-test-cache-", ignore_cleanup_errors=True) as folder:
        try:
            yield folder
        finally:
            kill_started_with(f"{HOME}={folder}")


def test(options: argparse.Namespace) -> int:
    """Runs the tests with a program, if there is one, and returns the exit status."""
    word = options.llbm
    base.llbm = shutil.which(common.program_named(None)) if word is None else streams.program_at(word)
    if base.llbm is not None:
        # What is tested runs this program too, unless a test names another one.
        os.environ["LLBM"] = base.llbm
    with cache_folder() as cache:
        os.environ["LLBM_CACHE"] = str(paths.CACHE)
        os.environ[HOME] = cache
        return test_all(options)


def main() -> int:
    """Runs the tool, and returns its exit status."""
    options = parse_options()
    os.umask(0o022)
    # SIGINT is ignored in what a shell starts in the background, and SIGHUP below `nohup`; so they would be in the
    # tools that tests interrupt.
    for number in (signal.SIGTERM, signal.SIGINT):
        signal.signal(number, signal.default_int_handler)
    if signal.getsignal(signal.SIGHUP) == signal.SIG_IGN:
        signal.signal(signal.SIGHUP, lambda number, frame: None)
    return streams.exit_status(lambda: test(options))
