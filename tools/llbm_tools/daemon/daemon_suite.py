"""Runs BuildKit's own tests of its daemon against llbmd, and compares what each does with the lists of daemon/suite.

In: the daemon out/llbmd, or --daemon PROGRAM, the program --llbm PROGRAM or that of the repository, the lists
(`llbm_tools.daemon.suite_lists`), and Debian's packages in the cache folder, or --packages FOLDER, as `dev/dev daemon`
leaves them. Go's flag -overlay adds the files of daemon/suite/testdata to BuildKit's packages, of which no file is
changed; the tests are built into out/daemon-suite. Each test runs in a process of its own, with a daemon of its own,
for
--seconds at most; --jobs of them run at a time. Without --all only the tests of the sections `plain` and `daemon` are
run; --only NAME runs those whose names have this text.

Out: on standard output a line for each test that did not do what its list says, and the counts of what the others did.
The last line is `N passed, M failed, K skipped`: passed have the tests that pass as they have to; failed those that did
not do what their list says; skipped those that are refused, differ, pass hollowly or leave themselves out, as their
list says. --write FOLDER keeps there what each test printed.

Exit status: 0 nothing failed; 1 something did, or the tests were not built; 2 the command line is refused, or the
packages or a program are not there; 3 a read or a write failed; 130 interrupted.
"""

import argparse
import collections
import concurrent.futures
import json
import os
import pathlib
import re
import signal
import subprocess
import tempfile
from collections.abc import Iterable

from llbm_tools import common
from llbm_tools.command_line import Parser
from llbm_tools.counts import Counts
from llbm_tools.daemon import daemon, debian_packages, go_building, suite_lists
from llbm_tools.daemon.go_building import BUILDKIT, OUT, Go
from llbm_tools.daemon.suite_lists import HOLLOW, PACKAGES, PASSES, SKIPS, Listed
from llbm_tools.streams import Refused, exit_status, program_at

BUILT = OUT / "daemon-suite"
WORKER = "worker=llbmd"
ADDED = "zz_llbmd_test.go"
TOPS = "TestSuite|TestFrontendIntegration"
SECTIONS = ("plain", "daemon")
PATIENCE = 600
GRACE = 60
TIMED_OUT = "test timed out"
REGISTRY = """#!/bin/sh
echo 'listening on 127.0.0.1:1' >&2
exec sleep 3600
"""


def overlay_of(code: pathlib.Path) -> pathlib.Path:
    """Writes which files are added to BuildKit's packages, and returns the file that says so."""
    added = suite_lists.FOLDER / "testdata"
    replaced = {
        str(code / BUILDKIT / package.folder / ADDED): str(added / f"{package.name}.go") for package in PACKAGES
    }
    BUILT.mkdir(parents=True, exist_ok=True)
    place = BUILT / "overlay.json"
    place.write_text(json.dumps({"Replace": replaced}), "utf-8")
    return place


def build(go: Go) -> None:
    """Builds the tests of BuildKit's packages."""
    if go.code is None:
        raise Refused("BuildKit's tests are built from Debian's packages alone")
    overlay = overlay_of(go.code)
    for package in PACKAGES:
        words = ["test", "-c", "-vet=off", "-ldflags=-s -w", f"-overlay={overlay}"]
        go.call(*words, "-o", str(BUILT / f"{package.name}.test"), f"{BUILDKIT}/{package.folder}")


def announcer(folder: pathlib.Path) -> pathlib.Path:
    """Makes a folder with a program `registry` that serves nothing, and returns the folder.

    BuildKit's tests do not begin without a registry that announces its address: they copy images to it, here none.
    """
    place = folder / "bin"
    place.mkdir()
    program = place / "registry"
    program.write_text(REGISTRY, "utf-8")
    program.chmod(0o755)
    return place


class Runs:
    """Runs tests, one in each process, below a temporary folder."""

    def __init__(self, options: argparse.Namespace, folder: pathlib.Path) -> None:
        self.seconds: int = options.seconds
        self.folder = folder
        way = os.pathsep.join([str(OUT), os.environ.get("PATH", os.defpath)])
        self.kept: pathlib.Path | None = options.write
        self.environment = {
            **os.environ,
            "HOME": str(folder),
            "TMPDIR": str(folder),
            "PATH": os.pathsep.join([str(announcer(folder)), way]),
            "LLBMD_SUITE_PATH": way,
            "LLBMD_SUITE_DAEMON": str(options.daemon.absolute()),
            "LLBMD_SUITE_LLBM": options.llbm,
            "LLBMD_SUITE_FRONTEND": f"dockerfile.v0={OUT / 'dockerfile-frontend'}",
        }

    def printed(self, test: Listed) -> str:
        """Runs a test, and returns what it prints; what takes too long is killed, with all that it started."""
        way = "/".join(f"^{re.escape(part)}$" for part in [test.function, WORKER, *test.variant.split("/")] if part)
        words = [
            str(BUILT / f"{test.package}.test"),
            "-test.v",
            f"-test.timeout={self.seconds}s",
            f"-test.run=^({TOPS})$/{way}",
        ]
        with subprocess.Popen(
            words, cwd=self.folder, env=self.environment, stdin=subprocess.DEVNULL,
            stdout=subprocess.PIPE, stderr=subprocess.STDOUT, text=True, errors="replace", start_new_session=True,
        ) as child:  # fmt: skip
            try:
                out, _ = child.communicate(timeout=self.seconds + GRACE)
            except subprocess.TimeoutExpired:
                os.killpg(child.pid, signal.SIGKILL)
                out = child.communicate()[0] + f"\n{TIMED_OUT}"
        return out

    def fault(self, test: Listed) -> str:
        """Runs a test, and returns how it differs from its list; nothing if it does not."""
        out = self.printed(test)
        if self.kept:
            (self.kept / test.name().replace("/", "-")).write_text(out, "utf-8")
        return fault_of(test, out)


def ending(test: Listed, out: str) -> str:
    """Returns how a test ended, by what it printed: `PASS`, `FAIL`, `SKIP`, or what else happened."""
    if TIMED_OUT in out:
        return "no answer: did not end in time"
    name = "/".join(filter(None, [test.function, WORKER, test.variant]))
    found = re.findall(rf"--- (PASS|FAIL|SKIP): \w+/{re.escape(name)} \(", out)
    if found:
        return str(found[-1])
    return "a panic" if "panic:" in out else "no such test"


def causes_in(out: str) -> str:
    """Returns the first error that a test reports, as one line."""
    found = re.search(r"Error:\s+(.*(?:\n\s+\t\s+.*){0,3})", out) or re.search(r"(panic: .*)", out)
    return re.sub(r"\s+", " ", found[1])[:200] if found else ""


def fault_of(test: Listed, out: str) -> str:
    """Returns how what a test printed differs from what it has to do; nothing if it does not."""
    wanted = {PASSES: "PASS", HOLLOW: "PASS", SKIPS: "SKIP"}.get(test.does, "FAIL")
    ended = ending(test, out)
    if ended != wanted:
        return f"{test.name()}: {ended}, but it {test.does} by its list; {causes_in(out)}"
    if test.text and " ".join(test.text.split()) not in " ".join(out.split()):
        return f"{test.name()}: {ended} without the text {test.text!r}; {causes_in(out)}"
    return ""


def chosen(options: argparse.Namespace) -> list[Listed]:
    """Returns the tests to run."""
    tests = suite_lists.listed()
    if not options.all:
        tests = [test for test in tests if test.section in SECTIONS]
    return [test for test in tests if options.only in test.name()]


def totals(tests: Iterable[Listed], faults: list[str]) -> str:
    """Prints how many functions do what, and returns the last line of the tool."""
    functions: dict[str, set[str]] = collections.defaultdict(set)
    counts: collections.Counter[str] = collections.Counter()
    for test, fault in zip(tests, faults):
        does = "failed" if fault else test.does
        counts[does] += 1
        functions[f"{test.package}/{test.function}"].add(does)
    whole = sum(does - {SKIPS} == {PASSES} for does in functions.values())
    print(f"of {len(functions)} functions {whole} pass")
    print(", ".join(f"{count} {does}" for does, count in sorted(counts.items())))
    skipped = sum(count for does, count in counts.items() if does not in (PASSES, "failed"))
    return Counts(counts[PASSES], counts["failed"], skipped).line()


def run_all(options: argparse.Namespace) -> tuple[list[Listed], list[str]]:
    """Runs the tests, prints how each that does not do what its list says differs, and returns both."""
    tests = chosen(options)
    if options.write:
        options.write.mkdir(parents=True, exist_ok=True)
    faults = []
    with tempfile.TemporaryDirectory(prefix="llbmd-") as folder:
        runs = Runs(options, pathlib.Path(folder))
        with concurrent.futures.ThreadPoolExecutor(options.jobs) as pool:
            for fault in pool.map(runs.fault, tests):
                faults.append(fault)
                if fault:
                    print(fault, flush=True)
    return tests, faults


def make(options: argparse.Namespace) -> int:
    """Builds what is needed, runs the tests, and returns the exit status."""
    if not options.daemon.is_file():
        raise Refused(f"there is no daemon: {options.daemon}; dev/dev daemon builds it")
    options.llbm = program_at(options.llbm)
    try:
        go = daemon.go_of(options.packages, offline=True)
        daemon.build_clients(go, OUT)
        build(go)
    except debian_packages.Missing as fault:
        raise Refused(str(fault)) from fault
    except go_building.NotBuilt as fault:
        for line in str(fault).splitlines():
            common.say(line)
        return 1
    tests, faults = run_all(options)
    print(totals(tests, faults))
    return int(any(faults))


def parse(words: list[str] | None = None) -> argparse.Namespace:
    """Parses a command line; that of the process if none is given."""
    parser = Parser(description="Runs BuildKit's own tests against llbmd.")
    parser.add_argument("--llbm", metavar="PROGRAM", help="the program llbm")
    parser.add_argument("--daemon", metavar="PROGRAM", type=pathlib.Path, default=daemon.PROGRAM, help="the daemon")
    parser.add_argument(
        "--packages", metavar="FOLDER", type=pathlib.Path, default=debian_packages.FOLDER,
        help="where Debian's packages are",
    )  # fmt: skip
    parser.add_argument("--all", action="store_true", help="run the tests of all sections")
    parser.add_argument("--only", metavar="NAME", default="", help="run the tests whose names have this text")
    parser.add_argument("--seconds", metavar="N", type=int, default=PATIENCE, help="the most that a test takes")
    jobs = min(2, len(os.sched_getaffinity(0)))
    parser.add_argument("--jobs", metavar="N", type=int, default=jobs, help="how many tests run at a time")
    parser.add_argument("--write", metavar="FOLDER", type=pathlib.Path, help="keep what the tests print")
    return parser.parse_args(words)


def main() -> int:
    """Runs the tool, and returns its exit status."""
    options = parse()
    return exit_status(lambda: make(options))
