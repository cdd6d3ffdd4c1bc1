"""Builds the daemon, and runs its tests: those in Go, and BuildKit's own as `dev/dev daemon suite` does.

In: daemon/ of the repository around this folder, the program --llbm PROGRAM or that of the repository, and Debian's
packages in the cache folder, or --packages FOLDER; they are fetched if they are not there and if --offline is not
given. If they can't be had, all is skipped. The parts are:

- `build`: `dev/dev daemon --clients` builds the daemon, `buildctl` and the frontend for Dockerfiles into out/;
- `format` and `vet`: gofmt would change no file, and `go vet` finds nothing;
- `go`: the tests in Go, of all packages of the daemon, with --order N in an order that follows from the seed N, and
  with --short a quarter of their random cases;
- `fuzz`, only with --fuzz SECONDS: what hostile clients send as a source, for so long, at random as Go's fuzzing makes
  it (the tests in Go have a fixed number of such cases, the same in each run);
- `suite`: the sections `plain` and `daemon` of BuildKit's own tests.

Out: on standard output a line for each part that passed or was skipped, and the output of each that failed. The last
line is `N passed, M failed, K skipped`, in which each test in Go and each of BuildKit's tests counts.

Exit status: 0 nothing failed; 1 something did; 2 the command line is refused, or there is no program; 3 a read or a
write failed; 130 interrupted.
"""

import argparse
import pathlib
import re
import subprocess
from collections.abc import Callable

from llbm_tools.command_line import Parser
from llbm_tools.counts import Counts, total
from llbm_tools.daemon import daemon, daemon_suite, debian_packages, go_building, suite_lists
from llbm_tools.daemon.go_building import DAEMON, MODULE, OUT, Go
from llbm_tools.streams import exit_status, program_at

PARTS = ("build", "format", "vet", "go", "fuzz", "suite")
TESTED = re.compile(r"^--- (PASS|FAIL|SKIP): ", re.M)
UNINTERESTING = re.compile(r"=== |PASS$|ok |\?| *--- (PASS|SKIP): |[0-9/]+ [0-9:]+ ")
FUZZED = (f"{MODULE}/internal/sources", "FuzzReceive")
# Go's fuzzing sometimes takes the end of its time for a failure, mostly on a busy host; then it has found no input.
TIME_IS_OVER = re.compile(r"^--- FAIL: \w+ \([0-9.]+s\)\n +context deadline exceeded\n(?! +Failing)", re.M)
MINUTE = 60
# The tests have the tags of the programs, so what both need is compiled once; `vet` is a part, and nobody debugs them.
AS_BUILT = [*daemon.STATIC, "-vet=off", "-ldflags=-s -w"]
# How many seconds the tests in Go may take: ten times what they take on a slow host.
GUARD = 6000
MOST_LINES = 100


def packages() -> list[str]:
    """Returns the daemon's packages. (Go's own patterns do not follow the link that leads to them.)"""
    folders = {place.parent.relative_to(DAEMON) for place in DAEMON.rglob("*.go")}
    return sorted(f"{MODULE}/{folder}" for folder in folders if "testdata" not in folder.parts)


def built(go: Go, _: argparse.Namespace) -> Counts:
    """Builds the programs."""
    daemon.build_daemon(go, daemon.PROGRAM)
    daemon.build_clients(go, OUT)
    return Counts(1)


def formatted(go: Go, _: argparse.Namespace) -> Counts:
    """Checks the layout of the code."""
    command = pathlib.Path(go.command).with_name("gofmt")
    done = subprocess.run([command, "-l", str(DAEMON)], stdin=subprocess.DEVNULL, capture_output=True, text=True)
    if done.returncode or done.stdout:
        raise go_building.NotBuilt(f"gofmt would change\n{done.stdout}{done.stderr}")
    return Counts(1)


def vetted(go: Go, _: argparse.Namespace) -> Counts:
    """Lets `go vet` look for mistakes."""
    go.call("vet", *daemon.STATIC, *packages())
    return Counts(1)


def counts_in(text: str) -> Counts:
    """Returns the counts of what `go test -v` prints."""
    words = TESTED.findall(text)
    return Counts(words.count("PASS"), words.count("FAIL"), words.count("SKIP"))


def tried(go: Go, options: argparse.Namespace) -> Counts:
    """Runs the tests in Go."""
    known = go._replace(environment={**go.environment, "LLBM": options.llbm})
    try:
        words = [*AS_BUILT, "-v", "-count=1", f"-timeout={GUARD}s", f"-shuffle={options.order or 'off'}"]
        words += ["-short"] if options.short else []
        return counts_in(known.call("test", *words, *packages(), seconds=GUARD + MINUTE))
    except go_building.NotBuilt as fault:
        counts = counts_in(str(fault))
        lines = (line for line in str(fault).splitlines() if not UNINTERESTING.match(line))
        print("\n".join(lines))
        return counts._replace(failed=max(1, counts.failed))


def fuzzed(go: Go, options: argparse.Namespace) -> Counts:
    """Sends at random what clients may send as a source."""
    words = ["-run=^$", f"-fuzz={FUZZED[1]}", f"-fuzztime={options.fuzz}s", "-parallel=1"]
    try:
        go.call("test", *words, FUZZED[0], seconds=GUARD + options.fuzz)
    except go_building.NotBuilt as fault:
        if not TIME_IS_OVER.search(str(fault)):
            raise
    return Counts(1)


def suite(go: Go, options: argparse.Namespace) -> Counts:
    """Runs BuildKit's own tests."""
    daemon_suite.build(go)
    words = ["--llbm", options.llbm, "--packages", str(options.packages)]
    tests, faults = daemon_suite.run_all(daemon_suite.parse(words))
    kinds = ["failed" if fault else test.does for test, fault in zip(tests, faults)]
    passed, failed = kinds.count(suite_lists.PASSES), kinds.count("failed")
    return Counts(passed, failed, len(kinds) - passed - failed)


WORK: dict[str, Callable[[Go, argparse.Namespace], Counts]] = {
    "build": built, "format": formatted, "vet": vetted, "go": tried, "fuzz": fuzzed, "suite": suite,
}  # fmt: skip


def counts_of(name: str, go: Go, options: argparse.Namespace) -> Counts:
    """Does a part, prints how it ended, and returns its counts."""
    try:
        counts = WORK[name](go, options)
    except go_building.NotBuilt as fault:
        print("\n".join(str(fault).splitlines()[-MOST_LINES:]))
        counts = Counts(0, 1)
    print(f"{name}: {counts.line()}", flush=True)
    return counts


def make(options: argparse.Namespace) -> int:
    """Does the parts, prints their results, and returns the exit status."""
    options.llbm = program_at(options.llbm)
    names = [name for name in PARTS if name in (options.only or PARTS) and (name != "fuzz" or options.fuzz)]
    try:
        go = daemon.go_of(options.packages, options.offline)
    except debian_packages.Missing as fault:
        for name in names:
            print(f"{name}: skipped, the packages can't be had: {fault}")
        print(Counts(skipped=len(names)).line())
        return 0
    each = []
    for name in names:
        each.append(counts_of(name, go, options))
        if name == "build" and each[-1].failed:
            break
    counts = total(each)
    print(counts.line())
    return counts.status()


def main() -> int:
    """Runs the tool, and returns its exit status."""
    parser = Parser(description="Builds the daemon, and runs its tests.")
    parser.add_argument("--llbm", metavar="PROGRAM", help="the program llbm")
    parser.add_argument(
        "--packages", metavar="FOLDER", type=pathlib.Path, default=debian_packages.FOLDER,
        help="where Debian's packages are, or are unpacked",
    )  # fmt: skip
    parser.add_argument("--offline", action="store_true", help="fetch nothing")
    parser.add_argument("--fuzz", metavar="SECONDS", type=int, default=0, help="how long random inputs are sent")
    parser.add_argument("--order", metavar="N", type=int, help="run the tests in Go in an order that follows from N")
    parser.add_argument("--short", action="store_true", help="try a quarter of the random cases of the tests in Go")
    parser.add_argument("--only", metavar="NAME", action="append", default=[], choices=PARTS, help=", ".join(PARTS))
    options = parser.parse_args()
    if "fuzz" in options.only and not options.fuzz:
        parser.error("--fuzz SECONDS says how long random inputs are sent")
    return exit_status(lambda: make(options))
