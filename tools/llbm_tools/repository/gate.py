"""Runs all tests of the repository, and counts what passed and what failed.

In: the repository around this folder. The parts are, in this order: `dev/dev lines` (if this is a git repository),
`dev/dev style`, `dev/dev claims --check` and `dev/dev floors`; `rt ci`, which does every proof from nothing, unless
--after is given; `dev/dev refuse`, on the tests of `llb_refusals` that `rt ci` built; `llbm-tools library`, which
builds the static library, and `dev/dev bindings`, which tries it in each language that is there; `dev/dev wasm`, which
makes the page, if a browser, Node and `wasm-opt` are there; on each of the two programs that `rt ci` left in
crates/llbm/out, or on --llbm PROGRAM alone: `dev/dev transcripts` on the files of tests/ and the pages of the examples;
on the first of them `dev/dev daemon tests`, which builds the daemon and skips all if its packages are not there and
can't be had, `dev/dev against-buildkit --start`, which compares llbmd with BuildKit's own daemon and is skipped where
that can't be built or run, `dev/dev test`, which tests the built daemon too, `dev/dev page tests` on the page, if it
was made, `dev/dev transcripts` on the pages with commands (README.md, and docs/ARCHITECTURE.md, BUILDKIT.md, FORMATS.md
and TOOLS.md), and `dev/dev fuzz` on a fixed number of cases or on --fuzz N, with the seed 1 or --seed N.

`rt ci` gets RT_JOBS, unless it is set: the number of checks at a time, one on each processor, as many as the free
memory holds. Then each check has one process. Without RT_JOBS a check may have several, which together take up to half
as much processor time again.

With --quick nothing is proved, and no wrong body is tried. `dev/dev unproved-program` compiles the program; the parts
that read the sources, the transcripts, the daemon's tests in Go, the tests of the tools and few cases of `dev/dev fuzz`
follow. --more adds what takes longer: `llbm-tools library --unproved`, which compiles the library, and `dev/dev
bindings` on it; `rt try --test` in the crates of tests, as many at a time as there are processors, or --jobs N; the
transcripts of tests/limits; BuildKit's own tests, `dev/dev against-buildkit`, `dev/dev page tests` and the pages with
commands.

Out: on standard output a line for each part, with its counts and its processor time, and below it what the part
printed, if it failed; the lines of `rt ci` are printed as they come. After all parts follow the processor minutes that
`rt ci` took for each crate, as `dev/dev minutes` prints them. The last line is `N passed, M failed, K skipped`, the sum
over all parts; with --quick lines before it say what was not done, and the parts that are left out are skipped too. A
part that counts nothing is one test; of `dev/dev transcripts` each command that is compared is one. If all passed,
without --after, --llbm and --quick, out/gate-passed has the digest of the program that `rt ci` left.

Exit status: 0 nothing failed; 1 something failed; 2 the command line is refused; 130 interrupted.
"""

import argparse
import contextlib
import os
import shutil
import signal
import subprocess
from collections.abc import Iterator

from llbm_tools import commands, paths
from llbm_tools.command_line import Parser
from llbm_tools.compiling import library
from llbm_tools.counts import Counts, total
from llbm_tools.installing import installation
from llbm_tools.page import browser, module_cases, wasm
from llbm_tools.paths import ROOT
from llbm_tools.repository import gate_parts, minutes, proof_jobs, test
from llbm_tools.repository.gate_parts import Part

PROGRAMS = [ROOT / "crates" / "llbm" / "out" / name for name in ("llbm", "llbm.by-rattle")]
PAGES = ("README.md", "docs/ARCHITECTURE.md", "docs/BUILDKIT.md", "docs/FORMATS.md", "docs/TOOLS.md")
EXAMPLES = ("examples/README.md", "examples/from-buildkit/README.md")
# Its transcripts go to the limits of a definition, which takes the program without proof minutes.
LIMITS = "tests/limits"
TESTED = ("llb_refusals", "llb_examples", "llbm")
# How many seconds each test may take that `rt try` runs: more than ten times what any takes on a slow host.
GUARD = 12000
# How many cases of `dev/dev fuzz` are run: about a minute by the proved program, and less by the one without proof.
CASES = 8000
FEWER = 500
# How many random definitions of each kind, and Dockerfiles, are built by BuildKit's daemon and by llbmd.
BESIDE = 20
FIXED = ("--links", "--dockerfiles")
# Tests of the tools that compile a program of their own.
COMPILES = ("compiling.lost_numbers",)
JOBS = "RT_JOBS"
PROOFS = ["rt", "ci"]

# What the quick gate does not do, and what it does only with --more.
NEVER = ("rt ci", "dev/dev refuse", "llbm-tools library")
NOT_DONE = (
    "not done: proofs, wrong bodies and the second compiler's program (rt ci), refused memory (dev/dev refuse), "
    "the proved library (llbm-tools library)"
)
LATER = (*TESTED, "library", "bindings", *COMPILES, LIMITS, "suite", "against-buildkit", "page-tests", "pages")
LEFT = (
    "with --more: the tests of the crates (llb_examples, llb_refusals, llbm), the library without proof and its "
    "bindings, the transcripts of tests/limits, BuildKit's tests and its daemon (dev/dev against-buildkit), the page "
    "(dev/dev page tests), the pages with commands"
)


def is_repository() -> bool:
    """Returns whether this folder is in a git repository."""
    try:
        looked = subprocess.run(["git", "rev-parse", "--is-inside-work-tree"], cwd=ROOT, capture_output=True)
    except OSError:
        return False
    return looked.returncode == 0


def tool(name: str, *words: str) -> Part:
    """Returns the part that runs a command."""
    return Part(commands.line_of(name, *words))


def parts_without_program() -> Iterator[Part]:
    """Yields the parts that read the sources and the pages alone."""
    if is_repository():
        yield tool("lines")
    yield tool("style")
    yield tool("claims", "--check")
    yield tool("floors")


def parts_with(programs: list[str], cases: int, seed: str) -> Iterator[Part]:
    """Yields the parts that run programs; those of the tools run the first one."""
    for program in programs:
        yield tool("transcripts", "--llbm", program, "tests", *EXAMPLES)
    first = programs[0]
    yield tool("daemon tests", "--llbm", first)
    yield tool("against-buildkit", "--start", "--count", str(BESIDE), *FIXED, "--llbm", first)
    yield tool("test", "--llbm", first)
    yield tool("page tests", "--llbm", first)
    yield tool("transcripts", "--llbm", first, *PAGES)
    yield tool("fuzz", "--cases", str(cases), "--llbm", first, "--seed", seed)


def parts_of_page() -> Iterator[Part]:
    """Yields the part that makes the page, if its tests can use it: with a browser, Node and `wasm-opt`."""
    if browser.found() and module_cases.node() and shutil.which(wasm.LOWERING):
        yield tool("wasm")


def proofs() -> Part:
    """Returns the part that does all proofs."""
    return Part(PROOFS, settings=((JOBS, str(proof_jobs.checks_at_once())),))


def parts_of(options: argparse.Namespace) -> Iterator[Part]:
    """Yields the parts of the whole gate, in order."""
    yield from parts_without_program()
    if not options.after:
        yield proofs()
    yield tool("refuse")
    yield tool("library")
    yield tool("bindings")
    yield from parts_of_page()
    programs = [os.path.abspath(options.llbm)] if options.llbm else list(map(str, PROGRAMS))
    yield from parts_with(programs, options.fuzz or CASES, options.seed)


def parts_of_crates() -> list[Part]:
    """Returns the parts that compile and run the tests of the crates of tests."""
    return [Part(["rt", "try", "--test", "--seconds", str(GUARD)], ROOT / "crates" / crate) for crate in TESTED]


def only(*names: str) -> list[str]:
    """Returns the words by which a tool does these parts alone."""
    return [word for name in names for word in ("--only", name)]


def parts_that_are_quick(cases: int, seed: str) -> Iterator[Part]:
    """Yields the parts of the quick gate that run the program without proof."""
    program = str(paths.UNPROVED)
    folders = sorted(f"tests/{place.name}" for place in (ROOT / "tests").iterdir())
    yield tool("transcripts", "--unproved", "--llbm", program, *(name for name in folders if name != LIMITS), *EXAMPLES)
    yield tool("daemon tests", "--llbm", program, "--short", *only("build", "format", "vet", "go"))
    yield tool("test", "--llbm", program, *(name for name in test.MODULES if name not in COMPILES))
    yield tool("fuzz", "--cases", str(cases), "--llbm", program, "--seed", seed)


def parts_with_more() -> Iterator[Part]:
    """Yields the parts that --more adds and that run the program without proof."""
    program = str(paths.UNPROVED)
    yield tool("library", "--unproved")
    yield tool("bindings", str(library.UNPROVED), "--llbm", program)
    yield tool("test", "--llbm", program, *COMPILES)
    yield tool("transcripts", "--unproved", "--llbm", program, LIMITS)
    yield tool("daemon tests", "--llbm", program, *only("go", "suite"))
    yield tool("against-buildkit", "--start", "--count", str(BESIDE), *FIXED, "--llbm", program)
    yield tool("page tests", "--llbm", program)
    yield tool("transcripts", "--llbm", program, *PAGES)


def run_quick(options: argparse.Namespace) -> Iterator[Counts]:
    """Runs the parts that need no proof, and yields their counts."""
    yield from map(gate_parts.run, parts_without_program())
    yield gate_parts.run(tool("unproved-program"))
    yield from map(gate_parts.run, parts_that_are_quick(options.fuzz or FEWER, options.seed))
    if options.more:
        yield from gate_parts.run_together(parts_of_crates(), options.jobs)
        yield from map(gate_parts.run, parts_with_more())
    yield Counts(skipped=len(NEVER) + (0 if options.more else len(LATER)))


def minutes_of(watch: minutes.Watch) -> list[str]:
    """Returns the table of processor minutes. What fails in it does not fail the gate."""
    with contextlib.suppress(Exception):
        return watch.lines()
    return []


def run_part(part: Part, table: list[str]) -> Counts:
    """Runs a part, and returns its counts; minutes of proofs are added to the table."""
    if part.command != PROOFS:
        return gate_parts.run(part)
    with contextlib.ExitStack() as stack:
        watches: list[minutes.Watch] = []

        def watch(process: int) -> None:
            watches.append(stack.enter_context(minutes.watched(process)))

        counts = gate_parts.run(part, True, watch)
    for one in watches:
        table += minutes_of(one)
    return counts


def keep_receipt() -> None:
    """Writes which program the gate passed on, for `dev/dev install` and `dev/dev dist`."""
    installation.RECEIPT.parent.mkdir(exist_ok=True)
    installation.RECEIPT.write_text(installation.receipt_of(PROGRAMS[0].read_bytes()), "utf-8")


def parse_options() -> argparse.Namespace:
    """Parses the command line."""
    parser = Parser(description="Runs all tests of the repository.")
    parser.add_argument("--after", action="store_true", help="leave out `rt ci`, in a checkout where it has run")
    parser.add_argument("--quick", action="store_true", help="the tests that are soon done, on a program without proof")
    parser.add_argument("--more", action="store_true", help="with --quick: all tests that need no proof")
    parser.add_argument("--llbm", metavar="PROGRAM", help="test only this program")
    parser.add_argument("--fuzz", metavar="N", type=int, help="how many cases of `dev/dev fuzz` are run")
    parser.add_argument("--seed", metavar="N", default="1", help="the seed of `dev/dev fuzz`")
    jobs = len(os.sched_getaffinity(0))
    parser.add_argument("--jobs", metavar="N", type=int, default=jobs, help="how many parts compile at a time")
    options = parser.parse_args()
    if options.quick and (options.after or options.llbm):
        parser.error("--quick compiles its own program, and has no --after and no --llbm")
    if options.more and not options.quick:
        parser.error("--more is for --quick: without it all is tested")
    return options


def lines_at_the_end(options: argparse.Namespace, counts: Counts, table: list[str]) -> Iterator[str]:
    """Yields the last lines."""
    yield from table
    if options.quick:
        yield NOT_DONE
    if options.quick and not options.more:
        yield LEFT
    yield counts.line()


def main() -> int:
    """Runs the tool, and returns its exit status."""
    options = parse_options()
    signal.signal(signal.SIGTERM, signal.default_int_handler)
    table: list[str] = []
    try:
        each = run_quick(options) if options.quick else (run_part(part, table) for part in parts_of(options))
        counts = total(each)
    except KeyboardInterrupt:
        return 130
    if not (counts.failed or options.quick or options.after or options.llbm):
        keep_receipt()
    print(*lines_at_the_end(options, counts, table), sep="\n")
    return counts.status()
