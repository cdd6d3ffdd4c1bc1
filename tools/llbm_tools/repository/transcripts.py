"""Runs the commands of pages and of the files in tests/, and compares their output with what is shown.

In: pages in Markdown, and folders, which stand for all files `*.md` in them. The commands of a page are run in order,
by bash. A command is one of these:

- In a block whose first line begins with `$ `, each such line, with the lines that belong to it: after a backslash at
  the end of a line, and after `<< END` those up to END. Below it is its standard output, then its standard error, each
  line after `! `, then `status N`, unless the status is 0. If it reads standard input, a line that begins with `> ` is
  typed to it when it has printed what is above the line; what it then prints is below.
- In another block (lines indented by four spaces, or between lines of ```), a line that begins with the path of a
  program of this repository, such as `dev/dev` or `./llbm`, or with such a path after `(cd DIRECTORY && `; before
  the first one the block may have lines that begin with `mkdir`. No output of such a block of commands is shown; they
  have to exit with status 0.

On the path are `llbm-tools` and, as `llbm`, --llbm PROGRAM, or else the first one of the repository that exists. A file
below a folder `tests` has an empty folder of its own, in which its commands make their inputs; with --unproved what it
shows of the version says that the program is not proved. These files run at the same time, one on each processor. The
other pages have one temporary folder with a copy of each file of the repository which git does not ignore (of all files
without git, but the compiled ones), and with the program where the repository has it: at crates/llbm/out/llbm, or, if
its version says that it is not proved, at out/llbm-unproved. Commands with the word `rt`, with `dev/dev
unproved-program`, which compile, and with `./gate` or `.ci/run`, which run this page themselves, are left out. The
program llbm-rules is that of the repository, at the same place of the copy; where `dev/dev daemon` has not built it,
commands of the tools that print BuildKit's rules are left out, too. At the end the copy must have no other files than
before, and these unchanged, but for files that git ignores.

Out: on standard output a line for each command or block that differs, those left out, and each file of the copy that
was made or changed, and at the end `N passed, M failed, K skipped`. Each command or block counts once, with all lines
that are typed to it; a command that begins with `cat > FILE <<` only makes a file, and counts only if it fails.
Skipped are those left out.

Exit status: 0 all agree with the pages, and nothing was made or changed; 1 otherwise; 2 the command line is refused, or
a page does not exist or shows no command; 3 a read or a write failed.
"""

import argparse
import concurrent.futures
import os
import pathlib
import re
import sys
import tempfile
from collections.abc import Iterator
from typing import NamedTuple

from llbm_tools.command_line import Parser
from llbm_tools.commands import USERS_DOOR
from llbm_tools.common import NOT_PROVED, PROVER, check_open, printable
from llbm_tools.counts import Counts, total
from llbm_tools.inputs import data_at
from llbm_tools.paths import ROOT, RULES
from llbm_tools.repository.fresh_copy import Copy
from llbm_tools.repository.shown_commands import Reply, Shown, parts_of, shown_by
from llbm_tools.repository.shown_runs import Place, difference
from llbm_tools.streams import Refused, exit_status, program_at

RULES_TOOLS = r"llbm-tools (?:explain (?:buildkit|run)|lint)|tools/(?:as-buildkit|explain-run|lint)"
BY_RULES = re.compile(rf"(?:{RULES_TOOLS})(?![^\s);&|])")
COMPILES = r"rt|(?:dev/dev |tools/)unproved-program|\./gate|\.ci/run"
LEFT_OUT = re.compile(rf"(?:^|[\s(;&|])(?:{COMPILES})(?![^\s);&|])", re.MULTILINE)
TESTS = "tests"


class Result:
    """How many commands passed, failed and were left out, and a line for each that failed or was left out."""

    def __init__(self) -> None:
        self.passed = self.failed = self.skipped = 0
        self.lines: list[str] = []

    def counts(self) -> Counts:
        """Returns the counts."""
        return Counts(self.passed, self.failed, self.skipped)

    def run(self, page: pathlib.Path, shown: Shown, place: Place) -> None:
        """Runs a command of a page, and counts it."""
        cause = difference(shown, place)
        if cause:
            self.fail(f"{page}:{shown.number}: {cause}")
        else:
            self.passed += not shown.is_input()

    def fail(self, line: str) -> None:
        """Counts a failure."""
        self.failed += 1
        self.lines.append(line)

    def leave(self, line: str) -> None:
        """Counts a command that is left out."""
        self.skipped += 1
        self.lines.append(line)


class Page(NamedTuple):
    """A page, and the commands that it shows."""

    path: pathlib.Path
    shown: list[Shown]

    def is_test(self) -> bool:
        """Returns whether the page is below a folder of tests."""
        path = pathlib.Path(os.path.abspath(self.path))
        return TESTS in (path.relative_to(ROOT) if path.is_relative_to(ROOT) else path).parts[:-1]


def pages_at(path: pathlib.Path) -> list[pathlib.Path]:
    """Returns a page, or all pages in a folder; what is neither is refused when it is read."""
    return sorted(path.glob("**/*.md")) or [path]


def shown_on(page: pathlib.Path) -> list[Shown]:
    """Returns the commands that a page shows; a page without any is refused."""
    try:
        text = data_at(str(page)).decode("utf-8")
    except UnicodeDecodeError as fault:
        raise Refused(f"not a text in UTF-8: {page}") from fault
    found = list(shown_by(parts_of(text)))
    if not found:
        raise Refused(f"there is no command on the page: {page}")
    return found


def without_proof(shown: Shown) -> Shown:
    """Returns a command with the version of a program that is not proved."""
    was, now = f"proved with {PROVER}", f"{NOT_PROVED} {PROVER}"
    replies = tuple(Reply(reply.typed, reply.output.replace(was, now)) for reply in shown.replies)
    output, errors = (text and text.replace(was, now) for text in (shown.output, shown.errors))
    return shown._replace(output=output, errors=errors, replies=replies)


def path_with(folder: str, program: str) -> dict[str, str]:
    """Puts the program into a folder, as `llbm`, and llbm-tools; returns the environment with it first on the path.

    The program is named there, too: of a named one no tool says whether it is proved, so all of them print the same.
    Temporary files are in the folder too, so that none says what a build left elsewhere that was killed.
    """
    temporary = os.path.join(folder, "temporary")
    os.makedirs(temporary)
    for place in (program, str(ROOT / USERS_DOOR)):
        os.symlink(place, os.path.join(folder, "llbm" if place is program else USERS_DOOR))
    path = os.pathsep.join([folder, os.environ.get("PATH", os.defpath)])
    return {**os.environ, "LLBM": program, "PATH": path, "TMPDIR": temporary}


def run_test(page: Page, settings: dict[str, str], is_unproved: bool) -> Result:
    """Runs the commands of a file of tests, in an empty folder."""
    result = Result()
    with tempfile.TemporaryDirectory(prefix="transcripts-") as folder:
        for shown in page.shown:
            result.run(page.path, without_proof(shown) if is_unproved else shown, Place(folder, settings))
    return result


def run_pages(pages: list[Page], copy: Copy, settings: dict[str, str]) -> Result:
    """Runs the commands of pages, in a copy of the repository whose programs come first on the path."""
    result = Result()
    path = os.pathsep.join([copy.folder, settings["PATH"]])
    known = {**settings, **copy.settings, "PATH": path}
    for page, shown in ((page, shown) for page in pages for shown in page.shown):
        if LEFT_OUT.search(shown.commands):
            result.leave(f"{page.path}:{shown.number}: left out, since it compiles or runs the gate")
        elif BY_RULES.search(shown.commands) and not RULES.exists():
            result.leave(f"{page.path}:{shown.number}: left out, since there is no out/llbm-rules")
        else:
            result.run(page.path, shown, Place(copy.folder, known))
    for changed in copy.changed():
        result.fail(f"{changed}: made or changed by these commands, and not ignored by git")
    return result


def results(pages: list[Page], folder: str, program: str, is_unproved: bool) -> Iterator[Result]:
    """Runs files of tests, as many at a time as there are processors, and then pages; yields their results in order."""
    settings = path_with(os.path.join(folder, "programs"), program)
    tests = [page for page in pages if page.is_test()]
    with concurrent.futures.ThreadPoolExecutor(len(os.sched_getaffinity(0))) as pool:
        yield from pool.map(lambda page: run_test(page, settings, is_unproved), tests)
    if len(tests) < len(pages):
        yield run_pages([page for page in pages if not page.is_test()], Copy(folder, program), settings)


def all_pages(paths: list[pathlib.Path]) -> Iterator[Page]:
    """Yields the pages that paths name."""
    for path in paths:
        for page in pages_at(path):
            yield Page(page, shown_on(page))


def transcripts(options: argparse.Namespace) -> int:
    """Runs all pages, and returns the exit status."""
    check_open(sys.stdout, "standard output")
    pages = list(all_pages(options.page))
    program = program_at(options.llbm)
    each = []
    with tempfile.TemporaryDirectory(prefix="transcripts-") as folder:
        for result in results(pages, folder, program, options.unproved):
            each.append(result.counts())
            for line in result.lines:
                print(printable(line), flush=True)
    counts = total(each)
    print(counts.line(), flush=True)
    return counts.status()


def parse_options() -> argparse.Namespace:
    """Parses the command line."""
    parser = Parser(
        description="Runs the commands of pages and of tests/, and compares their output with what is shown.",
    )
    parser.add_argument("--llbm", metavar="PROGRAM", help="the program llbm")
    parser.add_argument("--unproved", action="store_true", help="the version has to say that it is not proved")
    parser.add_argument("page", metavar="PAGE", nargs="+", type=pathlib.Path, help="a page in Markdown, or a folder")
    return parser.parse_args()


def main() -> int:
    """Runs the tool, and returns its exit status."""
    options = parse_options()
    return exit_status(lambda: transcripts(options))
