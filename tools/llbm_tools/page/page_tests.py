"""Tests the page: its module in Node against the program, and the page itself in a browser.

In: the module that `dev/dev wasm` made, in --page FOLDER or out/page of the repository, and page/; the program, as for
`test`; Node for the first part, and Chromium for the second. The module and the program answer the same cases: each
command on each example and sessions over it, and with --cases FOLDER the stored cases of a folder (`args`, `stdin`,
`stdout`, `stderr`, `status` and the files of the words). In the browser the page is used as a person uses it, and each
answer of its session is compared with that of `llbm step` to the same line. --pictures FOLDER writes pictures of its
views there, with --all-pictures those of start, failure, a wide graph and two orders, wide, narrow, light and dark.

Out: on standard output a line for each test that failed, measured times, and at the end `N passed, M failed, K
skipped`. A test in the browser that fails is tried once more, and a line says so. It has failed with `no answer` if the
browser did not show something in time: that says nothing of the page, only that the host was too busy or that the
browser hangs. Where Node, a browser, or the page is missing, the tests that need it are skipped, and a line says why.

Exit status: 0 all tests pass; 1 some fail; 2 the command line is refused, or there is no program; 3 a read or a write
failed, or Node or the browser did.
"""

import argparse
import pathlib
import sys
import tempfile
from collections.abc import Callable, Iterator

from llbm_tools import common, streams
from llbm_tools.command_line import Parser
from llbm_tools.counts import Counts
from llbm_tools.page import assets, browser, module_cases, pictures
from llbm_tools.page import browser_cases as page_cases
from llbm_tools.page.page_driver import WIDE, Page, Wrong, same
from llbm_tools.streams import Failed, exit_status

PLACE = module_cases.MODULE.parent


class Outcome:
    """How many tests there were, what failed, and why others were left out."""

    def __init__(self) -> None:
        self.count = 0
        self.failed = 0
        self.skipped: dict[str, int] = {}

    def take(self, name: str, wrong: str) -> None:
        """Counts a test; prints what is wrong, if something is."""
        self.count += 1
        if wrong:
            self.failed += 1
            print(common.printable(f"FAILED {name}: {wrong}")[:1000], flush=True)

    def leave(self, count: int, why: str) -> None:
        """Counts tests that are left out."""
        self.skipped[why] = self.skipped.get(why, 0) + count

    def lines(self) -> Iterator[str]:
        """Yields the lines at the end."""
        for why, count in self.skipped.items():
            yield f"{count} skipped: {why}"
        yield Counts(self.count - self.failed, self.failed, sum(self.skipped.values())).line()


def missing(options: argparse.Namespace) -> str:
    """Returns why there is no page to test, or nothing."""
    return "" if (options.page / assets.MODULE).is_file() else "no page is there, dev/dev wasm makes it"


def module_tests(options: argparse.Namespace, program: str, outcome: Outcome) -> None:
    """Compares the module with the program."""
    cases = module_cases.cases_for(options.cases, program)
    why = missing(options) or ("" if module_cases.node() else "Node is not installed")
    if why:
        outcome.leave(len(cases) + 1, why)
        return
    module = options.page / assets.MODULE
    for case, wrong in module_cases.differences(module, program, cases):
        outcome.take(case.name, wrong)
    outcome.take("refused memory", module_cases.refused_memory(module, program))
    print(f"module: {len(cases)} cases answered as by the program, byte for byte, but for those that are named above")


def cases_of(options: argparse.Namespace) -> list[Callable[[Page], None]]:
    """Returns the tests in the browser: all, or those that are named."""
    return [case for case in page_cases.CASES if not options.only or case.__name__ in options.only]


def browser_tests(options: argparse.Namespace, program: str, outcome: Outcome) -> None:
    """Uses the page in a browser."""
    path = browser.found()
    why = missing(options) or ("" if path else "Chromium is not installed")
    if why or path is None:
        outcome.leave(len(cases_of(options)), why)
        return
    with (
        tempfile.TemporaryDirectory(prefix="llbm-page-") as folder,
        browser.served(pathlib.Path(folder)) as url,
        browser.opened(path) as opened,
    ):
        assets.write(pathlib.Path(folder), (options.page / assets.MODULE).read_bytes())
        page = Page(opened, url, program, pathlib.Path(folder))
        for case in cases_of(options):
            outcome.take(f"in the browser: {case.__name__}", result_in_browser(page, case))
        if options.pictures:
            options.pictures.mkdir(parents=True, exist_ok=True)
            take = pictures.take_all if options.all_pictures else pictures.take_pictures
            take(page, options.pictures)
    for what, times in page.measured.items():
        print(f"{what}: {times} ms (least, middle, most)")
    for line in page.noted:
        print(line)


def result(work: Callable[[], None]) -> str:
    """Does a test, and returns what is wrong, or nothing."""
    try:
        work()
    except Wrong as fault:
        return str(fault) or "wrong"
    except browser.BrowserFailed as fault:
        return f"the browser: {fault}"
    return ""


def result_in_browser(page: Page, case: Callable[[Page], None]) -> str:
    """Does a test in the browser, a second time if it fails, since it waits for pictures; returns what is wrong."""

    def work() -> None:
        """Does the test, and wants no exception of the page's code and no error in its console that is not awaited."""
        page.browser.faults.clear()
        page.awaited.clear()
        page.browser.size(*WIDE)
        case(page)
        found = [fault for fault in page.browser.faults if not any(one in fault for one in page.awaited)]
        same(found, [], "faults of the page's code")

    wrong = result(work)
    if wrong:
        print(common.printable(f"tried again: {case.__name__}: {wrong}")[:1000], flush=True)
        wrong = result(work)
    return wrong


def tests(options: argparse.Namespace) -> int:
    """Runs all tests, and returns the exit status."""
    common.check_open(sys.stdout, "standard output")
    program = streams.program_at(options.llbm)
    outcome = Outcome()
    try:
        if not options.only_browser:
            module_tests(options, program, outcome)
        browser_tests(options, program, outcome)
    except browser.BrowserFailed as fault:
        raise Failed(f"the browser: {fault}") from fault
    for line in outcome.lines():
        print(line)
    sys.stdout.flush()
    return 1 if outcome.failed else 0


def parse_options() -> argparse.Namespace:
    """Parses the command line."""
    parser = Parser(description="Tests the page and its module.")
    parser.add_argument("--llbm", metavar="PROGRAM", help="the program llbm")
    parser.add_argument("--page", metavar="FOLDER", type=pathlib.Path, default=PLACE, help="default: out/page")
    parser.add_argument("--cases", metavar="FOLDER", type=pathlib.Path, help="a folder of stored cases")
    parser.add_argument("--pictures", metavar="FOLDER", type=pathlib.Path, help="where pictures are written")
    parser.add_argument("--all-pictures", action="store_true", help="with --pictures: wide, narrow, light and dark")
    parser.add_argument("--only", metavar="NAME", nargs="+", help="the tests in the browser to run (default: all)")
    parser.add_argument("--only-browser", action="store_true", help="leave out the comparison in Node")
    return parser.parse_args()


def main() -> int:
    """Runs the tool, and returns its exit status."""
    options = parse_options()
    return exit_status(lambda: tests(options))
