"""Runs cases that are stored in folders, and compares what the program writes with what is stored.

In: FOLDER, below which each folder with a file `args` is a case: `args` has the words of the program's command line,
one on each line; `stdin` is what it reads, or `definition.text` the text of the definition that it reads; files and
directories that the words name are beside them. In a word NAME=PATH of `run` and `step` PATH is the text of a tree, a
directory or an archive (both with owner 0:0); of a directory only what the filters of its source select is given, as by
`build`, unless --no-filters is given. `stdout`, `stderr` and `status` are what the program has to write and its exit
status; one that is missing is empty, or 0. So a failure that is expected is a case too. --only TEXT runs the cases
whose paths have this text, --jobs N runs N at once, by default one for each processor. The program is --llbm PROGRAM,
else that of the installation or repository.

Out: on standard output a line for each case that is otherwise, below it a line for each path, line or status that
differs, and in the end `N passed, M failed`. With --update the stored answers of such cases are replaced, and the last
line counts them: `N passed, M updated`. --json prints one object in place of the lines: `cases`, an array of objects
with `name`, `outcome` (passed, failed, updated) and `lines`, and `passed`, `failed` and `updated`. --junit FILE writes
the cases as XML that CI systems read, as well.

Exit status: 0 no case failed; 1 some failed; 2 the command line is refused, or there is no case; 3 a read or a write
failed; 130 interrupted.
"""

import argparse
import concurrent.futures
import functools
import io
import os
import pathlib
from xml.etree import ElementTree

from llbm_tools import objects
from llbm_tools.command_line import Parser
from llbm_tools.common import printable
from llbm_tools.rules import filters
from llbm_tools.running import stored_cases
from llbm_tools.running.stored_cases import FAILED, PASSED, UPDATED, Ended, Runner
from llbm_tools.streams import Refused, exit_status, of_place, program_at, write_and_rename, write_output

USUAL_SECONDS = 600
NO_XML = dict.fromkeys([*range(9), 11, 12, *range(14, 32), 127])


def counts_of(found: list[Ended]) -> dict[str, int]:
    """Returns how many cases ended in each way."""
    outcomes = [one.outcome for one in found]
    return {word: outcomes.count(word) for word in (PASSED, FAILED, UPDATED)}


def lines_of(found: list[Ended], is_updated: bool) -> str:
    """Returns the lines of all cases that are otherwise, and the counts."""
    counts = counts_of(found)
    lines = []
    for one in found:
        if one.outcome != PASSED:
            lines += [f"{one.outcome} {one.name}", *(f"    {line}" for line in one.lines)]
    others = [UPDATED] if is_updated and not counts[FAILED] else [FAILED, *([UPDATED] if is_updated else [])]
    lines.append(", ".join(f"{counts[word]} {word}" for word in [PASSED, *others]))
    return "".join(f"{printable(line)}\n" for line in lines)


def members_of(found: list[Ended]) -> dict[str, object]:
    """Returns the members of the object of all cases."""
    return {"cases": [one._asdict() for one in found], **counts_of(found)}


def junit_of(found: list[Ended], name: str) -> bytes:
    """Returns the cases as a suite in XML."""
    failures = str(counts_of(found)[FAILED])
    suite = ElementTree.Element("testsuite", name=name, tests=str(len(found)), failures=failures, errors="0")
    for one in found:
        case = ElementTree.SubElement(suite, "testcase", classname=name, name=one.name.translate(NO_XML))
        if one.outcome == FAILED:
            text = "\n".join(map(printable, one.lines)).translate(NO_XML)
            failure = ElementTree.SubElement(case, "failure", message=printable(one.lines[0]).translate(NO_XML))
            failure.text = text
    return b"%s\n" % ElementTree.tostring(suite, "utf-8", xml_declaration=True)


def write_junit(found: list[Ended], name: str, place: str) -> None:
    """Writes the cases as XML to a file, completely or not at all; or to what a link or a pipe leads to."""
    try:
        if os.path.islink(place) or os.path.exists(place) and not os.path.isfile(place):
            with open(place, "wb") as file:
                file.write(junit_of(found, name))
        else:
            write_and_rename([junit_of(found, name)], place)
    except OSError as fault:
        raise of_place(fault, place) from fault


def all_ended(options: argparse.Namespace, folders: list[pathlib.Path]) -> list[Ended]:
    """Runs all cases, some at once, and returns how they ended, in their order."""
    runner = Runner(program_at(options.llbm), options.seconds, has_filters=not options.no_filters)
    run = functools.partial(stored_cases.ended, runner, is_updated=options.update)
    with concurrent.futures.ThreadPoolExecutor(options.jobs) as pool:
        return list(pool.map(lambda folder: run(folder, os.path.relpath(folder, options.folder)), folders))


def check(options: argparse.Namespace) -> int:
    """Runs the cases, writes how they ended, and returns the exit status."""
    folders = stored_cases.folders_below(options.folder, options.only)
    if not folders:
        only = f" whose path has the text {options.only!r}" if options.only else ""
        raise Refused(f"there is no case, a folder with a file {stored_cases.ARGS}{only}, below: {options.folder}")
    found = all_ended(options, folders)
    if options.junit:
        write_junit(found, options.folder, options.junit)
    text = objects.text_of(members_of(found)) if options.json else lines_of(found, options.update)
    write_output(io.BytesIO(text.encode("utf-8", "surrogateescape")), "the output")
    return int(any(one.outcome == FAILED for one in found))


def positive(word: str) -> int:
    """Parses a number from 1 on."""
    if not word.isdecimal() or not 0 < int(word[:10]) < 10**9:
        raise argparse.ArgumentTypeError(f"{word!r} is not a number from 1 on")
    return int(word)


def parse_options() -> argparse.Namespace:
    """Parses the command line."""
    parser = Parser(description="Runs cases that are stored in folders.")
    parser.add_argument("folder", metavar="FOLDER", help="the folder of the cases")
    parser.add_argument("--only", metavar="TEXT", default="", help="run the cases whose paths have this text")
    parser.add_argument("--update", action="store_true", help="store what the program writes")
    filters.add_option(parser)
    parser.add_argument("--json", action="store_true", help="print one object")
    parser.add_argument("--junit", metavar="FILE", help="also write the cases as XML")
    parser.add_argument("--jobs", metavar="N", type=positive, default=os.cpu_count() or 1, help="run N at once")
    seconds = f"how long a case may take, {USUAL_SECONDS} by default"
    parser.add_argument("--seconds", metavar="N", type=positive, default=USUAL_SECONDS, help=seconds)
    parser.add_argument("--llbm", metavar="PROGRAM", help="the program llbm")
    return parser.parse_args()


def main() -> int:
    """Runs the tool, and returns its exit status."""
    options = parse_options()
    return exit_status(lambda: check(options))
