"""Prints everything that keeps llbm from accepting a definition, not only the first fault, and what has no effect.

In: a definition, or the text of one, on standard input or in the file DEFINITION.

Out: on standard output a line for each finding, `fault NUMBER ..` in the words of the program, as `explain` reads them;
then, after a tab, the name of the entry and its place in its source, if the definition has them. Characters that cannot
be printed are escaped. The program finds them (`show --findings`): --llbm PROGRAM, else that of the installation or
repository. The first line is the fault that each other command of it prints. The others are sorted by entry, those
without an entry first, and within an entry by the number of the fault. Each feature of fault 88 and each rule of fault
89 is checked in each entry that is reachable from the result; an entry that is not an op, and an input that names no
row, lead to none. Of an entry that is not an op only its first fault is printed. Of a text that makes no definition
standard error says so.

After the findings there is a line `note ENTRY NAME` for each field of such an entry that is set, has an effect in
BuildKit and none here; `action N`, `mount N` or the key of an attribute may follow the name. With --like-buildkit there
is also a note for each rule by which a vertex can end otherwise in BuildKit, if no fault was found, and for what
BuildKit's daemon dies of. docs/BUILDKIT.md lists the names. --strict makes findings of notes. The program llbm-rules
finds the notes (dev/dev daemon builds it); where it is not there, a line on standard error says that they are left out.
--json prints one object in place of the lines (docs/FORMATS.md, "Objects of tools").

Exit status: 0 the program accepts the definition, and nothing but notes is printed; 1 there are findings; 2 the command
line is refused; 3 a read or a write failed.
"""

import argparse
import sys
from typing import NamedTuple

from llbm_tools import common, objects
from llbm_tools.command_line import Parser
from llbm_tools.llb import names, no_definition
from llbm_tools.llb.findings import Finding, findings_of
from llbm_tools.llb.given_definitions import bytes_at
from llbm_tools.llb.wire import Unreadable
from llbm_tools.rules import notes, rules_program
from llbm_tools.streams import Refused, exit_status, program_to_ask


def names_in(data: bytes) -> list[str]:
    """Returns the names of the entries for a person; an empty list if the definition cannot be parsed."""
    try:
        return [name.shown() for name in names.names_of(data)]
    except Unreadable:
        return []


def notes_of(data: bytes, found: list[Finding], is_like: bool) -> list[notes.RowNote]:
    """Returns the notes of a definition; none, and a line that says so, if the program that finds them is not there."""
    try:
        return notes.notes_of(data, found, is_like)
    except rules_program.Missing as fault:
        common.say(f"notes are left out: {fault}")
        return []


class Line(NamedTuple):
    """A line: its kind, `fault` or `note`, its words, and the name of its entry, or nothing."""

    kind: str
    words: str
    name: str

    def text(self) -> str:
        """Returns the line as it is printed."""
        return "\t".join(filter(None, [f"{self.kind} {self.words}", self.name]))


def lines_of(data: bytes, llbm: str, is_like: bool) -> tuple[list[Line], list[Line]]:
    """Returns a line for each finding, and one for each note; with `is_like` also for what can end otherwise."""
    found = findings_of(data, llbm)
    noted = notes_of(data, found, is_like)
    shown = names_in(data) if found or noted else []

    def line(kind: str, words: str, row: int | None) -> Line:
        return Line(kind, common.printable(words), shown[row] if shown and row is not None else "")

    faults = [line("fault", finding.words(), finding.row) for finding in found]
    return faults, [line("note", one.words(), one.row) for one in noted]


def members_of(faults: list[Line], noted: list[Line]) -> dict[str, object]:
    """Returns the members of the object of all findings and notes."""
    return {"findings": [one._asdict() for one in faults + noted], "faults": len(faults), "notes": len(noted)}


def text_of(faults: list[Line], noted: list[Line], *, is_json: bool) -> str:
    """Returns what is printed."""
    if is_json:
        return objects.text_of(members_of(faults, noted))
    return "".join(f"{one.text()}\n" for one in faults + noted)


def parse_options() -> argparse.Namespace:
    """Parses the command line."""
    parser = Parser(
        description="Prints everything that keeps llbm from accepting a definition, one line each."
    )
    add = parser.add_argument
    add("definition", nargs="?", metavar="DEFINITION", help="the definition (default: standard input)")
    add("--like-buildkit", action="store_true", help="also print what can end otherwise in BuildKit")
    add("--strict", action="store_true", help="end with status 1 if there are notes")
    add("--json", action="store_true", help="print one object")
    add("--llbm", metavar="PROGRAM", help="the program llbm, which finds the faults")
    return parser.parse_args()


def lint(options: argparse.Namespace) -> int:
    """Prints the findings, and returns the exit status."""
    llbm = program_to_ask(options.llbm)
    data = bytes_at(options.definition, lambda: llbm)
    faults, noted = lines_of(data, llbm, options.like_buildkit)
    try:
        no_definition.check(data, options.definition)
    except Refused as fault:
        common.say(str(fault))
    common.check_open(sys.stdout, "standard output")
    sys.stdout.buffer.write(text_of(faults, noted, is_json=options.json).encode("utf-8", "backslashreplace"))
    sys.stdout.flush()
    return 1 if faults or (noted and options.strict) else 0


def main() -> int:
    """Runs the tool, and returns its exit status."""
    options = parse_options()
    return exit_status(lambda: lint(options))
