"""The faults of a definition, which the program finds: `llbm show --findings` prints each that is at its own place."""

from collections.abc import Iterator
from typing import NamedTuple

from llbm_tools.llb import definition
from llbm_tools.llb.program_questions import ask
from llbm_tools.streams import Failed

DEFINITION, ENTRY, FEATURE, RULE = 81, 82, 88, 89
# The faults whose line has no row.
ROWLESS = (DEFINITION, 83, 85, 87)
# A rule with a text at its end, the first word of a call; only this text can have line ends.
NO_APPLET = "Script 71 "


class Finding(NamedTuple):
    """A fault: its number, its row if it has one, and the rest of its line."""

    number: int
    row: int | None = None
    rest: str = ""

    def words(self) -> str:
        """Returns the words of the program after `fault`."""
        row = [] if self.row is None else [str(self.row)]
        return " ".join([str(self.number), *row, *([self.rest] if self.rest else [])])

    def name(self) -> str:
        """Returns the name of a feature or of a rule, or nothing."""
        return self.rest.partition(" ")[0] if self.number in (FEATURE, RULE) else ""


def finding_of(line: str) -> Finding:
    """Returns the finding on a line of the program."""
    _, _, words = line.partition(" ")
    number, _, rest = words.partition(" ")
    if int(number) in ROWLESS:
        return Finding(int(number), None, rest)
    row, _, others = rest.partition(" ")
    return Finding(int(number), int(row), others)


def found_in(text: str, data: bytes) -> Iterator[Finding]:
    """Yields the findings on the lines that the program prints for a definition."""
    lines = iter(text.split("\n")[:-1])
    entries = definition.entries_of(data) if NO_APPLET in text else []
    for line in lines:
        one = finding_of(line)
        if one.row is not None and one.rest.startswith(NO_APPLET):
            called = definition.args_of(definition.op_of(one.row, entries[one.row]))[0]
            more = [next(lines) for _ in range(called.count("\n"))]
            one = one._replace(rest="\n".join([one.rest, *more]))
        yield one


def findings_of(data: bytes, program: str) -> list[Finding]:
    """Returns all faults of a definition, which the program finds; empty if it accepts the definition.

    The first one is the fault that each other command of the program prints. The others are by row, those without a row
    first, and those of a row by number.
    """
    answer = ask(program, "show", "--findings", given=data)
    if answer.is_refused and not answer.text:
        raise Failed("the program knows no show --findings")
    found = list(found_in(answer.text, data))
    others = sorted(found[1:], key=lambda one: (-1 if one.row is None else one.row, one.number))
    return [*found[:1], *others]
