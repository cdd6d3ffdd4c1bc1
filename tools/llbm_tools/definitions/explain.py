"""Explains fault and failure lines of llbm with the sentences of docs/FAULTS.md, and the notes about BuildKit.

In: a line as words of the command line, as in `explain fault 82 3 12`, or lines on standard input if no words are
given; empty lines are skipped. A line is a fault, a failure, a finding or a note of `lint` (`note 3 Platform`), a line
of `explain buildkit` (`vertex 3 action 0: .. : MkfileOver`), a line `BuildKit: ..` of `explain run`, or a warning or a
refusal of llbmd as its clients show it (`WARN: ..`, `llbm: fault ..`); a name after a tab is skipped in those of
`lint`. The page is docs/FAULTS.md beside the tools. --definition FILE names the definition that the lines come from.

Out: a line for each fault, or for each field or rule, in the given line, with what it means, for a field or a rule also
what BuildKit and llbm do, and what to do about it; then, with a definition, the entry that the line names by its row or
its vertex: its digest, its kind, its name and its place in its source if the definition has them, what it does, and
what else the program refuses in it (--llbm PROGRAM, else that of the installation or repository). The definition may be
any one, whether or not the program accepts it. Each line of standard input is repeated, with its explanation indented
below it.

Exit status: 0 every line is explained; 2 a line, the page or the command line is refused, or the definition can't be
read or has no such entry: standard error names it, and all lines that can be are explained by the page; 3 a read or a
write failed.
"""

import argparse
import functools
import sys
from collections.abc import Iterable

from llbm_tools import common
from llbm_tools.command_line import Parser
from llbm_tools.definitions import faults
from llbm_tools.inputs import check_inputs, shown, standard_input
from llbm_tools.streams import REFUSED, exit_status, program_to_ask


def write(text: str) -> None:
    """Prints a line."""
    sys.stdout.buffer.write(text.encode("utf-8", "backslashreplace") + b"\n")


class Work:
    """Explains lines by the page and a definition; `status` is the exit status so far."""

    def __init__(self, definition: str | None, llbm: str | None) -> None:
        self.definition = definition
        program = functools.cache(lambda: program_to_ask(llbm))
        self.explainer = faults.Explainer(faults.read_page(), definition, program)
        self.said: set[str] = set()
        self.status = 0

    def refuse(self, cause: str) -> None:
        """Prints why something is refused, once."""
        if cause not in self.said:
            common.say(cause)
        self.said.add(cause)
        self.status = REFUSED

    def explain(self, line: str, indent: str, place: str) -> None:
        """Explains a line; `place` says where a line is that can't be explained."""
        try:
            texts, cause = self.explainer.explain(line)
        except faults.NoLine as fault:
            self.refuse(f"{fault}{place}")
            return
        for text in texts:
            write(f"{indent}{text}")
        if cause:
            self.refuse(f"{cause}: {shown(self.definition)}")

    def explain_all(self, lines: Iterable[bytes]) -> None:
        """Explains the lines of standard input."""
        for number, line in enumerate(lines, 1):
            text = line.decode("utf-8", "backslashreplace").rstrip("\r\n")
            if text:
                write(common.printable(text))
                self.explain(text, "  ", f": line {number}")
                sys.stdout.flush()


def explain(options: argparse.Namespace) -> int:
    """Explains what the command line asks for, and returns the exit status."""
    if not options.word and options.definition is not None:
        check_inputs(None, options.definition)
    work = Work(options.definition, options.llbm)
    common.check_open(sys.stdout, "standard output")
    if options.word:
        work.explain(" ".join(options.word), "", "")
    else:
        work.explain_all(standard_input())
    sys.stdout.flush()
    return work.status


def parser() -> argparse.ArgumentParser:
    """Returns the parser of the command line."""
    parser = Parser(
        description="Explains fault and failure lines of llbm, and notes, given as words or on standard input.",
    )
    parser.add_argument("word", nargs="*", metavar="WORD", help="the words of one line")
    parser.add_argument("--definition", metavar="FILE", help="the definition that the lines come from")
    parser.add_argument("--llbm", metavar="PROGRAM", help="the program llbm, which says what else it refuses")
    return parser


def main() -> int:
    """Runs the tool, and returns its exit status."""
    options = parser().parse_args()
    return exit_status(lambda: explain(options))
