"""Runs a definition, and says where BuildKit ends otherwise: by its rules for file ops, merges and local sources.

In: a definition (`-` for standard input), and NAME=PATH for each local source: a directory, a tar (both with owner 0:0)
or a tree text. The program is --llbm PROGRAM, else $LLBM, else that of the installation or the repository, else the one
on PATH; one that is not proved, and that nobody named, is named on standard error. Of a directory only what the filters
of its source select is given, as by `run`; with --no-filters all of it.

Out: on standard output a line for each action, merge or source that ends otherwise, with the path, what BuildKit has
there, what is there here, and the rule, as docs/BUILDKIT.md lists them; at most --paths N for each, 20 by default. A
line `note ..` names each field that has an effect in BuildKit and none here: what it would change is not known. The
last line says whether the results agree. Their roots are not compared. They differ if something breaks BuildKit's
daemon: a line `vertex ..` or, for an entry that is no vertex, `entry ..` says what. With --tree the tree that BuildKit
would make is printed instead, or on standard error why there is none. What an execution makes is taken from the run
here: BuildKit runs a process instead, as a line of its vertex and the last line say. --json prints one object in place
of the lines (docs/FORMATS.md, "Objects of tools").

Exit status: 0 the results agree, or the tree is printed; 1 they differ, or there is no tree in BuildKit; 2 something is
refused: standard error says what; 3 a read or a write failed, or the program ended by itself.
"""

import argparse
import shutil
import sys
import tempfile
from collections.abc import Iterator

from llbm_tools import common, inputs, objects
from llbm_tools.command_line import Parser
from llbm_tools.debugging import launching
from llbm_tools.llb import definition, names
from llbm_tools.rules import filters, notes, rules_program
from llbm_tools.rules.comparison import WHOLE, Comparison, End, Executions, Outputs, StepLines
from llbm_tools.rules.one_execution import Program
from llbm_tools.running import explain_run
from llbm_tools.sessions.session import Refusal, Session, SessionFailed
from llbm_tools.streams import FAILED, Failed, Refused, exit_status
from llbm_tools.trees.source_files import source_of

# The vertex of what is about entries that are none.
NO_VERTEX = -1


def outputs_of(session: Session, vertex: int, count: int) -> Outputs:
    """Returns the outputs of a vertex in a session, or None if it failed."""
    found = [session.tree_by(f"tree {vertex} {output}") for output in range(count)]
    trees = [[line + b"\n" for line in lines] for lines in found if lines is not None]
    return trees if len(trees) == count else None


class Compared:
    """A run that is complete, beside BuildKit's."""

    def __init__(
        self, data: bytes, launched: launching.Launched, program_path: str, options: argparse.Namespace
    ) -> None:
        self.data = data
        self.launched = launched
        self.vertices = launched.graph.vertices
        entries = definition.entries_of(data)
        runner = Program(program_path, definition.graph_of(entries), entries)
        executions = Executions(self.made, runner.run, [one.entry for one in self.vertices])
        while launched.session.event("next"):
            pass
        self.comparison = Comparison(
            data, launched.sources, executions, options.paths, options.tree, self.result(launched.graph.result)
        )
        launched.session.kept.callback(self.comparison.close)

    def made(self, vertex: int) -> Outputs:
        """Returns what an execution made here."""
        return outputs_of(self.launched.session, vertex, self.vertices[vertex].outputs)

    def result(self, named: str) -> list[bytes] | None:
        """Returns the result of the run, or None if there is none."""
        vertex, _, output = named.partition(".")
        lines = self.launched.session.tree_by(f"tree {vertex} {output}")
        return None if lines is None else [line + b"\n" for line in lines]

    def run(self) -> End:
        """Compares all vertices."""
        self.comparison.go()
        if self.comparison.end is None:
            raise Failed(f"{rules_program.NAME} compare has not ended")
        return self.comparison.end

    def notes(self) -> list[str]:
        """Returns lines for fields without an effect here."""
        found = notes.without_applied(notes.notes_of(self.data, [], False), self.data, self.launched.filtered)
        shown = [name.shown() for name in names.names_of(self.data)] if found else []
        return ["\t".join(filter(None, [f"note {one.words()}", shown[one.row]])) for one in found]

    def placed(self, vertex: int, lines: StepLines) -> Iterator[str]:
        """Yields lines with the vertex and the action that they are about."""
        for step, words in sorted(lines.items()):
            place = f"vertex {vertex}" if step == WHOLE else f"vertex {vertex} action {step}"
            yield from words if vertex == NO_VERTEX else (f"{place}: {one}" for one in words)

    def differences(self) -> Iterator[objects.Members]:
        """Yields the object of each line about a vertex, an action or an entry that is no vertex."""
        for vertex, lines in sorted(self.comparison.steps.items()):
            for step, words in sorted(lines.items()):
                number, action = None if vertex == NO_VERTEX else vertex, None if step == WHOLE else step
                yield from ({"vertex": number, "action": action, "text": one} for one in words)

    def members(self, end: End) -> dict[str, object]:
        """Returns the members of the object of the comparison."""
        return {"notes": self.notes(), "differences": list(self.differences()), "agree": end.agree, "end": end.words}

    def lines(self) -> Iterator[str]:
        """Yields all lines but the last one."""
        yield from self.notes()
        for vertex, lines in sorted(self.comparison.steps.items()):
            yield from self.placed(vertex, lines)


def printable(line: str) -> str:
    """Returns a line with what cannot be printed escaped, but for the tab before a name."""
    return "\t".join(map(common.printable, line.split("\t")))


def print_tree(end: End) -> int:
    """Prints BuildKit's tree, and returns the exit status."""
    if end.tree is None:
        common.say(end.fails)
        return 1
    with open(end.tree, "rb") as tree:
        shutil.copyfileobj(tree, sys.stdout.buffer)
    sys.stdout.flush()
    return 0


def compare(options: argparse.Namespace) -> int:
    """Runs the definition, prints what is asked for, and returns the exit status."""
    common.check_open(sys.stdout, "standard output")
    with tempfile.TemporaryDirectory(prefix="llbm-as-buildkit-") as folder:
        file = inputs.stored_data(options.definition, folder, "definition")
        given = {
            "definition": file, "sources": dict(options.source), "workers": 1, "llbm": options.llbm,
            "noFilters": options.no_filters,
        }
        launched = launching.launch(given, common.say, "--llbm PROGRAM")
    try:
        compared = Compared(launched.entries.data, launched, launching.program_of(given, "--llbm PROGRAM"), options)
        end = compared.run()
        if options.tree:
            return print_tree(end)
        if options.json:
            objects.write(compared.members(end))
            return 0 if end.agree else 1
        text = "".join(f"{printable(line)}\n" for line in [*compared.lines(), end.words])
        sys.stdout.buffer.write(text.encode("utf-8", "backslashreplace"))
        sys.stdout.flush()
        return 0 if end.agree else 1
    finally:
        launched.session.end()


def parse_options() -> argparse.Namespace:
    """Parses the command line."""
    parser = Parser(description="Says where BuildKit would end otherwise.")
    add = parser.add_argument
    add("definition", metavar="DEFINITION", help="the file of the definition, or -")
    add("source", nargs="*", type=source_of, metavar="NAME=PATH", help="a local source")
    add("--tree", action="store_true", help="print the tree that BuildKit would make")
    add("--json", action="store_true", help="print one object")
    add("--llbm", metavar="PROGRAM", default="", help="the program llbm")
    filters.add_option(parser)
    add("--paths", metavar="N", type=explain_run.number_of, default=20, help="the most paths of a step")
    return parser.parse_args()


def compare_or_refuse(options: argparse.Namespace) -> int:
    """Compares, or says why the program ended by itself, and returns the exit status."""
    try:
        return compare(options)
    except (Refusal, rules_program.Missing) as fault:
        raise Refused(str(fault)) from fault
    except SessionFailed as fault:
        for line in [str(fault), *fault.words]:
            common.say(line)
        return FAILED


def main() -> int:
    """Runs the tool, and returns its exit status."""
    options = parse_options()
    return exit_status(lambda: compare_or_refuse(options))
