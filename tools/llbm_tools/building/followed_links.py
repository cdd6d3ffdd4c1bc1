"""Follows symbolic links of sources as BuildKit does: llbm-rules rewrites the definition, and looks at what was made.

Paths that lead through links are rewritten where the trees are known, by the rules by which llbmd rewrites a build.
Where they are not, they are looked at once the program has run: a build is refused of which BuildKit would have
followed a link.
"""

import base64
import contextlib
import os
from collections.abc import Callable, Mapping
from typing import NamedTuple

from llbm_tools.building.sources_by_value import local_name
from llbm_tools.common import say
from llbm_tools.llb import definition, op_reading
from llbm_tools.llb.ops import Op
from llbm_tools.llb.wire import Unreadable
from llbm_tools.rules import rules_program
from llbm_tools.rules.comparison import Comparison, Executions, Later, Outputs
from llbm_tools.streams import Refused
from llbm_tools.trees.content_tokens import Table, token

EXECUTION = "Execution"
# Returns an output of a vertex by its number, or None if there is none.
TreeOf = Callable[[int, int], list[bytes] | None]


class Texts(NamedTuple):
    """The texts of local sources in files by name, the table of their contents, and which files have other names."""

    files: list[tuple[str, str]]
    table: Table
    hard_links: Mapping[str, list[bytes]]


def known_of(table: Table) -> list[dict[str, str]]:
    """Returns the links of a table as llbm-rules is told of them."""
    return [
        {"token": encoded(token(number)), "target": encoded(target)} for number, target in table.targets.items()
    ]


def encoded(data: bytes) -> str:
    """Returns bytes as JSON has them."""
    return base64.b64encode(data).decode("ascii")


def check_archives(ops: list[Op]) -> None:
    """Refuses a copy that would unpack archives: BuildKit's rules are not told which contents are some."""
    for number, op in enumerate(ops):
        for place, action in enumerate(op.file.actions if op.file else ()):
            if action.copy and action.copy.unpack:
                raise Refused(f"vertex {number} action {place} would unpack an archive, which --links can't tell")


def check_unread(data: bytes) -> None:
    """Refuses a definition that the program does not take if that is by a copy that would unpack archives."""
    with contextlib.suppress(Unreadable):
        entries = definition.entries_of(data)
        check_archives([op_reading.read_op(entries[row]) for row in definition.graph_of(entries).rows])


class Following:
    """The comparison of a build with BuildKit's, and the definition that is run."""

    def __init__(self, data: bytes, texts: Texts) -> None:
        self.tree_of: TreeOf | None = None
        self.kept = contextlib.ExitStack()
        files = {name: self.kept.enter_context(open(place, "rb")) for name, place in texts.files}
        entries = definition.entries_of(data)
        rows = definition.graph_of(entries).rows
        ops = [op_reading.read_op(entries[row]) for row in rows]
        check_archives(ops)
        linked = {
            number: [os.fsdecode(path[1:]) for path in texts.hard_links.get(os.fsdecode(name), [])]
            for number, op in enumerate(ops) if (name := local_name(op)) is not None
        }  # fmt: skip
        further = {
            "rewrite": True, "received": True, "known": known_of(texts.table),
            "links": {str(number): paths for number, paths in linked.items() if paths},
        }  # fmt: skip
        try:
            self.comparison = Comparison(data, files, Executions(self.made, None, rows), further=further)
        except rules_program.Missing as fault:
            raise Refused(f"--links needs BuildKit's rules: {fault}") from fault
        self.kept.callback(self.comparison.close)
        self.data = self.rewritten(data)
        self.comparison.go()
        self.check()

    def rewritten(self, data: bytes) -> bytes:
        """Returns the definition that is run, and says what was rewritten."""
        while self.comparison.run is None and self.comparison.end is None:
            self.comparison.take(self.comparison.message())
        run = self.comparison.run
        if run is None:
            return data
        for row, how in sorted((run["rows"] or {}).items(), key=lambda item: int(item[0])):
            for change in how["Changes"] or []:
                say(f"rewritten {row}: {change}")
        new = base64.b64decode(run["definition"])
        rows = definition.graph_of(definition.entries_of(new)).rows
        self.comparison.vertices = {row: vertex for vertex, row in enumerate(rows)}
        return new

    def needs_outputs(self) -> bool:
        """Returns whether it has to be known what executions make."""
        return self.comparison.end is None

    def made(self, vertex: int) -> Outputs:
        """Returns what an execution made."""
        if self.tree_of is None:
            raise Later
        found, output = [], 0
        while tree := self.tree_of(vertex, output):
            found.append(tree)
            output += 1
        return found or None

    def finish(self, tree_of: TreeOf) -> None:
        """Looks at what executions made, now that they have run."""
        self.tree_of = tree_of
        self.comparison.go()
        self.check()

    def check(self) -> None:
        """Refuses a build of which BuildKit would have followed a link."""
        for vertex, words in self.comparison.follows:
            raise Refused(f"vertex {vertex}: {words}; name the path to which the link leads")

    def say_differences(self) -> None:
        """Says what BuildKit makes otherwise, and once that it runs processes."""
        has_said = False
        for vertex, actions in sorted(self.comparison.steps.items()):
            for action, lines in sorted(actions.items()):
                place = f"vertex {vertex}" + (f" action {action}" if action >= 0 else "")
                for line in lines:
                    is_execution = line.endswith(f": {EXECUTION}")
                    if not (is_execution and has_said):
                        say(f"BuildKit: {place}: {line}")
                    has_said = has_said or is_execution

    def close(self) -> None:
        """Ends the program, and closes the texts."""
        self.kept.close()
