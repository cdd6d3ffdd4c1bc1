"""Says at each event of a session what ends otherwise in BuildKit, by a comparison that goes on beside it.

A tree that an execution made is not compared if its text is too long, nor is what depends on it.
"""

import functools
from collections.abc import Collection, Mapping
from typing import IO

from llbm_tools.debugging.vertex_lines import Graph
from llbm_tools.rules import notes, rules_program
from llbm_tools.rules.comparison import WHOLE, Comparison, Executions, Later, Outputs, Unknown
from llbm_tools.rules.explaining import line_of
from llbm_tools.rules.notes import RowNote
from llbm_tools.sessions.session import Event, Session, TooLarge

MOST_BYTES = 4_000_000
# The vertex of what is about entries that are none.
NO_VERTEX = -1


class BuildkitComparison:
    """A session of a definition beside BuildKit, given the files of its sources' trees, and the names of those to which
    filters were applied. After a step back a new comparison begins."""

    def __init__(
        self, session: Session, graph: Graph, data: bytes, sources: Mapping[str, IO[bytes]],
        filtered: Collection[str] = (),
    ) -> None:
        self.session = session
        self.graph = graph
        self.data = data
        self.sources = sources
        self.filtered = filtered
        self.comparison: Comparison | None = None
        self.count = 0
        # The executions that have ended, and that the comparison has not asked for.
        self.ended: set[int] = set()
        self.why_unknown: dict[int, str] = {}

    @functools.cached_property
    def missing(self) -> str:
        """Why nothing is said, if the program with BuildKit's rules is not there."""
        try:
            rules_program.place()
        except rules_program.Missing as fault:
            return f"what ends otherwise in BuildKit is left out: {fault}"
        return ""

    @functools.cached_property
    def notes(self) -> dict[int, list[RowNote]]:
        """The notes by vertex, but for those of rules."""
        vertices = {one.entry: vertex for vertex, one in enumerate(self.graph.vertices)}
        found: dict[int, list[RowNote]] = {}
        all_notes = [] if self.missing else notes.notes_of(self.data, [], True)
        for note in notes.without_applied(all_notes, self.data, self.filtered):
            if note.kind != notes.RULE:
                found.setdefault(vertices.get(note.row, NO_VERTEX), []).append(note)
        return found

    def outside(self) -> list[str]:
        """Returns what ends otherwise by entries that are no vertices."""
        found = [one for one in self.notes.get(NO_VERTEX, []) if one.kind == notes.BREAKS]
        return [f"entry {one.row} {one.part}: {line_of(one.name)}" for one in found]

    def of_fields(self, vertex: int, action: int | None) -> list[str]:
        """Returns the notes of fields of an action, or of a vertex as a whole, as `lint` prints them."""
        found = [one for one in self.notes.get(vertex, []) if one.kind == notes.FIELD and one.action() == action]
        return [f"note {one.words()}" for one in found]

    def made(self, vertex: int) -> Outputs:
        """Returns what an execution made, once it has ended."""
        self.ended.discard(vertex)
        lines = []
        for output in range(self.graph.vertices[vertex].outputs):
            try:
                lines.append(self.session.tree_by(f"tree {vertex} {output}", MOST_BYTES))
            except TooLarge as fault:
                self.lose(vertex, f"not compared: {fault}")
                raise Unknown from fault
        if None not in lines:
            return [[line + b"\n" for line in tree or []] for tree in lines]
        if self.session.status()[vertex] == "failed":
            return None
        raise Later

    def lose(self, vertex: int, why: str) -> None:
        """Notes that a vertex, and what depends on it, is not compared."""
        self.why_unknown[vertex] = why
        for user in range(vertex, len(self.graph.vertices)):
            before = [int(named.partition(".")[0]) for named in self.graph.vertices[user].inputs]
            if found := next((self.why_unknown[named] for named in before if named in self.why_unknown), None):
                self.why_unknown.setdefault(user, found)

    def begun(self) -> Comparison:
        """Returns the comparison; a new one after a step back."""
        count = len(self.session.record)
        if self.comparison and count < self.count:
            self.comparison.close()
            self.comparison = None
        if self.comparison is None:
            self.count = 0
            self.why_unknown.clear()
            self.ended.clear()
            executions = Executions(self.made, entries=[one.entry for one in self.graph.vertices])
            self.comparison = Comparison(self.data, self.sources, executions)
            self.session.kept.callback(self.comparison.close)
        for event in self.session.record[self.count :]:
            if event.kind == "settle" and self.graph.vertices[event.vertex].op.exec:
                self.ended.add(event.vertex)
        self.count = count
        return self.comparison

    def whole(self, vertex: int) -> tuple[list[str], list[str]]:
        """Returns the lines of a vertex as a whole: those that need no trees, and the others."""
        lines = self.begun().steps.get(vertex, {}).get(WHOLE, [])
        breaks = any(one.kind == notes.BREAKS and one.action() is None for one in self.notes.get(vertex, []))
        count = len(lines) if breaks else 1 if self.graph.vertices[vertex].op.exec else 0
        return lines[:count], lines[count:]

    def of_event(self, event: Event) -> list[str]:
        """Returns lines for an event that was just done. At a claim they are about the vertex as a whole, at a step
        about the action, and at the last step of a merge, and else at the settle, about the trees of the vertex."""
        if self.missing:
            return []
        vertex, op = event.vertex, self.graph.vertices[event.vertex].op
        comparison = self.begun()
        comparison.go(defers=bool(self.ended))
        self.ended.clear()
        if event.kind == "claim":
            return [*self.of_fields(vertex, None), *self.whole(vertex)[0]]
        if event.kind == "settle":
            return [] if op.merge else self.whole(vertex)[1]
        if event.kind != "step" or op.exec or op.source:
            return []
        step = event.before.steps if event.before else 0
        if vertex in self.why_unknown:
            return [*self.of_fields(vertex, step), self.why_unknown[vertex]]
        is_last = op.merge and step == max(len(op.merge.inputs) - 1, 0)
        found = self.whole(vertex)[1] if is_last else [] if op.merge else comparison.steps.get(vertex, {}).get(step, [])
        return [*self.of_fields(vertex, step), *found]
