"""The requests about breakpoints, on lines, on functions and at failures, and what a breakpoint prints."""

import re

from llbm_tools.debugging import launching
from llbm_tools.debugging.request_arguments import Object, argument, of_kind
from llbm_tools.debugging.breakpoints import (
    Breakpoint, NoBreakpoint, Wanted, made, step_at, vertices_at_line, vertices_named, vertices_of_rows, wanted_of,
)
from llbm_tools.debugging.adapter_state import Holding
from llbm_tools.debugging.capabilities import FAILED
from llbm_tools.debugging.protocol_messages import Writer
from llbm_tools.debugging.step_lines import Span, spans_of
from llbm_tools.sessions.session import Event, Refusal
from llbm_tools.streams import Refused

FUNCTIONS, ENTRIES = "functions", "entries"
INSIDE = re.compile(r"\{([^{}]*)\}")


class Breaking(Holding):
    """An adapter's breakpoints. They are asked for source by source, and stay through a restart."""

    def __init__(self, writer: Writer) -> None:
        super().__init__(writer)
        self.breakpoint_count = 0
        self.asked: dict[str, list[Wanted]] = {}
        self.answers: dict[str, list[Object]] = {}
        self.valid: dict[str, list[Breakpoint]] = {}

    def set_breakpoints(self, arguments: Object) -> Object:
        """Replaces the breakpoints of a source; each gets an answer."""
        source = argument(arguments, "source", dict)
        given: list[object] = argument(arguments, "breakpoints", list, [])
        wanted = [wanted_of(one, 0, int, "line") for one in given]
        file = None if self.is_text(source) else self.file_of(source)
        if file is None and not self.is_text(source):
            cause = f"only {self.source()['name']}, the text of the definition, can have breakpoints"
            files = ", ".join(one.name for one in self.launched.origins.files if one.name)
            cause += f", and the files that it was made from: {files}" if files else ""
            return {"breakpoints": [{"verified": False, "line": one.place, "message": cause} for one in wanted]}
        name = ENTRIES if file is None else f"file {self.launched.origins.files[file].name}"
        return {"breakpoints": self.replace(name, wanted)}

    def set_function_breakpoints(self, arguments: Object) -> Object:
        """Replaces the breakpoints on functions, which are vertices by name, digest, number or label."""
        given = argument(arguments, "breakpoints", list)
        return {"breakpoints": self.replace(FUNCTIONS, [wanted_of(one, 0, str, "name") for one in given])}

    def replace(self, name: str, wanted: list[Wanted]) -> list[Object]:
        """Replaces the breakpoints of a source by name, and returns the answers; each gets a new number."""
        first = self.breakpoint_count + 1
        self.breakpoint_count += len(wanted)
        self.asked[name] = [one._replace(number=number) for number, one in enumerate(wanted, first)]
        return self.set_named(name)

    def set_named(self, name: str) -> list[Object]:
        """Sets the breakpoints that were asked for a source by name, and returns the answers."""
        found: list[Breakpoint] = []
        self.answers[name] = [self.breakpoint(name, wanted, found) for wanted in self.asked[name]]
        self.valid[name] = found
        self.mover.breakpoints = [one for each in self.valid.values() for one in each]
        return self.answers[name]

    def set_again(self) -> None:
        """Sets all breakpoints on another run, and reports those whose answers are different there."""
        before = [one for answers in self.answers.values() for one in answers]
        after = [one for name in list(self.answers) for one in self.set_named(name)]
        for new in [new for old, new in zip(before, after) if new != old]:
            self.event("breakpoint", {"reason": "changed", "breakpoint": new})

    def breakpoint(self, name: str, wanted: Wanted, found: list[Breakpoint]) -> Object:
        """Returns the answer to a breakpoint, and adds it to `found` if it is valid."""
        answer: Object = {"id": wanted.number, "verified": False}
        if name != FUNCTIONS:
            answer |= {"line": wanted.place, "source": self.source_named(name)}
        try:
            vertices = self.vertices(name, wanted)
            one = made(wanted, vertices, self.step(name, wanted, vertices))
        except NoBreakpoint as cause:
            return {**answer, "message": str(cause)}
        found.append(one)
        if name == FUNCTIONS:
            vertex = self.launched.graph.vertices[min(one.vertices)]
            answer |= {"line": self.line(vertex.first), "source": self.source()}
        return {**answer, "verified": True}

    def file_named(self, name: str) -> int:
        """Returns the file of the name of a source."""
        names = [f"file {file.name}" for file in self.launched.origins.files]
        if name not in names:
            raise NoBreakpoint("the definition was not made from this file")
        return names.index(name)

    def source_named(self, name: str) -> Object:
        """Returns the DAP source with the name under which its breakpoints are."""
        try:
            return self.source() if name == ENTRIES else self.file_source(self.file_named(name)) or {}
        except NoBreakpoint:
            return {}

    def vertices(self, name: str, wanted: Wanted) -> list[int]:
        """Returns the vertices of a breakpoint."""
        graph, origins = self.launched.graph, self.launched.origins
        if isinstance(wanted.place, str):
            return vertices_named(graph, wanted.place)
        line = wanted.place + 1 - self.line(1)
        if name == ENTRIES:
            return vertices_at_line(graph, line)
        return vertices_of_rows(graph, origins.rows_at(self.file_named(name), line))

    def step(self, name: str, wanted: Wanted, vertices: list[int]) -> int:
        """Returns the micro-step on the line of a breakpoint in the text of the entries; 0 elsewhere."""
        if name != ENTRIES or isinstance(wanted.place, str):
            return 0
        column = wanted.column + 1 - self.column(1) if wanted.column else 0
        return step_at(self.launched.graph, vertices[0], wanted.place + 1 - self.line(1), column)

    def breakpoint_locations(self, arguments: Object) -> Object:
        """Returns the places of a line of the text of the entries at which a run can stop: entries and micro-steps."""
        graph, line = self.launched.graph, argument(arguments, "line", int) + 1 - self.line(1)
        if not self.is_text(argument(arguments, "source", dict)) or graph.entry_at(line) is None:
            return {"breakpoints": []}
        vertex = graph.vertex_of[graph.entry_at(line) or 0]
        spans = spans_of(graph, graph.vertices[vertex]) if vertex is not None else []
        found = [span for span in spans if span.first == line] or ([Span(line, line)] if vertex is not None else [])
        return {"breakpoints": [self.location(span) for span in found]}

    def location(self, span: Span) -> Object:
        """Returns a place of the text as a location of a breakpoint."""
        ends = {"endColumn": self.column(span.end_column)} if span.end_column else {}
        return {"line": self.line(span.first), "column": self.column(span.column), **ends}

    def set_exception_breakpoints(self, arguments: Object) -> None:
        """Sets whether the run stops after a vertex that fails."""
        filters = [of_kind(one, "a filter", str) for one in argument(arguments, "filters", list)]
        for one in filters:
            if one != FAILED:
                raise Refused(f"the filter {one} is not known")
        self.mover.stops_at_failures = FAILED in filters

    def log(self, event: Event, message: str) -> None:
        """Prints the message of a breakpoint, with the values of the expressions in braces."""
        known = {"event": event.line, "worker": str(event.worker), "vertex": str(event.vertex)}
        text = INSIDE.sub(lambda match: known.get(match[1].strip()) or self.value_of(match[1]), message)
        place = self.line(self.launched.graph.vertices[event.vertex].first)
        self.output(text, "console", source=self.source(), line=place)

    def value_of(self, expression: str) -> str:
        """Returns the value of an expression, or why it has none."""
        try:
            return str(self.views.evaluate(expression)["result"])
        except (Refused, Refusal) as cause:
            return f"<{cause}>"

    def failure_of(self, vertex: int) -> str:
        """Returns the program's line for a vertex that failed."""
        status = self.launched.session.status()[vertex]
        return f"failed {vertex} {status.removeprefix('failed ')}"

    def failures(self) -> list[tuple[int, str]]:
        """Returns the vertices that failed, each with the program's line for it."""
        found = []
        for vertex, status in enumerate(self.launched.session.status()):
            if status.startswith("failed "):
                found.append((vertex, f"failed {vertex} {status.removeprefix('failed ')}"))
        return found

    def meaning(self, line: str, vertex: int | None = None) -> list[str]:
        """Returns the explanation of a line of the program, with its entry and, for a failed vertex, why it failed."""
        why = self.views.why(vertex) if vertex is not None else None
        return [*launching.explained(line, self.launched.entries), *([f"why: {why}"] if why else [])]
