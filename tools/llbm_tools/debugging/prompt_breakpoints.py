"""The breakpoints of a debugger at a prompt: what a line asks for, and their list."""

import re

from llbm_tools.debugging import path_breakpoints
from llbm_tools.debugging.breakpoints import (
    CLAIM, SETTLE, Breakpoint, NoBreakpoint, vertices_at_line, vertices_named, vertices_of_rows,
)
from llbm_tools.debugging.event_lines import change_line
from llbm_tools.debugging.last_event import Watch
from llbm_tools.debugging.launching import Launched
from llbm_tools.debugging.run_control import Mover, Stop
from llbm_tools.sessions.session import Event
from llbm_tools.streams import Refused

LINE = re.compile(r"(?:(.+):)?([0-9]{1,9})")


class PromptBreaks:
    """The breakpoints, by number, each with the words that set it."""

    def __init__(self, launched: Launched, mover: Mover, watch: Watch) -> None:
        self.launched, self.mover, self.watch = launched, mover, watch
        self.words: dict[int, str] = {}
        self.paths: dict[int, str] = {}
        self.count = 0
        mover.stops_for = self.path_stop

    def path_stop(self, event: Event) -> Stop | None:
        """Returns the stop after an event that changes one of the paths, or None."""
        for number, path in self.paths.items() if event.kind == "step" else []:
            touched = path_breakpoints.last_change(self.watch, path)
            if touched:
                text = f"{touched.tree}: {change_line(touched.change)}"
                return Stop("data breakpoint", text, event.worker, (number,))
        return None

    def names(self) -> list[str]:
        """Returns the words that name vertices: numbers, and names without spaces."""
        vertices = self.launched.graph.vertices
        named = [vertex.name for vertex in vertices if vertex.name and " " not in vertex.name]
        return [*map(str, range(len(vertices))), *named]

    def vertices_named(self, word: str) -> list[int]:
        """Returns the vertices that a word names."""
        try:
            return vertices_named(self.launched.graph, word)
        except NoBreakpoint as cause:
            raise Refused(str(cause)) from cause

    def vertex_named(self, word: str) -> int:
        """Returns the first vertex that a word names."""
        return self.vertices_named(word)[0]

    def vertices_at(self, place: str) -> list[int]:
        """Returns the vertices from a line of a file, or of the text of the entries."""
        match = LINE.fullmatch(place)
        if not match:
            raise Refused("break line [FILE:]LINE: the line is missing")
        try:
            graph, line = self.launched.graph, int(match[2])
            if match[1] is None:
                return vertices_at_line(graph, line)
            return vertices_of_rows(graph, self.launched.origins.rows_at(self.file(match[1]), line))
        except NoBreakpoint as cause:
            raise Refused(str(cause)) from cause

    def file(self, name: str) -> int:
        """Returns the number of a file that the definition was made from."""
        found = self.launched.origins.file_at(name)
        if found is None:
            names = ", ".join(file.name for file in self.launched.origins.files if file.name)
            raise Refused(f"the definition was not made from {name}" + (f", but from {names}" if names else ""))
        return found

    def add(self, line: str) -> str:
        """Sets the breakpoint that a line asks for, and returns its line."""
        kind, _, rest = line.partition(" ")
        number = self.count + 1
        if kind == "failures" and not rest:
            self.mover.stops_at_failures = True
        elif kind == "path" and rest.strip():
            self.paths[number] = rest.strip()
        elif kind == "line":
            self.add_vertices(number, self.vertices_at(rest.strip()), CLAIM)
        elif line.endswith(f" {SETTLE}"):
            self.add_vertices(number, self.vertices_named(line.removesuffix(SETTLE)), SETTLE)
        else:
            self.add_vertices(number, self.vertices_named(line), CLAIM)
        self.count, self.words[number] = number, line
        return self.line(number)

    def add_vertices(self, number: int, vertices: list[int], kind: str) -> None:
        """Sets a breakpoint on vertices."""
        self.mover.breakpoints.append(Breakpoint(number, frozenset(vertices), kind, lambda _: True))

    def line(self, number: int) -> str:
        """Returns the line of a breakpoint."""
        found = next((one.vertices for one in self.mover.breakpoints if one.number == number), frozenset())
        vertices = f" (vertex {', '.join(map(str, sorted(found)))})" if found else ""
        return f"breakpoint {number}: {self.words[number]}{vertices}"

    def lines(self) -> list[str]:
        """Returns the lines of all breakpoints."""
        return [self.line(number) for number in self.words]

    def remove(self, number: int) -> None:
        """Removes a breakpoint."""
        if number not in self.words:
            raise Refused(f"there is no breakpoint {number}")
        del self.words[number]
        self.paths.pop(number, None)
        self.mover.breakpoints = [one for one in self.mover.breakpoints if one.number != number]
        self.mover.stops_at_failures = "failures" in self.words.values()
