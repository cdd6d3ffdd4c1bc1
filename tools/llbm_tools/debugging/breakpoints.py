"""Breakpoints: where they are, at which events they are met, and at which hits they stop.

A breakpoint is on a line of the text of the entries, on a line of a file that the definition was made from, or on a
function: a vertex by its name, its digest, its number, or the label of its entry. One on a line of an action, of an
input of a merge or of a command stops where that comes next.
"""

import re
from collections.abc import Callable
from typing import NamedTuple

from llbm_tools.debugging import conditions, step_lines
from llbm_tools.debugging.request_arguments import argument, of_kind
from llbm_tools.debugging.vertex_lines import Graph
from llbm_tools.llb import definition
from llbm_tools.sessions.session import Event

CLAIM, STEP, SETTLE = "claim", "step", "settle"
SHORTEST_DIGEST = 8

HITS = re.compile(r"\s*(==|=|>=|>|<=|<|%|)\s*([0-9]{1,9})\s*")
DIGEST = re.compile(rf"(?:sha256:)?([0-9a-f]{{{SHORTEST_DIGEST},64}})")
NUMBER = re.compile(r"(%?)([0-9]{1,9})")

Condition = Callable[[int], bool]


class Breakpoint(NamedTuple):
    """A breakpoint: its number, the vertices of the events that meet it, what these are, and at which hits it stops.

    They are claims, settles, or the events after which the micro-step of a number is next; or those for which a
    condition holds. A breakpoint with a message does not stop: the message is printed.
    """

    number: int
    vertices: frozenset[int]
    kind: str
    stops: Condition
    message: str = ""
    step: int = 0
    holds: conditions.Condition | None = None

    def meets(self, event: Event, number: int) -> bool:
        """Returns whether an event, which has a number in the record, meets the breakpoint."""
        if event.vertex not in self.vertices:
            return False
        if self.holds:
            return self.holds(event, number)
        if self.kind != STEP:
            return event.kind == self.kind
        return event.kind == STEP and not event.reply.startswith("fault ") and steps_after(event) == self.step


def steps_after(event: Event) -> int:
    """Returns how many micro-steps of its vertex are done after a micro-step."""
    return event.before.steps + 1 if event.before else 1


class Wanted(NamedTuple):
    """A breakpoint that a client asks for, with its number, its place, its column, and its conditions as texts."""

    number: int
    place: int | str
    column: int
    condition: str
    hits: str
    message: str


class NoBreakpoint(Exception):
    """A breakpoint can't be set; the message says why."""


def condition_of(text: str) -> Condition:
    """Returns the condition on the number of hits in a text: `N`, `== N`, `> N`, `>= N`, `< N`, `<= N` or `% N`."""
    if not text.strip():
        return lambda _: True
    match = HITS.fullmatch(text)
    if not match or match[1] == "%" and int(match[2]) == 0:
        raise NoBreakpoint("the hit condition is none of N, == N, > N, >= N, < N, <= N and % N")
    number = int(match[2])
    return {
        "": lambda hits: hits == number,
        "=": lambda hits: hits == number,
        "==": lambda hits: hits == number,
        ">": lambda hits: hits > number,
        ">=": lambda hits: hits >= number,
        "<": lambda hits: hits < number,
        "<=": lambda hits: hits <= number,
        "%": lambda hits: hits % number == 0,
    }[match[1]]


def wanted_of(given: object, number: int, kind: type[int] | type[str], name: str) -> Wanted:
    """Returns a breakpoint that a client asks for; its place is the argument with this name and type."""
    one = of_kind(given, "a breakpoint", dict)
    place: int | str = argument(one, name, int) if kind is int else argument(one, name, str)
    texts = [argument(one, text, str, "") for text in ("condition", "hitCondition", "logMessage")]
    return Wanted(number, place, argument(one, "column", int, 0), texts[0].strip(), texts[1], texts[2])


def made(wanted: Wanted, vertices: list[int], step: int = 0) -> Breakpoint:
    """Returns the breakpoint on these vertices, or where a micro-step of theirs is next."""
    stops, found = condition_of(wanted.hits), frozenset(vertices)
    if wanted.condition not in ("", CLAIM, SETTLE):
        try:
            holds = conditions.condition_in(wanted.condition)
        except conditions.NoCondition as cause:
            raise NoBreakpoint(f"{cause}, or it is claim or settle") from cause
        return Breakpoint(wanted.number, found, "", stops, wanted.message, holds=holds)
    kind = wanted.condition or (STEP if step else CLAIM)
    return Breakpoint(wanted.number, found, kind, stops, wanted.message, step)


def step_at(graph: Graph, vertex: int, line: int, column: int) -> int:
    """Returns the micro-step of a vertex on a line, and in a column if that is not 0; 0 if it has none there."""
    known = graph.vertices[vertex]
    for step, span in enumerate(step_lines.spans_of(graph, known)):
        is_in = not column or not span.end_column or span.column <= column < span.end_column
        if (span.first, span.last) != (known.first, known.last) and span.first <= line <= span.last and is_in:
            return step
    return 0


def vertex_of(graph: Graph, entry: int) -> int:
    """Returns the vertex of an entry."""
    vertex = graph.vertex_of[entry]
    if vertex is None:
        raise NoBreakpoint(f"entry {entry} is not a vertex: the result does not depend on it")
    return vertex


def vertices_at_line(graph: Graph, line: int) -> list[int]:
    """Returns the vertex on a line of the text of the entries."""
    entry = graph.entry_at(line)
    if entry is None:
        raise NoBreakpoint("no entry has this line")
    return [vertex_of(graph, entry)]


def vertices_of_rows(graph: Graph, rows: list[int]) -> list[int]:
    """Returns the vertices of the entries that come from a line of a file."""
    if not rows:
        raise NoBreakpoint("no entry comes from this line")
    vertices = [vertex for row in rows if (vertex := graph.vertex_of[row]) is not None]
    return vertices or [vertex_of(graph, rows[0])]


def vertices_named(graph: Graph, name: str) -> list[int]:
    """Returns the vertices with a name, or with a digest that begins so, or the one with a number or a label."""
    name = name.strip()
    found = [number for number, vertex in enumerate(graph.vertices) if vertex.name and vertex.name.strip() == name]
    number = NUMBER.fullmatch(name)
    if found:
        return found
    if number and number[1] and int(number[2]) < len(graph.vertex_of):
        return [vertex_of(graph, int(number[2]))]
    if number and not number[1] and int(number[2]) < len(graph.vertices):
        return [int(number[2])]
    digest = DIGEST.fullmatch(name)
    digests = [definition.digest_of(vertex.data) for vertex in graph.vertices] if digest else []
    found = [number for number, one in enumerate(digests) if digest and one.startswith(f"sha256:{digest[1]}")]
    if not found:
        raise NoBreakpoint(f"no vertex has the name, the digest, the number or the label {name!r}")
    return found
