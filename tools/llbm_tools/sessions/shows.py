"""Parses the lines of `llbm show`, up to the first faulty one."""

import re
from typing import NamedTuple

from llbm_tools.streams import Refused

KINDS = ("source", "file", "merge", "exec")

NUMBER = r"(?:0|[1-9][0-9]{0,19})"
EDGE = rf"{NUMBER}\.{NUMBER}"
VERTEX = re.compile(
    rf"({NUMBER}) ({'|'.join(KINDS)}) steps ({NUMBER}) outputs ({NUMBER}) inputs (-|{EDGE}(?: {EDGE})*)"
)
RESULT = re.compile(rf"result ({EDGE})")

Edge = tuple[int, int]


class Vertex(NamedTuple):
    """The line of a vertex."""

    number: int
    kind: str
    steps: int
    outputs: int
    inputs: list[Edge]


class Show(NamedTuple):
    """All lines."""

    vertices: list[Vertex]
    result: Edge


def edge_of(text: str, vertices: list[Vertex]) -> Edge:
    """Parses `V.I`, an output of a vertex above."""
    vertex, index = map(int, text.split("."))
    if vertex >= len(vertices) or index >= vertices[vertex].outputs:
        raise Refused(f"{text} is not an output of a vertex above")
    return vertex, index


def vertex_of(line: str, vertices: list[Vertex]) -> Vertex:
    """Parses the line of a vertex."""
    match = VERTEX.fullmatch(line)
    if not match:
        raise Refused("neither V KIND steps S outputs O inputs LIST nor result V.I")
    number, kind, steps, outputs, inputs = match.groups()
    if int(number) != len(vertices):
        raise Refused(f"the number of the vertex is not {len(vertices)}")
    edges = [] if inputs == "-" else [edge_of(text, vertices) for text in inputs.split(" ")]
    return Vertex(int(number), kind, int(steps), int(outputs), edges)


def read_line(line: str, vertices: list[Vertex], result: Edge | None) -> Edge | None:
    """Adds a vertex, or returns the result, which is the last line."""
    if result:
        raise Refused("the result is not the last line")
    match = RESULT.fullmatch(line)
    if match:
        return edge_of(match[1], vertices)
    vertices.append(vertex_of(line, vertices))
    return None


def show_of(text: str) -> Show:
    """Parses all lines."""
    *lines, rest = text.split("\n")
    vertices: list[Vertex] = []
    result = None
    for number, line in enumerate(lines, 1):
        try:
            result = read_line(line, vertices, result)
        except Refused as fault:
            raise Refused(f"{fault}: line {number}") from fault
    if rest or not result:
        cause = "the line does not end with a newline" if rest else "there is no result"
        raise Refused(f"{cause}: line {len(lines) + 1}")
    return Show(vertices, result)
