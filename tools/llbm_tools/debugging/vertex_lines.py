"""Finds the vertices of a graph in the text of its entries."""

from typing import NamedTuple

from llbm_tools.llb import definition
from llbm_tools.llb.ops import Op
from llbm_tools.sessions import shows
from llbm_tools.streams import Refused

Lines = list[tuple[int, int]]


class Vertex(NamedTuple):
    """A vertex as the program shows it, with its entry, the bytes, the op and the lines of that, and its own name."""

    kind: str
    steps: int
    outputs: int
    inputs: list[str]
    entry: int
    data: bytes
    op: Op
    first: int
    last: int
    name: str


class Text(NamedTuple):
    """The text of entries, and the first and the last line of each entry in it, counted from 1."""

    text: str
    lines: Lines


class Graph(NamedTuple):
    """The vertices by number, the result, the text of the entries, and the lines and the vertex of each entry."""

    vertices: list[Vertex]
    result: str
    text: str
    lines: Lines
    vertex_of: list[int | None]

    def entry_at(self, line: int) -> int | None:
        """Returns the entry on a line of the text, or None."""
        for entry, (first, last) in enumerate(self.lines):
            if first <= line <= last:
                return entry
        return None


def lines_of(text: str) -> Lines:
    """Returns the first and the last line of each entry in a text of entries, counted from 1."""
    found = []
    depth, first = 0, 0
    for number, line in enumerate(text.split("\n"), 1):
        line = line.strip(" \t\r")
        if not line or line.startswith("#"):
            continue
        if depth == 0:
            first = number
        depth += line.endswith(" {")
        depth -= line == "}"
        if depth == 0:
            found.append((first, number))
    return found


def vertices_by_entry(entries: list[bytes], rows: list[int]) -> list[int | None]:
    """Returns the vertex of each entry; an entry that is equal to an earlier one has the same vertex."""
    first: dict[bytes, int] = {}
    numbers = {row: vertex for vertex, row in enumerate(rows)}
    return [numbers.get(first.setdefault(entry, row)) for row, entry in enumerate(entries)]


def edge_text(edge: shows.Edge) -> str:
    """Returns an output of a vertex as a text."""
    return f"{edge[0]}.{edge[1]}"


def vertex_of(shown: shows.Vertex, row: int, entry: bytes, place: tuple[int, int], name: str) -> Vertex:
    """Returns a vertex of a session's graph, given the row, the lines and the name of its entry."""
    named = list(map(edge_text, shown.inputs))
    return Vertex(shown.kind, shown.steps, shown.outputs, named, row, entry, definition.op_of(row, entry), *place, name)


def graph_of(show: shows.Show, digests: list[str], text: Text, entries: list[bytes], names: list[str]) -> Graph:
    """Returns the graph, given that of a session with the digests of its vertices, and the text of the entries, the
    entries, and their names."""
    lines = text.lines
    if len(lines) != len(entries):
        raise Refused(f"the text has {len(lines)} entries, and the definition {len(entries)}")
    known: dict[str, int] = {}
    for row, entry in enumerate(entries):
        known.setdefault(definition.digest_of(entry), row)
    if len(digests) != len(show.vertices) or not known.keys() >= set(digests):
        raise Refused("the program shows another graph than that of the definition")
    rows = [known[digest] for digest in digests]
    vertices = [vertex_of(one, row, entries[row], lines[row], names[row]) for one, row in zip(show.vertices, rows)]
    return Graph(vertices, edge_text(show.result), text.text, lines, vertices_by_entry(entries, rows))
