"""Which local sources a build gives by value, because of what the graph writes itself: `llbm show --plan`.

The program hands contents on without looking at them, except for `sha256`, and a content that it writes must not be
mistaken for a token. That its plan is enough is the law `boards_stand_for_contents` of crates/llb_laws.
"""

import re
from collections.abc import Iterator
from typing import NamedTuple

from llbm_tools.llb import definition, op_reading
from llbm_tools.llb.ops import LOCAL, Op
from llbm_tools.llb.program_questions import ask

NO_SOURCE = "no local source has this name"
VALUE, DIGEST, CACHE, NONE = "value", "digest", "cache", "-"
LINE = re.compile(
    r"([0-9]+) (sha256:[0-9a-f]{64}) reads (value|token) cause (digest|cache|-) marks (-|[0-9]+(?: [0-9]+)*)"
)


class Plan(NamedTuple):
    """The local sources that are given by value, by name, each with its cause; the cause for giving all of them so, or
    nothing; and the names of all local sources.
    """

    sources: dict[bytes, str]
    all: str
    names: frozenset[bytes]

    def cause(self, name: bytes) -> str:
        """Returns why a source is given by value, or nothing."""
        return self.sources.get(name, "") if name in self.names else NO_SOURCE


class Vertex(NamedTuple):
    """A vertex of the plan: how what it reads is given, why it needs it so, and which of its actions write a mark."""

    digest: str
    way: str
    why: str
    marks: str


def vertices_of(data: bytes, program: str) -> list[Vertex]:
    """Returns the vertices of the program's plan, by number; none if it refuses the definition."""
    lines = ask(program, "show", "--plan", given=data).text.splitlines()[:-1]
    return [Vertex(*one.groups()[1:]) for line in lines if (one := LINE.fullmatch(line))]


def cause_for_all(vertices: list[Vertex]) -> str:
    """Returns why all sources are given by value, or nothing."""
    for number, vertex in enumerate(vertices):
        if vertex.marks != NONE:
            return f"action {vertex.marks.split(' ')[0]} of vertex {number} writes the byte 255"
    return ""


def own_causes(vertices: list[Vertex]) -> Iterator[tuple[int, str]]:
    """Yields the vertices that need contents by value themselves, each with why."""
    digesting = [number for number, vertex in enumerate(vertices) if vertex.why == DIGEST]
    for number, vertex in enumerate(vertices):
        if vertex.why == DIGEST:
            yield number, f"vertex {number}, an exec, calls sha256"
        elif vertex.why == CACHE:
            yield number, f"vertex {digesting[0]}, an exec, calls sha256, and vertex {number} mounts a cache"


def local_name(op: Op) -> bytes | None:
    """Returns the name of a local source as the program has it, in bytes; None for another op."""
    return op.source.identifier.removeprefix(LOCAL).encode("utf-8") if op.source else None


def causes_of(vertices: list[Vertex], ops: list[Op]) -> dict[int, str]:
    """Returns in words why vertices read by value: the vertex that is the last of those that need them so."""
    numbers = {vertex.digest: number for number, vertex in enumerate(vertices)}
    found = dict(own_causes(vertices))
    for number in reversed(range(len(vertices))):
        for edge in ops[number].inputs if number in found else ():
            found.setdefault(numbers[edge.digest], found[number])
    return found


def plan_of(data: bytes, program: str) -> Plan | None:
    """Returns how the sources of a definition are given, or None if the program refuses it."""
    vertices = vertices_of(data, program)
    if not vertices:
        return None
    entries = {definition.digest_of(entry): entry for entry in definition.entries_of(data)}
    ops = [op_reading.read_op(entries[vertex.digest]) for vertex in vertices]
    names = {number: name for number, op in enumerate(ops) if (name := local_name(op)) is not None}
    by_value = {number for number in names if vertices[number].way == VALUE}
    causes = causes_of(vertices, ops) if by_value else {}
    sources: dict[bytes, str] = {}
    for number in sorted(by_value):
        sources.setdefault(names[number], causes[number])
    return Plan(sources, cause_for_all(vertices), frozenset(names.values()))
