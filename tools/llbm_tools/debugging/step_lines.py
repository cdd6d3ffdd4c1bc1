"""Finds the place of each micro-step in the text of its entry: an action, an input of a merge, or a command."""

from typing import NamedTuple

from llbm_tools.debugging import vertex_failures
from llbm_tools.debugging.raw_entries import MARK
from llbm_tools.debugging.vertex_lines import Graph, Vertex
from llbm_tools.llb import definition
from llbm_tools.sessions.session import Session

SEPARATORS = (";", "&&", "||")

# The lines that begin a micro-step, by kind, and how many blocks are open before them.
BEGINS = {"file": ("actions {", 2), "merge": ("inputs {", 2)}


class Span(NamedTuple):
    """A part of a text: lines and columns, counted from 1; an end column of 0 is the end of the line."""

    first: int
    last: int
    column: int = 1
    end_column: int = 0


def bare(line: str) -> str:
    """Returns a line without the spaces around it."""
    return line.strip(" \t\r")


def lines_of(graph: Graph, vertex: Vertex) -> list[str]:
    """Returns the lines of a vertex's entry; of one that is `raw` also the fields in the comments below it."""
    lines = graph.text.split("\n")[vertex.first - 1 : vertex.last]
    if bare(lines[0]).startswith("raw "):
        return [" " * len(MARK) + line.removeprefix(MARK) if line.startswith(MARK) else line for line in lines]
    return ["" if bare(line).startswith("#") else line for line in lines]


def blocks_of(lines: list[str], begin: str, depth: int) -> list[tuple[int, int]]:
    """Returns the first and the last line of the blocks that begin so at a depth, counted from 0."""
    found, level, start = [], 0, 0
    for number, line in enumerate(map(bare, lines)):
        if line.endswith(" {"):
            if line == begin and level == depth:
                start = number
            level += 1
        elif line == "}":
            level -= 1
            if level == depth and bare(lines[start]) == begin:
                found.append((start, number))
                start = 0
    return found


def words_places(lines: list[str]) -> list[int]:
    """Returns the lines with the words of an execution."""
    return [number for number, line in enumerate(lines) if bare(line).startswith('args "')]


def command_spans(script: str, line: str, number: int) -> list[Span]:
    """Returns the places of the commands of a script on its line."""
    column = line.find('"') + 1
    found: list[Span] = []
    begin: int | None = None
    end = place = 0
    for word in [*script.split(" "), ";"]:
        if word in SEPARATORS:
            if begin is not None:
                found.append(Span(number, number, column + begin + 1, column + end + 1))
            begin = None
        elif word:
            begin = place if begin is None else begin
            end = place + len(word)
        place += len(word) + 1
    return found


def spans_of(graph: Graph, vertex: Vertex) -> list[Span]:
    """Returns the place of each micro-step of a vertex; that of its entry where the text does not show them."""
    lines = lines_of(graph, vertex)
    found: list[Span] = []
    if vertex.kind in BEGINS:
        found = [Span(vertex.first + a, vertex.first + b) for a, b in blocks_of(lines, *BEGINS[vertex.kind])]
    elif vertex.kind == "exec":
        places, args = words_places(lines), definition.args_of(vertex.op)
        if places and args[:2] == definition.SHELL and len(args) == 3:
            found = command_spans(args[2], lines[places[-1]], vertex.first + places[-1])
        elif places:
            found = [Span(vertex.first + places[0], vertex.first + places[-1])]
    whole = Span(vertex.first, vertex.last)
    return found if len(found) == vertex.steps else [whole] * vertex.steps


def is_finished(session: Session, worker: int, steps: int, vertex: Vertex) -> bool:
    """Returns whether what a worker runs has no micro-step left: all are done, or one failed that ends it."""
    place = vertex_failures.last_step(session.record, worker, len(session.record))
    if steps >= vertex.steps:
        return True
    if place is None or vertex_failures.failed_part(session.record[place]) is None:
        return False
    args = definition.args_of(vertex.op)
    separators = [word for word in args[-1].split(" ") if word in SEPARATORS] if args[:2] == definition.SHELL else []
    return all(one == "&&" for one in separators[max(steps - 1, 0) :])


def step_shown(session: Session, worker: int, vertex: Vertex) -> int | None:
    """Returns the micro-step that a worker does next, or the one that failed; None where neither is."""
    count = len(session.record)
    run = session.runs[worker]
    if run is not None and not is_finished(session, worker, run.steps, vertex):
        return run.steps
    place = vertex_failures.last_step(session.record, worker, count if run is not None else count - 1)
    return None if place is None else vertex_failures.failed_part(session.record[place])
