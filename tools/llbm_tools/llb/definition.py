"""Reads the parts of a definition that the tools print: its entries, their ops, the numbered graph.

The messages and the numbering are those of docs/FORMATS.md. Most rules of the program are not checked.
"""

import functools
import heapq
import re
import shlex
from typing import NamedTuple

from llbm_tools.hashes import sha256
from llbm_tools.inputs import data_at
from llbm_tools.llb import op_reading
from llbm_tools.llb.ops import FileAction, Input, Op
from llbm_tools.llb.wire import Unreadable

SHELL = ("/bin/sh", "-c")


class Graph(NamedTuple):
    """The numbered graph: the row of each vertex, its inputs as (vertex, output), and the result."""

    rows: list[int]
    inputs: list[list[tuple[int, int]]]
    result: tuple[int, int]


def entries_of(data: bytes) -> list[bytes]:
    """Returns the entries of a definition."""
    return op_reading.entries_in(op_reading.read_definition(data))


def entries_in(place: str) -> list[bytes]:
    """Returns the entries of the definition in a file."""
    return entries_of(data_at(place))


def digest_of(entry: bytes) -> str:
    """Returns the digest by which inputs name an entry."""
    return "sha256:" + sha256(entry).hexdigest()


def op_of(row: int, entry: bytes) -> Op:
    """Parses the op in the entry of a row."""
    try:
        return op_reading.read_op(entry)
    except Unreadable as fault:
        raise Unreadable(f"row {row} is not an op: {fault}") from fault


class Rows:
    """The rows of a definition: its entries by digest. A digest names the first row that has it."""

    def __init__(self, entries: list[bytes]) -> None:
        self.ops = [op_of(row, entry) for row, entry in enumerate(entries)]
        digests = [digest_of(entry) for entry in entries]
        self.named: dict[str, int] = {}
        for row, digest in enumerate(digests):
            self.named.setdefault(digest, row)
        if len(self.named) < 2:
            raise Unreadable("there are fewer than two distinct rows")
        self.terminal = self.named.pop(digests[-1])

    def row_of(self, row: int, number: int, edge: Input) -> int:
        """Returns the row that an input names."""
        named = self.named.get(edge.digest)
        if named is None:
            raise Unreadable(f"input {number} of row {row} names no row")
        return named

    def links(self, row: int) -> list[int]:
        """Returns the rows that the inputs of a row name."""
        return [self.row_of(row, number, edge) for number, edge in enumerate(self.ops[row].inputs)]

    def result(self) -> tuple[int, int]:
        """Returns the row and the output of the result: the terminal's first input."""
        inputs = self.ops[self.terminal].inputs
        if not inputs:
            raise Unreadable("the terminal has no input")
        return self.row_of(self.terminal, 0, inputs[0]), inputs[0].index

    def reached(self, start: int) -> dict[int, list[int]]:
        """Returns the rows that are reachable from a row, each with the rows that its inputs name."""
        links: dict[int, list[int]] = {}
        left = [start]
        while left:
            row = left.pop()
            if row not in links:
                links[row] = self.links(row)
                left.extend(links[row])
        return links


def order_of(links: dict[int, list[int]]) -> list[int]:
    """Returns the rows in vertex order: each time the smallest row whose inputs are all numbered."""
    missing = {row: set(named) for row, named in links.items()}
    users: dict[int, list[int]] = {row: [] for row in links}
    for row, named in missing.items():
        for one in named:
            users[one].append(row)
    ready = [row for row, named in missing.items() if not named]
    heapq.heapify(ready)
    order = []
    while ready:
        row = heapq.heappop(ready)
        order.append(row)
        for user in users[row]:
            missing[user].discard(row)
            if not missing[user]:
                heapq.heappush(ready, user)
    if len(order) < len(links):
        raise Unreadable("the rows have a cycle")
    return order


def graph_of(entries: list[bytes]) -> Graph:
    """Returns the graph of the entries, numbered as the program does."""
    return kept_graph_of(tuple(entries))


@functools.lru_cache(2)
def kept_graph_of(entries: tuple[bytes, ...]) -> Graph:
    """Returns the graph of the entries, which is kept while the next definition is read."""
    rows = Rows(list(entries))
    start, index = rows.result()
    links = rows.reached(start)
    order = order_of(links)
    numbers = {row: number for number, row in enumerate(order)}
    inputs = []
    for row in order:
        indexes = [edge.index for edge in rows.ops[row].inputs]
        inputs.append([(numbers[named], output) for named, output in zip(links[row], indexes)])
    return Graph(order, inputs, (numbers[start], index))


def inputs_of(op: Op) -> list[str]:
    """Returns the inputs of an op by digest and output."""
    return [f"{edge.digest}, output {edge.index}" for edge in op.inputs]


def action_text(action: FileAction) -> str:
    """Describes an action by its kind and paths."""
    if action.copy:
        return f"copy {action.copy.src} -> {action.copy.dest}"
    member = action.mkfile or action.mkdir or action.rm
    return f"{action.kind} {member.path}" if member else "no action"


def actions_of(op: Op) -> list[str]:
    """Describes the actions of a file op by their kinds and paths."""
    return [action_text(action) for action in op.file.actions] if op.file else []


def args_of(op: Op) -> tuple[str, ...]:
    """Returns the words of an exec."""
    return op.exec.meta.args if op.exec and op.exec.meta else ()


def script_of(op: Op) -> str:
    """Returns the script of an exec: the text for the shell, or else its words, quoted where necessary."""
    args = args_of(op)
    return args[2] if args[:2] == SHELL and len(args) == 3 else shlex.join(args)


def commands_of(op: Op) -> list[str]:
    """Returns the commands of an exec's script."""
    args = args_of(op)
    if args[:2] != SHELL or len(args) != 3:
        return [shlex.join(args)]
    words = " ".join(word for word in args[2].split(" ") if word)
    return re.split(r"(?:^| )(?:;|&&|\|\|)(?: |$)", words)


def texts_of(op: Op) -> list[str]:
    """Describes what an op does: one text for each action of a file op, one for an exec or a source, else none."""
    if op.source:
        return [op.source.identifier]
    return [script_of(op)] if op.exec else actions_of(op)
