"""A definition as far as it can be read, whether or not the program accepts it: its entries, and what is refused.

Only bytes that are no definition at all, or that exceed the limits of one, are refused. An entry that the program does
not read as an op still has its digest, its name, and the inputs that can be read in its bytes.
"""

from typing import NamedTuple

from llbm_tools.llb import definition, names, no_definition, op_reading
from llbm_tools.llb.findings import Finding, findings_of
from llbm_tools.llb.names import Name
from llbm_tools.llb.ops import Op
from llbm_tools.llb.wire import Unreadable


class Edge(NamedTuple):
    """An input of an entry: the row of the entry that it names, if there is one, its digest, and the output."""

    row: int | None
    digest: str
    output: int


class Entry(NamedTuple):
    """An entry: its row and bytes, its op or why it is none, its name and vertex, its inputs, what is refused in it."""

    row: int
    data: bytes
    op: Op | None
    cause: str
    name: Name
    inputs: list[Edge]
    refused: list[Finding]

    def kind(self) -> str:
        """Returns the kind of the op."""
        return "no op" if self.op is None else self.op.kind or "no kind"

    def refusals(self) -> list[str]:
        """Returns the findings in the program's words."""
        return [f"fault {finding.words()}" for finding in self.refused]


class Inspected(NamedTuple):
    """The entries of a definition, its result, and what is refused of the whole. The last entry is the terminal."""

    entries: list[Entry]
    result: Edge | None
    refused: list[Finding]

    def below_terminal(self) -> list[Entry]:
        """Returns the entries but the terminal, without those that are equal to an earlier one."""
        terminal = self.entries[-1].name.digest if self.entries else ""
        first: dict[str, Entry] = {}
        for entry in self.entries:
            first.setdefault(entry.name.digest, entry)
        return [entry for digest, entry in first.items() if digest != terminal]


def op_in(entry: bytes) -> tuple[Op | None, str]:
    """Returns the op in an entry, or why it is none."""
    try:
        return op_reading.read_op(entry), ""
    except Unreadable as fault:
        return None, str(fault)


def edges_of(op: Op | None, entry: bytes) -> list[tuple[str, int]]:
    """Returns the digests and the outputs that the inputs of an entry name."""
    if op is not None:
        return [(edge.digest, edge.index) for edge in op.inputs]
    inputs = map(names.fields_of, names.parts_of(names.fields_of(entry), 1))
    return [(names.text_of(fields, 1), names.number_of(fields, 2)) for fields in inputs]


def inspected(data: bytes, place: str | None, program: str) -> Inspected:
    """Reads the definition of a place, in which the program finds faults; raises Refused if the bytes are none."""
    no_definition.check(data, place)
    try:
        entries = definition.entries_of(data)
        named = names.names_of(data)
    except Unreadable as fault:
        raise no_definition.refusal(fault, data, place) from fault
    found: dict[int | None, list[Finding]] = {}
    for finding in findings_of(data, program):
        found.setdefault(finding.row, []).append(finding)
    rows: dict[str, int] = {}
    for name in named:
        rows.setdefault(name.digest, name.row)
    if named:
        rows.pop(named[-1].digest)
    made = []
    for name, entry in zip(named, entries):
        op, cause = op_in(entry)
        edges = [Edge(rows.get(digest), digest, output) for digest, output in edges_of(op, entry)]
        made.append(Entry(name.row, entry, op, cause, name, edges, found.get(name.row, [])))
    result = made[-1].inputs[0] if made and made[-1].inputs else None
    return Inspected(made, result, found.get(None, []))
