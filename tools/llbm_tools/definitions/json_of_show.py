"""Converts the lines of `llbm show` to JSON.

In: the lines on standard input, `V KIND steps S outputs O inputs LIST` for each vertex by number and then `result V.I`.
--definition FILE names the definition of the graph. Or in place of the lines a definition in the file DEFINITION (`-`
for standard input), whether or not the program accepts it.

Out: on standard output an object with the members `vertices`, an array of objects with the members `number`, `kind`,
`steps`, `outputs` and `inputs`, and `result`. An input and the result are objects with the members `vertex` and
`output`. With a definition each vertex also has `row` and `digest` of its entry, `op`, the message with the names of
its fields (absent fields are left out, and bytes are hexadecimal), and, where they are not empty, `local`, the name of
a local source, `name`, `group` and `place` in its source, and `description`, the texts of its metadata.
With DEFINITION the object has instead the members `entries`, with all entries but the terminal and repeated ones;
`result`, an input or null; and `refused`, what the program refuses of the whole and of the terminal, in its words. An
entry has the members that a vertex has from a definition (`op` is null if it is none, and then `cause` says why), and
`vertex`, its number or null, `kind`, `inputs` and `refused`. An input has the members `row` (null if it names no
entry), `digest` and `output`.

Exit status: 0 the object is written; 2 a line, the definition or the command line is refused, and nothing is written:
the first faulty line is named on standard error with `line N` at its end, counted from 1; 3 a read or a write failed.
"""

import argparse
import io
import json

from llbm_tools.command_line import Parser
from llbm_tools.definitions import inspection
from llbm_tools.definitions.graph_of_show import check, given_show
from llbm_tools.definitions.inspection import Entry
from llbm_tools.inputs import check_inputs, check_there
from llbm_tools.llb import definition, names, no_definition
from llbm_tools.llb.given_definitions import definition_at
from llbm_tools.llb.names import Name
from llbm_tools.llb.ops import LOCAL, Field, Message, Op, fields_of
from llbm_tools.llb.wire import Unreadable
from llbm_tools.sessions.shows import Edge, Show, Vertex
from llbm_tools.streams import Refused, exit_status, program_to_ask, write_output

Members = dict[str, object]


def edge_object(edge: Edge) -> Members:
    """Returns the object of an edge."""
    vertex, output = edge
    return {"vertex": vertex, "output": output}


def vertex_object(vertex: Vertex) -> Members:
    """Returns the object of a vertex."""
    return {**vertex._asdict(), "inputs": [edge_object(edge) for edge in vertex.inputs]}


def value_object(value: object) -> object:
    """Returns a value of a field."""
    if isinstance(value, tuple):
        return [value_object(one) for one in value]
    if isinstance(value, bytes):
        return value.hex()
    return message_object(value) if isinstance(value, Message) else value


def is_absent(field: Field, value: object) -> bool:
    """Returns whether a field is left out: an absent message or member, or the default of another field."""
    return value is None or not field.member and not isinstance(value, Message) and not value


def message_object(message: Message) -> Members:
    """Returns the object of a message, by the names of its fields."""
    found = {}
    for field in fields_of(type(message)).values():
        value = getattr(message, field.attribute)
        if not is_absent(field, value):
            found[field.name] = value_object(value)
    return found


def entry_object(entry: bytes, op: Op, name: Name, description: dict[str, str]) -> Members:
    """Returns the members that a vertex has from a definition."""
    identifier = op.source.identifier if op.source else ""
    local = identifier.removeprefix(LOCAL) if identifier.startswith(LOCAL) else ""
    texts = {"local": local, "name": name.text, "group": name.group, "place": name.place, "description": description}
    shown = {member: text for member, text in texts.items() if text}
    return {"row": name.row, "digest": definition.digest_of(entry), **shown, "op": message_object(op)}


def entry_objects(show: Show, file: str, llbm: str | None) -> list[Members]:
    """Returns what the vertices have from the definition in a file."""
    data = definition_at(file, lambda: program_to_ask(llbm))
    try:
        entries = definition.entries_of(data)
        graph = definition.graph_of(entries)
        ops = [definition.op_of(row, entries[row]) for row in graph.rows]
        named = names.names_of_vertices(names.names_of(data))
    except Unreadable as fault:
        raise no_definition.refusal(fault, data, file) from fault
    check(show, graph, ops)
    descriptions = names.descriptions_of(data)
    return [
        entry_object(entries[row], op, name, descriptions.get(name.digest, {}))
        for row, op, name in zip(graph.rows, ops, named)
    ]


def entry_in(entry: Entry, descriptions: dict[str, dict[str, str]]) -> Members:
    """Returns the object of an entry of any definition."""
    described = descriptions.get(entry.name.digest, {})
    held = entry_object(entry.data, entry.op or Op(), entry.name, described)
    members = {"vertex": entry.name.vertex, "kind": entry.kind(), "inputs": [edge._asdict() for edge in entry.inputs]}
    if entry.op is None:
        held |= {"op": None, "cause": entry.cause}
    return {**members, **held, "refused": entry.refusals()}


def json_of_any(file: str, program: str) -> str:
    """Returns the object of any definition, with one line for each entry."""
    data = definition_at(file, lambda: program)
    inspected, descriptions = inspection.inspected(data, file, program), names.descriptions_of(data)
    entries = ",\n".join(f"    {json.dumps(entry_in(one, descriptions))}" for one in inspected.below_terminal())
    result = json.dumps(inspected.result._asdict() if inspected.result else None)
    refused = [f"fault {finding.words()}" for finding in inspected.refused]
    refused += inspected.entries[-1].refusals() if inspected.entries else []
    return f'{{\n  "entries": [\n{entries}\n  ],\n  "result": {result},\n  "refused": {json.dumps(refused)}\n}}\n'


def json_of(show: Show, file: str | None, llbm: str | None) -> str:
    """Returns the object of a graph, with one line for each vertex."""
    others = [{} for _ in show.vertices] if file is None else entry_objects(show, file, llbm)
    objects = [{**vertex_object(vertex), **more} for vertex, more in zip(show.vertices, others)]
    vertices = ",\n".join(f"    {json.dumps(one)}" for one in objects)
    result = json.dumps(edge_object(show.result))
    return f'{{\n  "vertices": [\n{vertices}\n  ],\n  "result": {result}\n}}\n'


def converted(options: argparse.Namespace) -> str:
    """Returns the object of what is given."""
    if options.file is not None:
        if options.definition is not None:
            raise Refused("DEFINITION is converted alone, without --definition")
        return json_of_any(options.file, program_to_ask(options.llbm))
    if options.definition is not None:
        check_inputs(None, options.definition)
        check_there(options.definition)
    return json_of(given_show(), options.definition, options.llbm)


def convert(options: argparse.Namespace) -> None:
    """Writes the object."""
    write_output(io.BytesIO(converted(options).encode("utf-8")), "the object")


def parser() -> argparse.ArgumentParser:
    """Returns the parser of the command line."""
    parser = Parser(
        description="Converts the lines of llbm show on standard input, or any definition, to JSON."
    )
    parser.add_argument("file", nargs="?", metavar="DEFINITION", help="a definition, accepted or not, to convert alone")
    parser.add_argument("--definition", metavar="FILE", help="the definition of the graph: ops, names and metadata")
    parser.add_argument("--llbm", metavar="PROGRAM", help="the program llbm, which says what it refuses in DEFINITION")
    return parser


def main() -> int:
    """Runs the tool, and returns its exit status."""
    options = parser().parse_args()
    return exit_status(lambda: convert(options))
