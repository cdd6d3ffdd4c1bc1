"""Prints the entries of any definition, whether or not the program accepts it, and answers queries of its graph.

In: a definition, or the text of one, on standard input or in the file DEFINITION. `--before V`, `--after V` and
`--between V W` ask for the entries that V needs, for those that need V, and for a shortest path from V to W, which
needs V. V is the number of a vertex, the row of an entry (`%K`), a digest (8 digits or more) or a name.

Out: on standard output each entry in the order of the rows: a line with its row, its vertex if it has one, its kind and
its digest; below it its name, its inputs, all fields of its op and its metadata that BuildKit's `solver/pb/ops.proto`
has, and what the program refuses in it, with the sentence of docs/FAULTS.md. What is refused of the whole definition
comes last. A query prints the first line and the name of each entry that it finds; a path is in the order of the run.
--json prints an object for each entry, on a line of its own: `Op`, `Digest` and `OpMetadata` as `buildctl debug
dump-llb` prints them, then `row`, `vertex`, `kind`, `inputs` by row, `name`, `group` and `place` if there are any, and
`refused`: an array of lines of the program.

Exit status: 0 the entries are printed; 1 there is no path, as a line on standard error says; 2 the command line is
refused, the bytes are no definition, or V is no entry; 3 a read or a write failed.
"""

import argparse
import io
import json
from collections.abc import Iterable, Iterator

from llbm_tools.command_line import Parser
from llbm_tools.common import printable, say
from llbm_tools.definitions import faults, inspection
from llbm_tools.definitions.graph_queries import Links, chosen
from llbm_tools.definitions.inspection import Edge, Entry, Inspected
from llbm_tools.llb import messages, names, whole_messages
from llbm_tools.llb.given_definitions import definition_at
from llbm_tools.llb.wire import Unreadable
from llbm_tools.streams import exit_status, program_to_ask, write_output

TERMINAL = "terminal"
NO_PATH = 1

Object = dict[str, object]


def shown_bytes(held: bytes) -> str:
    """Returns bytes for a person: as a string if they are one, else in hexadecimal."""
    try:
        return held.decode("utf-8")
    except UnicodeDecodeError:
        return f"hexadecimal {held.hex()}"


def object_of(message: str, data: bytes, for_person: bool = False) -> Object:
    """Returns a message as an object; one that can't be read is only its bytes."""
    show = shown_bytes if for_person else whole_messages.in_base64
    try:
        return whole_messages.message_in(message, data, show)
    except Unreadable:
        return {"bytes": show(data)}


def kind_of(entry: Entry, inspected: Inspected) -> str:
    """Returns the kind of an entry; the last one is the terminal."""
    return TERMINAL if entry.row == len(inspected.entries) - 1 else entry.kind()


def head(entry: Entry, kind: str) -> str:
    """Returns the first line of an entry."""
    vertex = [] if entry.name.vertex is None else [f"vertex {entry.name.vertex}"]
    return " ".join([f"%{entry.row}", *vertex, kind, entry.name.digest])


def input_text(number: int, edge: Edge, entries: list[Entry]) -> str:
    """Returns the line of an input."""
    if edge.row is None:
        return f"input {number}: output {edge.output} of {edge.digest}, which is no entry"
    vertex = entries[edge.row].name.vertex
    return f"input {number}: output {edge.output} of %{edge.row}" + ("" if vertex is None else f" (vertex {vertex})")


def value_lines(name: str, value: object, level: int) -> Iterator[str]:
    """Yields the lines of a value of JSON: each member of an object is on a line of its own, below the object's name.

    The names of oneofs are left out.
    """
    space = "  " * level
    if isinstance(value, dict):
        yield f"{space}{name}:" if value else f"{space}{name}: empty"
        yield from member_lines(value, level + 1)
    elif isinstance(value, list):
        for held in value:
            yield from value_lines(name, held, level)
    elif isinstance(value, str):
        yield f"{space}{name}: {messages.quoted(value.encode('utf-8', 'surrogateescape'))}"
    else:
        yield f"{space}{name}: {json.dumps(value)}"


def member_lines(members: Object, level: int) -> Iterator[str]:
    """Yields the lines of the members of an object; those of a oneof are on the level of the others."""
    for member, held in members.items():
        if member not in whole_messages.ONEOFS.values():
            yield from value_lines(member, held, level)
        elif isinstance(held, dict):
            yield from member_lines(held, level)


def refusals(lines: Iterable[str], page: faults.Page) -> Iterator[str]:
    """Yields the lines of what is refused, each with the most specific sentence about it."""
    for line in lines:
        yield f"refused: {line}: {faults.sentence_of(page, line)}"


def entry_lines(entry: Entry, inspected: Inspected, metadata: bytes, page: faults.Page) -> Iterator[str]:
    """Yields all lines of an entry."""
    yield head(entry, kind_of(entry, inspected))
    if entry.name.shown():
        yield f"  name: {entry.name.shown()}"
    for number, edge in enumerate(entry.inputs):
        yield f"  {input_text(number, edge, inspected.entries)}"
    op = object_of("Op", entry.data, for_person=True)
    op.pop("inputs", None)
    yield from member_lines(op, 1)
    if metadata:
        yield from value_lines("metadata", object_of("OpMetadata", metadata, for_person=True), 1)
    if entry.cause:
        yield f"  no op: {entry.cause}"
    yield from (f"  {line}" for line in refusals(entry.refusals(), page))


def entry_object(entry: Entry, inspected: Inspected, metadata: bytes) -> Object:
    """Returns the object of an entry."""
    texts = {"name": entry.name.text, "group": entry.name.group, "place": entry.name.place}
    return {
        "Op": object_of("Op", entry.data), "Digest": entry.name.digest,
        "OpMetadata": object_of("OpMetadata", metadata), "row": entry.row, "vertex": entry.name.vertex,
        "kind": kind_of(entry, inspected),
        "inputs": [{"row": edge.row, "output": edge.output} for edge in entry.inputs],
        **{member: text for member, text in texts.items() if text}, "refused": entry.refusals(),
    }  # fmt: skip


def metadata_at(data: bytes) -> dict[str, bytes]:
    """Returns the bytes of the metadata of entries, by digest."""
    entries = map(names.fields_of, names.parts_of(names.fields_of(data), 2))
    return {names.text_of(fields, 1): b"".join(names.parts_of(fields, 2)) for fields in entries}


def found_by(options: argparse.Namespace, inspected: Inspected) -> list[Entry] | None:
    """Returns the entries that a query asks for; None if there is no query."""
    links = Links(inspected)
    if options.between is not None:
        first, last = map(links.row, options.between)
        return [inspected.entries[row] for row in links.between(first, last)]
    if options.before is not None:
        return chosen(inspected.entries, links.before(links.row(options.before)))
    if options.after is not None:
        return chosen(inspected.entries, links.after(links.row(options.after)))
    return None


def lines_of(inspected: Inspected, metadata: dict[str, bytes]) -> Iterator[str]:
    """Yields the lines of all entries, and those of what is refused of the whole."""
    page = faults.read_page()
    for entry in inspected.entries:
        yield from entry_lines(entry, inspected, metadata.get(entry.name.digest, b""), page)
    yield from refusals([f"fault {finding.words()}" for finding in inspected.refused], page)


def dump(options: argparse.Namespace) -> int:
    """Prints what is asked for, and returns the exit status."""
    llbm = program_to_ask(options.llbm)
    data = definition_at(options.definition, lambda: llbm)
    inspected = inspection.inspected(data, options.definition, llbm)
    metadata = metadata_at(data)
    found = found_by(options, inspected)
    entries = inspected.entries if found is None else found
    if options.json:
        objects = (entry_object(entry, inspected, metadata.get(entry.name.digest, b"")) for entry in entries)
        lines = [json.dumps(one, ensure_ascii=False) for one in objects]
    elif found is None:
        lines = list(lines_of(inspected, metadata))
    else:
        lines = [f"{head(entry, kind_of(entry, inspected))} {entry.name.shown()}".rstrip() for entry in found]
    text = "".join(f"{printable(line)}\n" for line in lines)
    write_output(io.BytesIO(text.encode("utf-8", "backslashreplace")), "the dump")
    if found == [] and options.between is not None:
        say("there is no path: {1} does not need {0}".format(*options.between))
        return NO_PATH
    return 0


def parser() -> argparse.ArgumentParser:
    """Returns the parser of the command line."""
    parser = Parser(
        description="Prints the entries of any definition, with what llbm refuses in each."
    )
    parser.add_argument("definition", nargs="?", metavar="DEFINITION", help="the definition (default: standard input)")
    parser.add_argument("--json", action="store_true", help="print an object for each entry, on a line of its own")
    parser.add_argument("--llbm", metavar="PROGRAM", help="the program llbm, which says what it refuses")
    queries = parser.add_mutually_exclusive_group()
    queries.add_argument("--before", metavar="V", help="print the entries that V needs")
    queries.add_argument("--after", metavar="V", help="print the entries that need V")
    queries.add_argument("--between", nargs=2, metavar=("V", "W"), help="print a shortest path from V to W")
    return parser


def main() -> int:
    """Runs the tool, and returns its exit status."""
    options = parser().parse_args()
    return exit_status(lambda: dump(options))
