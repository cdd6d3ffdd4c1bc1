"""Parses the messages of a definition as the program does: all fields of docs/FORMATS.md, or the first fault."""

import functools
from collections.abc import Collection, Iterator, Sequence
from typing import TypeVar

from llbm_tools.common import MOST_BYTES
from llbm_tools.llb.ops import NUMBERS, SIGNED, WIDTHS, Definition, Field, Message, Op, fields_of
from llbm_tools.llb.wire import LENGTH, VARINT, Faulty, Record, records

MOST_ENTRIES = 65_536
MOST_OF_AN_ENTRY = 16_777_216
MOST_OF_A_FIELD = 1_024

OneMessage = TypeVar("OneMessage", bound=Message)


def form_of(field: Field) -> int:
    """Returns the wire type of a field."""
    return VARINT if field.kind in NUMBERS else LENGTH


def checked_records(message: type[Message], data: bytes) -> Iterator[Record]:
    """Yields the records of a message, up to the first fault; a known field needs the wire type of its kind."""
    fields = fields_of(message)
    for record in records(data):
        field = fields.get(record.field)
        if field and record.form != form_of(field):
            raise Faulty(f"{field.name} has the wire type {record.form}")
        yield record


def text_in(field: Field, held: bytes) -> str:
    """Decodes a string."""
    try:
        return held.decode("utf-8")
    except UnicodeDecodeError as fault:
        raise Faulty(f"{field.name} is not UTF-8") from fault


def number_in(kind: str, held: int) -> int:
    """Converts a varint to a number of this kind."""
    width = WIDTHS[kind]
    low = held % (1 << width)
    return low - (1 << width) if kind in SIGNED and low >> width - 1 else low


def counted(members: Collection[int], number: int, given: list[Record]) -> list[Record]:
    """Returns the records of a field; for a member of a oneof only those after the last other member."""
    if number in members:
        for place in range(len(given) - 1, -1, -1):
            if given[place].field in members and given[place].field != number:
                given = given[place + 1 :]
                break
    return [record for record in given if record.field == number]


def joined(given: Sequence[Record]) -> bytes:
    """Returns the joined values of the records of a message that is not repeated."""
    return b"".join([record.data for record in given])


def values_of(field: Field, given: list[Record]) -> list[object]:
    """Returns the values of a field of which each record is one by itself."""
    if isinstance(field.kind, type):
        message = field.kind
        return [read(message, record.data) for record in given]
    if field.kind == "string":
        return [text_in(field, record.data) for record in given]
    if field.kind == "bytes":
        return [record.data for record in given]
    if field.kind == "bool":
        return [record.number != 0 for record in given]
    return [number_in(field.kind, record.number) for record in given]


def value_of(field: Field, given: list[Record]) -> object:
    """Returns the value of a field from its records, of which there is at least one unless it is repeated."""
    if field.repeated:
        return tuple(values_of(field, given))
    if isinstance(field.kind, type):
        return read(field.kind, joined(given))
    if field.kind == "bytes" and field.member:
        return joined(given)
    return values_of(field, given)[-1]


def check_texts(fields: dict[int, Field], given: list[Record]) -> None:
    """Checks that each record of a string is UTF-8, in their order."""
    for record in given:
        if record.field in fields and fields[record.field].kind == "string":
            text_in(fields[record.field], record.data)


def read(message: type[OneMessage], data: bytes) -> OneMessage:
    """Parses a message; of the members of a oneof only the one that is set is parsed."""
    fields = fields_of(message)
    given = list(checked_records(message, data))
    check_texts(fields, given)
    members = {number for number, field in fields.items() if field.member}
    last = next((record.field for record in reversed(given) if record.field in members), None)
    found: dict[str, object] = {}
    for number, field in fields.items():
        of_field = counted(members, number, given) if not field.member or number == last else []
        if of_field:
            found[field.attribute] = value_of(field, of_field)
    for field in fields.values():
        values = found.get(field.attribute)
        if field.repeated and isinstance(values, tuple) and len(values) > MOST_OF_A_FIELD:
            raise Faulty(f"{field.name} has more than {MOST_OF_A_FIELD:,} values")
    found["kind"] = fields[last].name if last else None
    return message(**found)


@functools.lru_cache(MOST_ENTRIES)
def read_op(entry: bytes) -> Op:
    """Parses the op in an entry. It is kept, since tools ask for the ops of a definition again and again."""
    if len(entry) > MOST_OF_AN_ENTRY:
        raise Faulty(f"an entry has at most {MOST_OF_AN_ENTRY:,} bytes")
    return read(Op, entry)


def read_definition(data: bytes) -> list[Record]:
    """Parses a definition into records."""
    if len(data) > MOST_BYTES:
        raise Faulty(f"a definition has at most {MOST_BYTES:,} bytes")
    found = list(checked_records(Definition, data))
    entries = entries_in(found)
    if len(entries) > MOST_ENTRIES:
        raise Faulty(f"a definition has at most {MOST_ENTRIES:,} entries")
    if any(len(entry) > MOST_OF_AN_ENTRY for entry in entries):
        raise Faulty(f"an entry has at most {MOST_OF_AN_ENTRY:,} bytes")
    return found


def entries_in(given: list[Record]) -> list[bytes]:
    """Returns the entries among the records of a definition."""
    return [record.data for record in given if record.field == 1]
