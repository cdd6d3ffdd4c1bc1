"""Writes the messages of a definition, and parses them into records that can be changed.

It has all messages of docs/FORMATS.md. A message here is a list of records; a record is the number of its field and its
value: a number, bytes (also for a string), a message, or a Raw, which is a whole encoded record.
"""

import re
from typing import Union

from llbm_tools.llb import definition, wire
from llbm_tools.llb.ops import MESSAGES, Field, fields_of
from llbm_tools.llb.wire import EIGHT, FOUR, LENGTH, VARINT, Unreadable, part, varint

NUMBER, TRUTH, TEXT, BYTES = "number", "truth", "text", "bytes"
KINDS = {"string": TEXT, "bytes": BYTES, "bool": TRUTH}

DIGEST = re.compile(rb"sha256:[0-9a-f]{64}")


def kind_of(field: Field) -> str:
    """Returns the kind of a field's values, or the name of its message."""
    return field.kind.__name__ if isinstance(field.kind, type) else KINDS.get(field.kind, NUMBER)


TABLE = {
    name: {number: (field.name, kind_of(field)) for number, field in fields_of(message).items()}
    for name, message in MESSAGES.items()
}
NUMBERS = {message: {name: number for number, (name, _) in fields.items()} for message, fields in TABLE.items()}
ALWAYS_WRITTEN = {("Op", "build"), ("Op", "diff"), ("UserOpt", "byName"), ("UserOpt", "byID")}

Value = Union[int, bytes, "Message"]
Message = list[tuple[int, Value]]
Given = Union[Value, str, None]
Givens = Union[Given, tuple[Given, ...]]


class Raw(bytes):
    """A whole encoded record, with its tag."""


def record(field: int, value: Value) -> bytes:
    """Returns the bytes of a record."""
    if isinstance(value, Raw):
        return value
    if isinstance(value, int):
        return varint(field << 3 | VARINT) + varint(value)
    return part(field, value if isinstance(value, bytes) else encoded(value))


def encoded(message: Message) -> bytes:
    """Returns the bytes of a message, its records in order."""
    return b"".join([record(field, value) for field, value in message])


def is_default(value: Given) -> bool:
    """Returns whether a value is left out as a default; a message never is."""
    return not isinstance(value, list) and not value


def given(value: Given) -> Value:
    """Returns a value as a record holds it: a text as bytes, a boolean as a number."""
    if isinstance(value, int):
        return int(value)
    if isinstance(value, str):
        return value.encode("utf-8", "surrogateescape")
    return b"" if value is None else value


def made(name: str, **values: Givens) -> Message:
    """Returns a message in canonical order: defaults are left out, and a tuple is a repeated field."""
    message: Message = []
    for number, (field, _) in sorted(TABLE[name].items()):
        value = values.get(field)
        if isinstance(value, tuple):
            message += [(number, given(one)) for one in value]
        elif value is not None and ((name, field) in ALWAYS_WRITTEN or not is_default(value)):
            message.append((number, given(value)))
    return message


def digest_of(entry: bytes) -> bytes:
    """Returns the digest by which inputs name an entry."""
    return definition.digest_of(entry).encode()


def edge(entry: bytes, index: int = 0) -> Message:
    """Returns an input that names an output of an entry."""
    return made("Input", digest=digest_of(entry), index=index)


def definition_of(entries: list[bytes]) -> bytes:
    """Returns the definition with these entries."""
    return b"".join([part(1, entry) for entry in entries])


def value_in(name: str, record: wire.Record) -> Value:
    """Returns the value of a record: a message as far as it can be parsed, or else what the record holds."""
    kind = TABLE[name].get(record.field, ("", BYTES))[1]
    if record.form in (EIGHT, FOUR):
        return Raw(varint(record.field << 3 | record.form) + record.data)
    if record.form != LENGTH or kind not in TABLE:
        return record.held
    try:
        return parsed(kind, record.data)
    except Unreadable:
        return record.data


def parsed(name: str, data: bytes) -> Message:
    """Parses a message, and the messages inside it as far as possible; raises Unreadable."""
    return [(record.field, value_in(name, record)) for record in wire.records(data)]


def with_new_digests(before: list[bytes], after: list[bytes]) -> list[bytes]:
    """Returns the changed entries with inputs that name the changed digests in place of the old ones.

    Both lists have the same length. An entry that would name itself keeps the old digest.
    """
    places: dict[bytes, int] = {}
    for place, entry in enumerate(before):
        places.setdefault(digest_of(entry), place)
    found: dict[int, bytes] = {}
    under_way: list[int] = []

    def renamed(match: re.Match[bytes]) -> bytes:
        place = places.get(match[0])
        return match[0] if place is None or place in under_way else digest_of(entry_at(place))

    def entry_at(place: int) -> bytes:
        if place not in found:
            under_way.append(place)
            found[place] = DIGEST.sub(renamed, after[place])
            under_way.pop()
        return found[place]

    return [entry_at(place) for place in range(len(after))]


def quoted(text: bytes) -> str:
    """Returns a string as it is written in the text of entries."""
    shown = []
    for letter in text.decode("utf-8"):
        if letter in '"\\':
            shown.append("\\" + letter)
        elif letter < " " or letter == "\x7f":
            shown.append(f"\\x{ord(letter):02x}")
        else:
            shown.append(letter)
    return '"' + "".join(shown) + '"'


def value_text(name: str, kind: str, value: Value, labels: dict[bytes, int]) -> str:
    """Returns the text of a value that is not a message."""
    if kind == TRUTH:
        return "true" if value else "false"
    if not isinstance(value, bytes):
        return str(value)
    if kind == BYTES:
        return value.hex() or "-"
    if name == "digest" and value in labels:
        return f"%{labels[value]}"
    return quoted(value)


def lines_of(message: Message, name: str, labels: dict[bytes, int], level: int) -> list[str]:
    """Returns the lines of a canonical message."""
    lines = []
    for number, value in message:
        field, kind = TABLE[name][number]
        if isinstance(value, list):
            lines += ["  " * level + field + " {", *lines_of(value, kind, labels, level + 1), "  " * level + "}"]
        else:
            lines.append("  " * level + f"{field} {value_text(field, kind, value, labels)}")
    return lines


def text_of(ops: list[Message]) -> bytes:
    """Returns the text of entries for canonical ops."""
    lines: list[str] = []
    labels: dict[bytes, int] = {}
    for number, op in enumerate(ops):
        lines += ["op {", *lines_of(op, "Op", labels, 1), "}"]
        labels.setdefault(digest_of(encoded(op)), number)
    return "".join(line + "\n" for line in lines).encode()
