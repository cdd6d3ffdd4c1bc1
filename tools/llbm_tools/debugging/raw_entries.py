"""Makes the text of a definition readable where an entry is written as `raw`: below the line come its fields by name.

The program writes an entry as `raw` where its bytes are not canonical, as those of the newer client are. The fields are
comments, in the order of the bytes, so that `llbm asm` reads the text as the same entries.
"""

from collections.abc import Iterator

from llbm_tools.common import printable
from llbm_tools.debugging.vertex_lines import Lines, Text, lines_of
from llbm_tools.llb import messages
from llbm_tools.llb.op_reading import checked_records, number_in, text_in
from llbm_tools.llb.ops import NUMBERS, Field, Message, Op, fields_of
from llbm_tools.llb.wire import Faulty, Record

MARK = "# "
MOST_OF_A_VALUE = 1_000


def value_text(field: Field, record: Record, labels: dict[bytes, int]) -> str:
    """Returns the value of a record of a field that is no message."""
    if field.kind == "bool":
        return str(bool(record.number)).lower()
    if isinstance(record.held, int):
        is_number = isinstance(field.kind, str) and field.kind in NUMBERS
        return str(number_in(str(field.kind), record.held) if is_number else record.held)
    if field.kind != "string":
        return record.held.hex() or "-"
    if field.name == "digest" and record.held in labels:
        return f"%{labels[record.held]}"
    return printable(messages.quoted(text_in(field, record.held).encode("utf-8")))


def record_lines(message: type[Message], record: Record, labels: dict[bytes, int], level: int) -> Iterator[str]:
    """Yields the lines of a record: those of a message, one with a name and a value, or one of an unknown field."""
    space = "  " * level
    field = fields_of(message).get(record.field)
    if field is None:
        held = str(record.held) if isinstance(record.held, int) else record.held.hex() or "-"
        yield f"{space}field {record.field}: {held}"
    elif isinstance(field.kind, str):
        yield f"{space}{field.name} {value_text(field, record, labels)}"
    else:
        yield f"{space}{field.name} {{"
        yield from message_lines(field.kind, record.data, labels, level + 1)
        yield f"{space}}}"


def message_lines(message: type[Message], data: bytes, labels: dict[bytes, int], level: int) -> Iterator[str]:
    """Yields the lines of the records of a message, in order."""
    for record in checked_records(message, data):
        yield from record_lines(message, record, labels, level)


def comments_of(entry: bytes, labels: dict[bytes, int]) -> list[str]:
    """Returns the comments below the `raw` line of an entry, or none where it is no op."""
    try:
        lines = ["op {", *message_lines(Op, entry, labels, 1), "}"]
    except Faulty:
        return []
    return [MARK + (line if len(line) <= MOST_OF_A_VALUE else line[: MOST_OF_A_VALUE - 3] + "...") for line in lines]


def readable(text: str, entries: list[bytes]) -> Text:
    """Returns the text of entries with comments below each `raw` line; the lines of an entry include its comments."""
    lines = text.split("\n")
    labels: dict[bytes, int] = {}
    made: list[str] = []
    found: Lines = []
    for number, ((first, last), entry) in enumerate(zip(lines_of(text), entries)):
        part = lines[first - 1 : last]
        if part[0].startswith("raw "):
            part += comments_of(entry, labels)
        found.append((len(made) + 1, len(made) + len(part)))
        made += part
        labels.setdefault(messages.digest_of(entry), number)
    return Text("".join(f"{line}\n" for line in made), found)
