"""Writes a message with some of its records changed; all others keep their bytes and their order."""

from collections.abc import Callable, Mapping, Sequence

from llbm_tools.llb import wire
from llbm_tools.llb.op_reading import counted, joined, read
from llbm_tools.llb.ops import Input
from llbm_tools.llb.wire import LENGTH, VARINT, Record, record_of

# The field of an op with its inputs, and that of an input with its digest.
INPUTS, DIGEST = 1, 1


def written(records: list[Record]) -> bytes:
    """Returns the bytes of records."""
    return b"".join(record.text for record in records)


def replaced(records: list[Record], old: list[Record], new: list[Record]) -> list[Record]:
    """Puts new records in place of the first old one, or before all records if there are no old ones."""
    removed = {id(record) for record in old}
    place = next((place for place, record in enumerate(records) if id(record) in removed), 0)
    before = records[:place]
    return [*before, *new, *(record for record in records[place:] if id(record) not in removed)]


def with_message(
    records: list[Record], field: int, change: Callable[[bytes], bytes], members: frozenset[int] = frozenset()
) -> list[Record]:
    """Changes a message that is not repeated, or a member of a oneof; its records become one."""
    old = counted(members, field, records)
    held = joined(old)
    new = change(held) if old else held
    return records if new == held else replaced(records, old, [record_of(field, new)])


def placed(records: list[Record], field: int, new: list[Record]) -> list[Record]:
    """Puts new records in place of those of a field, or where the order of fields has them if there are none."""
    place = next((place for place, record in enumerate(records) if record.field == field), None)
    if place is None:
        place = next((place for place, record in enumerate(records) if record.field > field), len(records))
    others = [record for record in records[place:] if record.field != field]
    return [*records[:place], *new, *others]


def with_number(records: list[Record], field: int, number: int) -> list[Record]:
    """Replaces the number in a field; 0 is left out."""
    text = wire.varint(field << 3 | VARINT) + wire.varint(number)
    return placed(records, field, [Record(field, VARINT, number, text)] if number else [])


def with_each(records: list[Record], field: int, change: Callable[[bytes], bytes | None]) -> list[Record]:
    """Changes each message of a repeated field; those for which `change` returns None are removed."""
    result = []
    for record in records:
        is_message = record.field == field and record.form == LENGTH
        new = change(record.data) if is_message else record.data
        if new is not None:
            result.append(record if new == record.data else record_of(field, new))
    return result


def with_text(records: list[Record], field: int, text: str) -> list[Record]:
    """Replaces the last record of a string."""
    old = [record for record in records if record.field == field][-1:]
    return replaced(records, old, [record_of(field, text.encode("utf-8"))])


def with_texts(records: list[Record], field: int, texts: Sequence[str]) -> list[Record]:
    """Replaces a repeated string."""
    old = [record for record in records if record.field == field]
    return replaced(records, old, [record_of(field, text.encode("utf-8")) for text in texts])


def without(records: list[Record], field: int) -> list[Record]:
    """Removes all records of a field."""
    return [record for record in records if record.field != field]


def relinked(entry: bytes, digests: Mapping[str, str]) -> bytes:
    """Returns an entry whose inputs name new digests in place of the old ones that have one."""

    def edge(held: bytes) -> bytes:
        """Returns an input with the new digest of what it names."""
        old = read(Input, held).digest
        new = digests.get(old, old)
        return held if new == old else changed(held, lambda records: with_text(records, DIGEST, new))

    return changed(entry, lambda records: with_each(records, INPUTS, edge))


def changed(data: bytes, change: Callable[[list[Record]], list[Record]]) -> bytes:
    """Returns the bytes of a message with changed records."""
    return written(change(list(wire.records(data))))
