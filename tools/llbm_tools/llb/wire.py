"""Reads and writes the records of which protobuf messages consist.

A reader raises `Faulty` at the first fault, with the number that the program prints for it and a sentence about it.
"""

from collections.abc import Iterator
from typing import NamedTuple

VARINT, EIGHT, LENGTH, FOUR = 0, 1, 2, 5
WIDTHS = {EIGHT: 8, FOUR: 4}

MOST_FIELDS = 536_870_911
MOST_OF_A_NUMBER = 1 << 64


class Unreadable(Exception):
    """The bytes are not a definition or not an op, or the entries are not a graph; the message says why."""


class Faulty(Unreadable):
    """The bytes are not such a message; the message says what its first fault is."""


class Record(NamedTuple):
    """A record: its field, its wire type, its value, and its encoded bytes."""

    field: int
    form: int
    held: int | bytes
    text: bytes

    @property
    def data(self) -> bytes:
        """The value as bytes; empty if it is a number."""
        return self.held if isinstance(self.held, bytes) else b""

    @property
    def number(self) -> int:
        """The value as a number; 0 if it is bytes."""
        return self.held if isinstance(self.held, int) else 0


def varint_at(data: bytes, place: int) -> tuple[int, int]:
    """Returns the varint at a position, and the position after it."""
    number = 0
    for count, byte in enumerate(data[place : place + 10]):
        if count == 9 and byte > 1:
            raise Faulty("a number has more than 64 bits")
        number |= (byte & 127) << 7 * count
        if byte < 128:
            return number, place + count + 1
    raise Faulty("the bytes end inside a record")


def record_at(data: bytes, place: int) -> tuple[Record, int]:
    """Returns the record at a position, and the position after it."""
    tag, after = varint_at(data, place)
    field, form = tag >> 3, tag & 7
    if not 1 <= field <= MOST_FIELDS:
        raise Faulty(f"a record has the field {field}")
    if form not in (VARINT, EIGHT, LENGTH, FOUR):
        raise Faulty(f"a record has the wire type {form}")
    if form == VARINT:
        number, end = varint_at(data, after)
        return Record(field, form, number, data[place:end]), end
    length, after = varint_at(data, after) if form == LENGTH else (WIDTHS[form], after)
    end = after + length
    if end > len(data):
        raise Faulty("the bytes end inside a record")
    return Record(field, form, data[after:end], data[place:end]), end


def records(data: bytes) -> Iterator[Record]:
    """Yields the records in these bytes, up to the first fault."""
    place = 0
    while place < len(data):
        record, place = record_at(data, place)
        yield record


def varint(number: int) -> bytes:
    """Returns the shortest varint of a 64-bit number; a negative one in two's complement."""
    number %= MOST_OF_A_NUMBER
    found = bytearray()
    while number > 127:
        found.append(number & 127 | 128)
        number >>= 7
    found.append(number)
    return bytes(found)


def part(field: int, held: bytes) -> bytes:
    """Returns the bytes of the record of a string, of bytes or of a message."""
    return varint(field << 3 | LENGTH) + varint(len(held)) + held


def record_of(field: int, held: bytes) -> Record:
    """Returns the record of a string, of bytes or of a message."""
    return Record(field, LENGTH, held, part(field, held))
