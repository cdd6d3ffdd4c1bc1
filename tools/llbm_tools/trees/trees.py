"""The text of a tree: parses its lines, with the first fault of each, and writes them.

The rules are those of docs/FORMATS.md, under "The texts of a tree and of a graph".
"""

import argparse
import os
import re
from collections.abc import Callable, Iterable, Iterator
from typing import BinaryIO, NamedTuple

from llbm_tools.common import MOST_BYTES, MOST_NAMES, is_name, say
from llbm_tools.streams import Refused, of_place

MOST_OF_AN_OWNER = (1 << 32) - 1

Names = list[bytes]
Owner = tuple[int, int]


class Entry(NamedTuple):
    """The entry on a line; the content is still hexadecimal, and None for a directory."""

    mode: int
    user: int
    group: int
    content: bytes | None
    names: Names


def mode_of(word: bytes) -> int:
    """Parses a mode of four octal digits."""
    if not re.fullmatch(rb"[0-7]{4}", word):
        raise Refused("the mode is not four octal digits")
    return int(word, 8)


def owner_of(word: bytes) -> int:
    """Parses the number of a user or a group."""
    if not re.fullmatch(rb"0|[1-9][0-9]{0,9}", word) or int(word) > MOST_OF_AN_OWNER:
        raise Refused("an owner is not a decimal below 2^32")
    return int(word)


def content_of(word: bytes) -> bytes:
    """Checks the hexadecimal of a content, and returns it."""
    if word == b"-":
        return b""
    if len(word) % 2 or not re.fullmatch(rb"[0-9a-f]+", word):
        raise Refused("the content is neither lower-case hexadecimal nor -")
    return word


def names_of(path: bytes) -> Names:
    """Parses a path."""
    if path == b"/":
        return []
    prefix, *names = path.split(b"/")
    if prefix or not names or not all(map(is_name, names)):
        raise Refused("the path is not / followed by names with / between them")
    if len(names) > MOST_NAMES:
        raise Refused(f"the path has more than {MOST_NAMES} names")
    return names


def words_of(line: bytes) -> list[bytes]:
    """Returns the words of a line without its end: its kind, mode and owner, the content of a file, and the path."""
    parts = {b"d ": 5, b"f ": 6}.get(line[:2], 0)
    words = line.split(b" ", parts - 1) if parts else []
    if len(words) != parts or not parts:
        raise Refused("neither d MODE UID GID PATH nor f MODE UID GID CONTENT PATH")
    return words


def entry_of(line: bytes) -> Entry:
    """Parses a line by itself."""
    if not line.endswith(b"\n"):
        raise Refused("the line does not end with a newline")
    words = words_of(line[:-1])
    mode, user, group = mode_of(words[1]), owner_of(words[2]), owner_of(words[3])
    content = content_of(words[4]) if len(words) == 6 else None
    names = names_of(words[-1])
    if content is not None and not names:
        raise Refused("the root is not a directory")
    return Entry(mode, user, group, content, names)


def check_place(entry: Entry, before: Names | None, inside: Names) -> None:
    """Checks that an entry may follow the previous one and is inside a directory that was read."""
    if before is None:
        if entry.names:
            raise Refused("the first line is not the root's")
        return
    if entry.names <= before:
        raise Refused("the path does not come after that of the line before")
    parent = entry.names[:-1]
    if inside[: len(parent)] != parent:
        raise Refused("the parent of the path is not a directory")


class FaultyLine(Refused):
    """The first faulty line of a text: its number, counted from 1, and what is wrong."""

    def __init__(self, number: int, cause: str) -> None:
        super().__init__(f"{cause}: line {number}")
        self.number = number
        self.cause = cause


def checked(lines: Iterable[bytes]) -> Iterator[tuple[bytes, Entry]]:
    """Yields the valid lines of a tree's text with their entries; the first faulty line is refused by its number."""
    before: Names | None = None
    inside: Names = []
    for number, line in enumerate(lines, 1):
        try:
            entry = entry_of(line)
            check_place(entry, before, inside)
        except Refused as fault:
            raise FaultyLine(number, str(fault)) from fault
        before = entry.names
        inside = before if entry.content is None else before[:-1]
        yield line, entry
    if before is None:
        raise FaultyLine(1, "the text is empty")


def checked_at(place: str, lines: Iterable[bytes]) -> Iterator[tuple[bytes, Entry]]:
    """Yields the valid lines of the text at a place, with their entries."""
    try:
        yield from checked(lines)
    except FaultyLine as fault:
        raise Refused(f"not the text of a tree: {fault.cause}: {place}, line {fault.number}") from fault
    except OSError as fault:
        raise of_place(fault, place) from fault


def check_into(output: BinaryIO, lines: Iterable[bytes]) -> None:
    """Copies the lines of a tree's text to a file; the first faulty line is refused."""
    for line, _ in checked(lines):
        output.write(line)
    output.flush()


def path_of(names: Iterable[bytes]) -> bytes:
    """Returns a path as the text has it."""
    return b"/" + b"/".join(names)


def line_start(letter: bytes, mode: int, owner: Owner) -> bytes:
    """Returns a line up to its owner."""
    return b"%s %04o %d %d " % (letter, mode, *owner)


def warn_of_length(count: int, say: Callable[[str], None] = say) -> None:
    """Warns about a text that is too long for the program."""
    if count > MOST_BYTES:
        say(f"the text has {count:,} bytes: the program refuses more than {MOST_BYTES:,} (fault 185)")


def too_long(place: str) -> str:
    """Returns a line that says of a file that its text is too long for the program; empty if it is not."""
    size = os.path.getsize(place) if os.path.isfile(place) else 0
    return f"too long: {place}, {size:,} bytes" if size > MOST_BYTES else ""


def check_length(place: str) -> None:
    """Refuses a file whose text is too long for the program."""
    if cause := too_long(place):
        raise Refused(cause)


def owner_word(text: str) -> tuple[int, ...]:
    """Parses `UID:GID`."""
    parts = re.fullmatch(r"(0|[1-9][0-9]{0,9}):(0|[1-9][0-9]{0,9})", text)
    owner = tuple(map(int, parts.groups())) if parts else ()
    if not owner or max(owner) > MOST_OF_AN_OWNER:
        raise argparse.ArgumentTypeError(f"{text!r} is not UID:GID, two decimals below 2^32")
    return owner


def finish(descriptor: int, entry: Entry, time: int | None = None) -> None:
    """Sets the time, the owner, and then the mode, because a change of the owner may clear mode bits."""
    if time is not None:
        os.utime(descriptor, (time, time))
    if os.geteuid() == 0:
        if MOST_OF_AN_OWNER in (entry.user, entry.group):
            raise OSError(None, "the system has no such owner")
        os.fchown(descriptor, entry.user, entry.group)
    os.fchmod(descriptor, entry.mode)
