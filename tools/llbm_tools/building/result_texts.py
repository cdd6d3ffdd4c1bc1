"""Checks the text of a result, with the memory of its directories alone, and divides it into parts of whole lines."""

import binascii
import re
from collections.abc import Callable, Iterator
from typing import BinaryIO, NamedTuple

from llbm_tools.common import MOST_NAMES
from llbm_tools.streams import Refused
from llbm_tools.trees.trees import Entry, FaultyLine, entry_of

LINE = re.compile(
    rb"(?:d ([0-7]{4}) (0|[1-9][0-9]{0,8}) (0|[1-9][0-9]{0,8})|f ([0-7]{4}) (0|[1-9][0-9]{0,8}) (0|[1-9][0-9]{0,8}) "
    rb"(-|(?:[0-9a-f][0-9a-f])+)) (/|(?:/[ -.0-~]{1,255}){1,%d})\n" % MOST_NAMES
)
LINES_OF_A_PART = 500


class Line(NamedTuple):
    """An entry: mode, owner, content in hexadecimal or None for a directory, and its path, which is empty for `/`."""

    mode: int
    user: int
    group: int
    content: bytes | None
    path: bytes


def read_line(line: bytes) -> Line:
    """Parses a line by itself; the first fault in it is refused."""
    found = LINE.fullmatch(line)
    if not found or b"/." in found[8]:
        return line_of(entry_of(line))
    path = found[8] if found[8] != b"/" else b""
    if found[7] is None:
        return Line(int(found[1], 8), int(found[2]), int(found[3]), None, path)
    return Line(int(found[4], 8), int(found[5]), int(found[6]), b"" if found[7] == b"-" else found[7], path)


def line_of(entry: Entry) -> Line:
    """Returns an entry with its path as one text."""
    return Line(*entry[:4], b"".join(b"/" + name for name in entry.names))


def parent_of(path: bytes) -> bytes:
    """Returns the path of the directory that an entry is in."""
    return path[: path.rindex(b"/")] if path else b""


class Part(NamedTuple):
    """Some lines of a text: the place of the first one, and of the one after the last."""

    start: int
    end: int


class Checked:
    """A text that is read and checked line by line; `size` returns how many bytes a content has, `most` is the most
    that all may have.
    """

    def __init__(self, size: Callable[[bytes], int] = len, most: int | None = None) -> None:
        self.size = size
        self.most = most
        self.bytes = 0
        self.directories: list[Line] = []
        self.parts: list[Part] = []
        self.files = 0
        self.before: bytes | None = None
        self.inside = b""

    def check_place(self, line: Line) -> None:
        """Checks that an entry may follow the previous one and is inside a directory that was read."""
        order = line.path.replace(b"/", b"\0")
        if self.before is None:
            if line.path:
                raise Refused("the first line is not the root's")
        elif order <= self.before:
            raise Refused("the path does not come after that of the line before")
        parent = parent_of(line.path)
        if self.inside != parent and not self.inside.startswith(parent + b"/"):
            raise Refused("the parent of the path is not a directory")
        self.before = order
        self.inside = line.path if line.content is None else parent

    def take(self, number: int, text: bytes) -> None:
        """Checks a line; the first faulty one is refused by its number."""
        try:
            line = read_line(text)
            if line.content is not None and not line.path:
                raise Refused("the root is not a directory")
            self.check_place(line)
        except Refused as fault:
            raise FaultyLine(number, str(fault)) from fault
        if line.content is None:
            self.directories.append(line)
        else:
            self.files += 1
            self.bytes += self.size(binascii.unhexlify(line.content))

    def read(self, lines: BinaryIO) -> None:
        """Checks all lines, and divides them into parts."""
        start = end = number = 0
        for number, text in enumerate(lines, 1):
            self.take(number, text)
            end += len(text)
            if number % LINES_OF_A_PART == 0:
                self.parts.append(Part(start, end))
                start = end
        if self.most is not None and self.bytes > self.most:
            raise Refused(f"the result is too large: {self.bytes:,} bytes; --largest {self.bytes} accepts it")
        if not number:
            raise FaultyLine(1, "the text is empty")
        if end > start:
            self.parts.append(Part(start, end))


def lines_in(text: BinaryIO, part: Part) -> Iterator[Line]:
    """Yields the entries in a part of a checked text."""
    text.seek(part.start)
    left = part.end - part.start
    while left > 0:
        line = text.readline()
        left -= len(line)
        yield read_line(line)
