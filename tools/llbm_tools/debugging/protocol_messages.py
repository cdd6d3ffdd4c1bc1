"""Messages of the Debug Adapter Protocol: JSON after a header with its length, read from and written to descriptors."""

import json
import os
import select

PIECE = 65_536
MOST_HEAD = 4_096
MOST_CONTENT = 67_108_864
HEAD_END = b"\r\n\r\n"


class Malformed(Exception):
    """The input is not a message, and where the next one begins is unknown; the message says why."""


def length_in(head: bytes, most: int) -> int:
    """Returns the Content-Length in a message head, which has to be at most `most`."""
    for line in head.split(b"\r\n"):
        name, _, value = line.partition(b":")
        if name.strip().lower() == b"content-length":
            digits = value.strip()
            if not digits.isdigit() or len(digits) > 9 or int(digits) > most:
                raise Malformed(f"Content-Length is not a number of at most {most:,}")
            return int(digits)
    raise Malformed("a message has no Content-Length")


class Reader:
    """Reads messages from a descriptor, of at most `most` bytes each."""

    def __init__(self, descriptor: int) -> None:
        self.descriptor = descriptor
        self.most = MOST_CONTENT
        self.held = bytearray()

    def waits(self) -> bool:
        """Returns whether the next message has begun, or the input has ended."""
        return bool(self.held) or bool(select.select([self.descriptor], [], [], 0)[0])

    def fill(self) -> bool:
        """Reads more bytes, and returns whether there were any."""
        piece = os.read(self.descriptor, PIECE)
        self.held += piece
        return bool(piece)

    def content(self) -> bytes | None:
        """Returns the content of the next message, or None if the input ends before it."""
        while HEAD_END not in self.held:
            if len(self.held) > MOST_HEAD:
                raise Malformed("the head of a message has no end")
            if not self.fill():
                if self.held:
                    raise Malformed("the input ends inside the head of a message")
                return None
        place = self.held.index(HEAD_END)
        begin = place + len(HEAD_END)
        end = begin + length_in(bytes(self.held[:place]), self.most)
        while len(self.held) < end:
            if not self.fill():
                raise Malformed("the input ends inside a message")
        content = bytes(self.held[begin:end])
        del self.held[:end]
        return content


class Writer:
    """Writes messages to a descriptor, numbered from 1."""

    def __init__(self, descriptor: int) -> None:
        self.descriptor = descriptor
        self.count = 0

    def send(self, message: dict[str, object]) -> None:
        """Sends a message with the next number."""
        self.count += 1
        content = json.dumps({"seq": self.count, **message}).encode("ascii")
        rest = memoryview(b"Content-Length: %d\r\n\r\n%s" % (len(content), content))
        while rest:
            rest = rest[os.write(self.descriptor, rest) :]
