"""Texts of trees with tokens in the place of contents, and back, for dev/dev fuzz."""

import binascii

from llbm_tools.streams import Refused
from llbm_tools.trees.content_tokens import pieces_of, token
from llbm_tools.trees.trees import content_of


def split(line: bytes) -> list[bytes]:
    """Returns a line of a file at its spaces, up to its path; a directory's as a whole."""
    return line.split(b" ", 5) if line.startswith(b"f ") else [line]


def contents_in(text: bytes) -> bytes:
    """Returns the contents of all files of a tree, joined."""
    words = [split(line) for line in text.splitlines()]
    return b"".join(binascii.unhexlify(content_of(one[4])) for one in words if len(one) == 6)


class Contents:
    """Contents by the number of their token."""

    def __init__(self) -> None:
        self.contents: list[bytes] = []

    def with_tokens(self, text: bytes) -> bytes:
        """Returns the text of a tree with a token in the place of each content."""
        lines = []
        for line in text.split(b"\n"):
            words = split(line)
            if len(words) == 6:
                self.contents.append(binascii.unhexlify(content_of(words[4])))
                words[4] = token(len(self.contents) - 1).hex().encode()
            lines.append(b" ".join(words))
        return b"\n".join(lines)

    def content_of(self, text: bytes) -> bytes:
        """Returns a content with the contents in the place of tokens; unknown tokens stay."""
        try:
            return b"".join(self.contents[one] if isinstance(one, int) else one for one in pieces_of(text))
        except (IndexError, Refused):
            return text

    def expanded(self, text: bytes) -> bytes:
        """Returns the text of a tree with the contents in the place of their tokens."""
        lines = []
        for line in text.split(b"\n"):
            words = split(line)
            if len(words) == 6:
                content = self.content_of(binascii.unhexlify(content_of(words[4])))
                words[4] = content.hex().encode() or b"-"
            lines.append(b" ".join(words))
        return b"\n".join(lines)
