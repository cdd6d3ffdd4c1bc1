"""A tree of a session as a person looks at it: directory by directory, with contents as text or in hexadecimal."""

import binascii
import re
from typing import NamedTuple

from llbm_tools.common import names_in, printable
from llbm_tools.streams import Refused
from llbm_tools.trees.trees import words_of

MOST_SHOWN = 4_096
MOST_NAMES_SHOWN = 1_000
CONTENT = re.compile(rb"-|(?:[0-9a-f]{2})+")
NO_TEXT = re.compile("[\x00-\x08\x0b\x0c\x0e-\x1f\x7f-\x9f]")


class NoPath(Exception):
    """Nothing is at a path of a tree; the message says why."""


class Node(NamedTuple):
    """An entry of a tree: a directory with its entries by name, or a file with its content in hexadecimal."""

    mode: str
    owner: str
    names: dict[str, "Node"] | None
    content: bytes

    def is_directory(self) -> bool:
        """Returns whether it is a directory."""
        return self.names is not None

    @property
    def entries(self) -> dict[str, "Node"]:
        """The entries of a directory by name; none for a file."""
        return {} if self.names is None else self.names


def path_and_head(line: bytes) -> tuple[str, bytes]:
    """Splits a line of a tree's text: returns its path, and all that is before it."""
    try:
        *head, path = words_of(line)
    except Refused as fault:
        raise ValueError(f"a line is {fault}") from fault
    return path.decode("utf-8"), b" ".join(head)


def node_of(head: bytes) -> Node:
    """Returns the node of a line without its path; a directory has no names yet."""
    kind, mode, user, group, *contents = head.split(b" ")
    owner = f"{user.decode('ascii')}:{group.decode('ascii')}"
    if kind == b"d":
        return Node(mode.decode("ascii"), owner, {}, b"")
    if not CONTENT.fullmatch(contents[0]):
        raise ValueError("a content is not hexadecimal")
    return Node(mode.decode("ascii"), owner, None, b"" if contents[0] == b"-" else contents[0])


def tree_of(lines: list[bytes]) -> Node:
    """Returns the root of the tree with these lines; each directory comes before its entries."""
    root = node_of(path_and_head(lines[0])[1])
    if not root.is_directory():
        raise ValueError("the root is not a directory")
    directories = {"": root}
    for line in lines[1:]:
        path, head = path_and_head(line)
        node = node_of(head)
        above, _, name = path.rpartition("/")
        directories[above].entries[name] = node
        if node.is_directory():
            directories[path] = node
    return root


def node_at(root: Node, text: str) -> Node:
    """Returns the node at a path."""
    node, path, names = root, "", names_in(text)
    if names is None:
        raise NoPath(f"not a path: {text}")
    for name in names:
        if not node.is_directory():
            raise NoPath(f"{path} is a file")
        path = f"{path}/{name}"
        if name not in node.entries:
            raise NoPath(f"nothing is at {path}")
        node = node.entries[name]
    return node


def counted(number: int, one: str, many: str) -> str:
    """Returns a number with the word for what is counted."""
    return f"{number:,} {one if number == 1 else many}"


def text_in(content: bytes) -> str | None:
    """Decodes bytes as text, or returns None if they are not UTF-8 or have control characters."""
    try:
        text = content.decode("utf-8")
    except UnicodeDecodeError:
        return None
    return None if NO_TEXT.search(text) else text


def shown(node: Node) -> tuple[str, str]:
    """Returns how a file's content is shown: its description with its length, and the part that is shown."""
    content = binascii.unhexlify(node.content)
    length = counted(len(content), "byte", "bytes")
    if not content:
        return length, ""
    cut = f", the first {MOST_SHOWN:,} shown" if len(content) > MOST_SHOWN else ""
    text = text_in(content)
    if text is None:
        return f"hexadecimal of {length}{cut}", content[:MOST_SHOWN].hex()
    return f"text of {length}{cut}", content[:MOST_SHOWN].decode("utf-8", "ignore")


def summary_of(node: Node) -> str:
    """Describes a node in one line: mode, owner, and the number of names or the content."""
    prefix = f"{node.mode} {node.owner}"
    if node.is_directory():
        return f"{prefix}, {counted(len(node.entries), 'name', 'names')}"
    what, content = shown(node)
    return f"{prefix}, {what}: {printable(content)}" if content else f"{prefix}, {what}"


def description_of(node: Node) -> str:
    """Describes a node in several lines: the names in a directory, or the content of a file."""
    if not node.is_directory():
        what, content = shown(node)
        return f"{what}:\n{content}" if content else what
    names = [name + "/" * below.is_directory() for name, below in node.entries.items()]
    left = len(names) - MOST_NAMES_SHOWN
    lines = [*names[:MOST_NAMES_SHOWN], *([f"and {left:,} more"] if left > 0 else [])]
    return "\n".join([counted(len(names), "name", "names") + (":" if names else ""), *lines])
