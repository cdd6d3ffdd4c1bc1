"""Trees as maps from paths to entries."""

from collections.abc import Iterable
from typing import NamedTuple

from llbm_tools.trees import trees

Path = tuple[bytes, ...]


class Entry(NamedTuple):
    """A file or a directory; the content of a file is in hexadecimal, and that of a directory is None."""

    mode: int
    user: int
    group: int
    content: bytes | None = None

    def is_directory(self) -> bool:
        """Returns whether this is a directory."""
        return self.content is None


Tree = dict[Path, Entry]
ROOT = Entry(0o755, 0, 0)


def empty() -> Tree:
    """Returns the empty tree."""
    return {(): ROOT}


def add(tree: Tree, text: str, entry: Entry) -> None:
    """Adds an entry at a path, which begins with no slash, and the directories above it that are not there."""
    path = tuple(part.encode() for part in text.split("/"))
    for count in range(1, len(path)):
        tree.setdefault(path[:count], ROOT)
    tree[path] = entry


def file_of(text: str, mode: int = 0o644) -> Entry:
    """Returns a file with a text."""
    return Entry(mode, 0, 0, text.encode().hex().encode())


def tree_of(lines: Iterable[bytes]) -> Tree:
    """Parses the lines of a tree's text, each with its line end."""
    return {tuple(one.names): Entry(one.mode, one.user, one.group, one.content) for _, one in trees.checked(lines)}


def line_of(path: Path, entry: Entry) -> bytes:
    """Returns the line of an entry."""
    start = trees.line_start(b"d" if entry.is_directory() else b"f", entry.mode, (entry.user, entry.group))
    content = b"" if entry.content is None else (entry.content or b"-") + b" "
    return start + content + trees.path_of(path) + b"\n"


def lines_of(tree: Tree) -> list[bytes]:
    """Returns the lines of a tree's text."""
    return [line_of(path, tree[path]) for path in sorted(tree)]
