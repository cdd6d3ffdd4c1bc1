"""Trees of directories and files, as runs make them: read from their texts, looked into, printed and compared."""

from collections.abc import Iterator, Mapping
from typing import NamedTuple

MOST_SHOWN = 200


class Entry(NamedTuple):
    """A directory or a file: its path from the root (the root is `/`), mode, owner and content."""

    path: str
    is_directory: bool
    mode: int = 0o755
    uid: int = 0
    gid: int = 0
    content: bytes = b""

    def shown(self) -> str:
        """Returns the entry for a person."""
        head = f"{self.path} {self.mode:04o} {self.uid}:{self.gid}"
        if self.is_directory:
            return f"{head} directory"
        try:
            text = self.content.decode()
        except UnicodeDecodeError:
            text = None
        if text is not None and len(self.content) <= MOST_SHOWN:
            return f"{head} {text!r}"
        return f"{head} {len(self.content)} bytes, {self.content[:20].hex()}.."


def _names(path: str) -> list[str]:
    return [name for name in path.split("/") if name]


def _order(path: str) -> list[bytes]:
    return [name.encode() for name in _names(path)]


class Tree(Mapping[str, Entry]):
    """A tree: its entries by their paths, in path order, the root first."""

    def __init__(self, *entries: Entry) -> None:
        """Makes a tree of entries; the root and directories above an entry are added. ValueError if a file is there."""
        found = {"/": Entry("/", True)}
        for entry in entries:
            if entry.path != "/" + "/".join(_names(entry.path)) or entry.path == "/" and not entry.is_directory:
                raise ValueError(f"not the path of an entry: {entry.path!r}")
            found[entry.path] = entry
        for entry in entries:
            names = _names(entry.path)
            for length in range(1, len(names)):
                above = "/" + "/".join(names[:length])
                if not found.setdefault(above, Entry(above, True)).is_directory:
                    raise ValueError(f"a file is above {entry.path}: {above}")
        self._entries = {path: found[path] for path in sorted(found, key=_order)}

    @classmethod
    def parse(cls, text: str) -> "Tree":
        """Returns the tree of a text, as the library and the program print it; ValueError if it is none."""
        return cls(*(_entry_of(number, line) for number, line in enumerate(text.removesuffix("\n").split("\n"), 1)))

    def __getitem__(self, path: str) -> Entry:
        return self._entries["/" + "/".join(_names(path))]

    def __iter__(self) -> Iterator[str]:
        return iter(self._entries)

    def __len__(self) -> int:
        return len(self._entries)

    def text(self) -> str:
        """Returns the text of the tree, which `parse` and the library read."""
        return "".join(f"{_line_of(entry)}\n" for entry in self.values())

    def shown(self) -> str:
        """Returns the tree for a person."""
        return "".join(f"{entry.shown()}\n" for entry in self.values())

    def diff(self, other: "Tree") -> str:
        """Returns a line for each path at which the trees differ: `-` before what is here, `+` before what is there."""
        lines = []
        for path in sorted({*self, *other}, key=_order):
            here, there = self.get(path), other.get(path)
            if here != there:
                lines += [f"{mark} {one.shown()}\n" for mark, one in (("-", here), ("+", there)) if one]
        return "".join(lines)


def _line_of(entry: Entry) -> str:
    head = f"{entry.mode:04o} {entry.uid} {entry.gid}"
    if entry.is_directory:
        return f"d {head} {entry.path}"
    return f"f {head} {entry.content.hex() or '-'} {entry.path}"


def _entry_of(number: int, line: str) -> Entry:
    kind, _, rest = line.partition(" ")
    words = rest.split(" ", 4 if kind == "f" else 3)
    try:
        if kind not in "df" or len(words) != (5 if kind == "f" else 4):
            raise ValueError("not an entry of a tree")
        content = b"" if kind == "d" or words[3] == "-" else bytes.fromhex(words[3])
        return Entry(words[-1], kind == "d", int(words[0], 8), int(words[1]), int(words[2]), content)
    except ValueError as fault:
        raise ValueError(f"line {number}: {fault}: {line[:80]!r}") from fault
