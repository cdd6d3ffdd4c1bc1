"""Lays the layers of an image one over another, as archives of changes.

An entry replaces the one with its path below it, with everything that it has below, but a directory over a directory
keeps that. Symbolic links in the paths of parents are followed, from the root of the image. An entry `.wh.NAME` removes
NAME, and `.wh..wh..opq` everything in its directory, but only what lower layers have. Other names that begin with
`.wh..wh.` are notes of a file system, and are passed over.
"""

import tarfile
from collections.abc import Iterator

from llbm_tools.common import MOST_NAMES
from llbm_tools.images.archive_entries import Path, Placed, path_of
from llbm_tools.images.archives import Member, members_of
from llbm_tools.streams import Refused

WHITEOUT, NOTE, OPAQUE = b".wh.", b".wh..wh.", b".wh..wh..opq"
UP = b".."
MOST_LINKS = 255
MOST_DEPTH = 2 * MOST_NAMES
MODE = 0o755


class Node:
    """What is at a path: its entry, the number of the layer that it is from, and what is below it."""

    def __init__(self, placed: Placed, layer: int) -> None:
        self.placed = placed
        self.layer = layer
        self.below: dict[bytes, Node] = {}

    def is_directory(self) -> bool:
        """Returns whether it is a directory."""
        return self.placed.member.isdir()

    def is_link(self) -> bool:
        """Returns whether it is a symbolic link."""
        return self.placed.member.type == tarfile.SYMTYPE


def implied(archive: tarfile.TarFile) -> Placed:
    """Returns the entry of a directory that an archive has no entry for."""
    member = Member()
    member.type, member.mode = tarfile.DIRTYPE, MODE
    return Placed(archive, member)


class Layers:
    """The tree of an image, up to the layer that is being laid."""

    def __init__(self, archive: tarfile.TarFile) -> None:
        self.archive = archive
        self.layer = 0
        self.root = Node(implied(archive), 0)
        self.no_paths: dict[Path, Placed] = {}

    def lay(self, archive: tarfile.TarFile) -> None:
        """Lays a layer over those before it."""
        self.archive = archive
        self.layer += 1
        for member in members_of(archive):
            self.put(path_of(member.name), member)

    def put(self, names: Path, member: Member) -> None:
        """Applies an entry of the layer."""
        last = names[-1] if names else b""
        if UP in names or len(names) > MOST_NAMES:
            self.no_paths[names] = Placed(self.archive, member)
        elif last == OPAQUE:
            self.clear(names[:-1])
        elif last.startswith(WHITEOUT) and not last.startswith(NOTE):
            self.remove(names[:-1], last.removeprefix(WHITEOUT))
        elif not any(name.startswith(NOTE) for name in names):
            self.add(names, member)

    def clear(self, names: Path) -> None:
        """Removes what lower layers have in a directory."""
        node = self.directory(names)
        if node:
            node.below = {name: below for name, below in node.below.items() if self.keeps(below)}

    def remove(self, parent: Path, name: bytes) -> None:
        """Removes what lower layers have at a path."""
        node = self.directory(parent)
        if node and name in node.below and not self.keeps(node.below[name]):
            del node.below[name]

    def keeps(self, node: Node) -> bool:
        """Removes what lower layers have below a node, and returns whether this layer has the node or any below it."""
        node.below = {name: below for name, below in node.below.items() if self.keeps(below)}
        return node.layer == self.layer or bool(node.below)

    def add(self, names: Path, member: Member) -> None:
        """Puts an entry at its path."""
        placed = Placed(self.archive, member)
        if member.type == tarfile.LNKTYPE:
            placed = self.linked(path_of(member.linkname)) or placed
        if not names:
            if not member.isdir():
                raise Refused("the root of a layer is not a directory")
            self.root.placed = placed
            return
        parent = self.made_directory(names[:-1])
        before = parent.below.get(names[-1])
        parent.below[names[-1]] = node = Node(placed, self.layer)
        if before and before.is_directory() and node.is_directory():
            node.below = before.below

    def linked(self, names: Path) -> Placed | None:
        """Returns what a hard link leads to, or None."""
        parent = self.directory(names[:-1])
        node = parent.below.get(names[-1]) if parent and names else None
        return None if node is None or node.is_directory() else node.placed

    def directory(self, names: Path, is_made: bool = False) -> Node | None:
        """Returns the directory that a path leads to, also by symbolic links; if there is none it is None, or made."""
        opened, left, links = [self.root], list(reversed(names)), 0
        while left:
            name = left.pop()
            if name == UP:
                opened = opened[:-1] or opened
                continue
            node = self.child(opened[-1], name, is_made)
            if node and node.is_link():
                links += 1
                opened = [self.root] if node.placed.member.linkname.startswith("/") else opened
                left.extend(reversed(path_of(node.placed.member.linkname)))
            elif node and node.is_directory():
                opened.append(node)
            elif is_made:
                raise Refused(f"a file with entries below it: {shown(names)}")
            else:
                return None
            if links > MOST_LINKS or len(opened) > MOST_DEPTH:
                raise Refused(f"too many links or names on the way in a layer: {shown(names)}")
        return opened[-1]

    def made_directory(self, names: Path) -> Node:
        """Returns the directory that a path leads to, made if there is none."""
        node = self.directory(names, is_made=True)
        assert node is not None
        return node

    def child(self, parent: Node, name: bytes, is_made: bool) -> Node | None:
        """Returns what a directory has under a name; if nothing is there it is None, or a directory that is made."""
        if is_made and name not in parent.below:
            parent.below[name] = Node(implied(self.archive), self.layer)
        return parent.below.get(name)

    def entries(self) -> dict[Path, Placed]:
        """Returns all entries of the image, those too whose paths no tree has."""
        return {**self.no_paths, **dict(walked(self.root))}


def walked(root: Node) -> Iterator[tuple[Path, Placed]]:
    """Yields the entries of a node and of everything below it."""
    left: list[tuple[Path, Node]] = [((), root)]
    while left:
        names, node = left.pop()
        yield names, node.placed
        left.extend(((*names, name), below) for name, below in node.below.items())


def shown(names: Path) -> str:
    """Returns a path for a person."""
    return "/" + b"/".join(names).decode("utf-8", "backslashreplace")
