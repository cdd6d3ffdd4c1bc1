"""The files of an image, by their paths: in an archive, or in a directory."""

import os
import tarfile
from collections.abc import Iterator
from typing import Protocol

from llbm_tools.images.archive_entries import Path, Placed, path_of
from llbm_tools.streams import PIECE, Failed, Refused

MOST_LINKS = 40


class Files(Protocol):
    """The files of an image."""

    def has(self, path: str) -> bool:
        """Returns whether there is a file at a path."""

    def pieces(self, path: str) -> Iterator[bytes]:
        """Yields the content of a file, piece by piece; a file that is not there is refused."""


class ArchiveFiles:
    """The files in an archive; symbolic links between them are followed."""

    def __init__(self, entries: dict[Path, Placed]) -> None:
        self.entries = entries

    def file(self, path: str) -> Placed | None:
        """Returns the file at a path, or None."""
        names = path_of(path)
        for _ in range(MOST_LINKS):
            placed = self.entries.get(names)
            if placed is None or placed.member.isreg():
                return placed
            if placed.member.type != tarfile.SYMTYPE:
                return None
            linked = placed.member.linkname
            names = path_of(os.path.normpath(linked if linked.startswith("/") else f"{parent_of(names)}/{linked}"))
        return None

    def has(self, path: str) -> bool:
        """Returns whether there is a file at a path."""
        return self.file(path) is not None

    def pieces(self, path: str) -> Iterator[bytes]:
        """Yields the content of a file, piece by piece."""
        placed = self.file(path)
        if placed is None:
            raise Refused(f"the image has no such file: {path}")
        yield from placed.content()


def parent_of(names: Path) -> str:
    """Returns the path above a path, from the root."""
    return "/" + b"/".join(names[:-1]).decode("utf-8", "surrogateescape")


class DirectoryFiles:
    """The files in a directory; no path leads out of it but by symbolic links."""

    def __init__(self, directory: str) -> None:
        self.directory = directory

    def place(self, path: str) -> str | None:
        """Returns the place of the file at a path, or None."""
        names = [os.fsdecode(name) for name in path_of(path)]
        place = os.path.join(self.directory, *names)
        return place if os.path.isfile(place) and ".." not in names else None

    def has(self, path: str) -> bool:
        """Returns whether there is a file at a path."""
        return self.place(path) is not None

    def pieces(self, path: str) -> Iterator[bytes]:
        """Yields the content of a file, piece by piece."""
        place = self.place(path)
        if place is None:
            raise Refused(f"the image has no such file: {path}")
        try:
            with open(place, "rb") as file:
                while piece := file.read(PIECE):
                    yield piece
        except OSError as fault:
            raise Failed(f"could not be read: {place}: {fault.strerror}") from fault
