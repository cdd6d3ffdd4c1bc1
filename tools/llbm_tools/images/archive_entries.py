"""The entries of an archive by their paths: the last one of each path, with hard links followed."""

import tarfile
from collections.abc import Iterator
from typing import NamedTuple

from llbm_tools.images import archives
from llbm_tools.images.archives import Member

Path = tuple[bytes, ...]


class Placed(NamedTuple):
    """An entry, and the archive that has its content."""

    archive: tarfile.TarFile
    member: Member

    def content(self) -> Iterator[bytes]:
        """Yields the content of a file, piece by piece."""
        return archives.content_of(self.archive, self.member)

    def names_not_here(self) -> list[bytes]:
        """Returns the names in a directory for which only an earlier incremental archive has entries."""
        return archives.names_not_here(self.archive, self.member)


def path_of(text: str) -> Path:
    """Returns the parts of a path in an archive; empty parts and `.` are dropped."""
    parts = text.encode("utf-8", "surrogateescape").split(b"/")
    return tuple(part for part in parts if part not in (b"", b"."))


def entries_of(archive: tarfile.TarFile) -> dict[Path, Placed]:
    """Returns the last entry of each path.

    A hard link is the entry that its target's path has at that point of the archive, or stays a link if there is none.
    """
    found: dict[Path, Placed] = {}
    for member in archives.members_of(archive):
        placed = Placed(archive, member)
        if member.type == tarfile.LNKTYPE:
            placed = found.get(path_of(member.linkname), placed)
        found[path_of(member.name)] = placed
    return found
