"""Tar archives as the tools read them, entry by entry up to the first damaged header.

This refuses what Python's tarfile accepts silently: a damaged header after the first entry, an archive that is cut off
at the end of an entry, and what begins with zeros but is no archive without an entry: that has zeros alone, and at most
as many as GNU tar writes.
"""

import contextlib
import errno
import os
import tarfile
from collections.abc import Iterable, Iterator
from typing import IO, BinaryIO, cast

from llbm_tools.streams import PIECE, Refused

NAME, MAGIC = slice(0, 100), slice(257, 265)
GNU_MAGIC = b"ustar  \0"
DUMPED = b"D"
DUMPED_HEADER = "GNU.dumpdir"
NOT_HERE = b"N"

# Errors of tarfile that its types do not have.
END: type[tarfile.HeaderError] = getattr(tarfile, "EOFHeaderError")
EMPTY: type[tarfile.HeaderError] = getattr(tarfile, "EmptyHeaderError")
# The size of an archive without an entry, as GNU tar writes it; others write less.
MOST_OF_NO_ENTRY = 10_240
UNREADABLE = (ArithmeticError, AttributeError, LookupError, RecursionError, TypeError, ValueError)


def check_no_entry(rest: bytes) -> None:
    """Refuses what begins with zeros, and then has these bytes, if it is no archive without an entry."""
    if len(rest) > MOST_OF_NO_ENTRY - tarfile.BLOCKSIZE or rest.strip(b"\0"):
        raise Refused("not an archive: it begins with zeros")


class Member(tarfile.TarInfo):
    """An entry of an archive. A header that cannot be parsed is an error; it does not end the archive.

    A directory of an incremental archive of GNU tar is a directory. Its content, or that of its extended header, lists
    what was in it. A header of GNU's own form has times where others have the begin of a long path.
    """

    @classmethod
    def frombuf(cls, buf: bytes, encoding: str, errors: str) -> "Member":
        """Returns the entry of a header."""
        member = super().frombuf(buf, encoding, errors)
        if buf[MAGIC] == GNU_MAGIC:
            member.name = buf[NAME].partition(b"\0")[0].decode(encoding, errors)
        return member

    def isdir(self) -> bool:
        """Returns whether the entry is a directory."""
        return self.type in (tarfile.DIRTYPE, DUMPED)

    @classmethod
    def fromtarfile(cls, archive: tarfile.TarFile) -> "Member":
        """Returns the entry at the current position of the archive."""
        file = cast(BinaryIO, archive.fileobj)
        place = file.tell()
        try:
            member = super().fromtarfile(archive)
        except END:
            if place == 0:
                check_no_entry(file.read(MOST_OF_NO_ENTRY))
            raise
        except EMPTY as fault:
            raise Refused("the archive has no end" if place else "the archive is empty") from fault
        except (tarfile.HeaderError, tarfile.ReadError, *UNREADABLE) as fault:
            raise Refused(f"not a header of an entry: byte {place}: {fault}") from fault
        if member.size < 0 or archive.offset <= place:
            raise Refused(f"not a header of an entry: byte {place}: its size is negative")
        return member


@contextlib.contextmanager
def reading(what: str) -> Iterator[None]:
    """Turns parse errors into Refused, also offsets that no file can have."""
    try:
        yield
    except (tarfile.ReadError, *UNREADABLE) as fault:
        raise Refused(f"{what}: {fault}") from fault
    except OSError as fault:
        if fault.errno not in (errno.EINVAL, errno.EOVERFLOW):
            raise
        raise Refused(f"{what}: {fault.strerror}") from fault


def members_of(archive: tarfile.TarFile) -> Iterator[Member]:
    """Yields the entries of an archive, in order."""
    with reading("the archive is cut off"):
        yield from cast(Iterable[Member], archive)


def open_archive(bare: BinaryIO) -> tarfile.TarFile:
    """Opens an unpacked archive; its first header has to be valid."""
    with reading("not an archive"):
        return tarfile.open(fileobj=bare, mode="r:", tarinfo=Member, encoding="utf-8", errors="surrogateescape")


def content_of(archive: tarfile.TarFile, member: Member) -> Iterator[bytes]:
    """Yields the content of a file, piece by piece."""
    with (
        reading(f"the content could not be read: {member.name}"),
        cast(IO[bytes], archive.extractfile(member)) as content,
    ):
        while piece := content.read(PIECE):
            yield piece


def names_not_here(archive: tarfile.TarFile, member: Member) -> list[bytes]:
    """Returns the names in a directory for which only an earlier incremental archive has entries."""
    listed = member.pax_headers.get(DUMPED_HEADER, "").encode("utf-8", "surrogateescape")
    if member.type == DUMPED:
        listed = b"".join(content_of(archive, member))
    return [name[1:] for name in listed.split(b"\0") if name.startswith(NOT_HERE)]
