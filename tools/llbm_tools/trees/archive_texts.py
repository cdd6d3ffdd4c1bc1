"""Writes the tree text of entries that archives have, and names what cannot be in a tree."""

import collections
import tarfile
from collections.abc import Iterator
from typing import Protocol

from llbm_tools.images.archive_entries import Path, Placed
from llbm_tools.images.archives import Member
from llbm_tools.streams import Refused, temporary_file, write_output
from llbm_tools.trees import links
from llbm_tools.trees.left_out import ATTRIBUTE, DEVICE, LINK, NO_NAME, PIPE, Exclusion, LeftOut, exclusion_of_names
from llbm_tools.trees.trees import MOST_OF_AN_OWNER, Owner, line_start, path_of, warn_of_length

HARD_LINK = Exclusion("a hard link to no entry", "hard link to no entry", "hard links to no entry")
EARLIER = Exclusion(
    "only an earlier incremental archive has it", "entry of an earlier archive", "entries of earlier archives"
)
OTHER = Exclusion("an entry of another kind", "entry of another kind", "entries of other kinds")
NO_OWNER = Exclusion(
    "an owner that is not below 2^32", "entry with an owner above the limit", "entries with owners above the limit"
)
BELOW = Exclusion(
    "below an entry that is left out", "entry below one that is left out", "entries below one that is left out"
)

ATTRIBUTES = ("SCHILY.xattr.", "LIBARCHIVE.xattr.", "SCHILY.acl.", "SCHILY.fflags", "RHT.security.")
NO_FILES = {
    tarfile.SYMTYPE: LINK,
    tarfile.LNKTYPE: HARD_LINK,
    tarfile.CHRTYPE: DEVICE,
    tarfile.BLKTYPE: DEVICE,
    tarfile.FIFOTYPE: PIPE,
}

MODE, ROOT = 0o755, (0, 0)

Entries = dict[Path, Placed]


class Writer(Protocol):
    """What a text is written to."""

    def write(self, part: bytes, /) -> object:
        """Writes a part of the text."""


class Text:
    """The text of the entries of an archive, or of the layers of an image. Without contents for them, symbolic links
    are left out.
    """

    def __init__(
        self, given: Entries, output: Writer, owner: Owner | None, left_out: LeftOut,
        contents: links.Contents | None = None,
    ) -> None:
        self.given = given
        self.output = output
        self.owner = owner
        self.left_out = left_out
        self.contents = contents

    def owner_of(self, member: Member | None) -> Owner:
        """Returns the owner of an entry, or of a directory without an entry."""
        return self.owner or ((member.uid, member.gid) if member else ROOT)

    def exclusion_of(self, names: Path, member: Member) -> Exclusion | None:
        """Returns why an entry is left out, or None."""
        exclusion = exclusion_of_names(names) or NO_FILES.get(member.type)
        if exclusion and not (exclusion is LINK and self.target_of(member)):
            return exclusion
        if not member.isdir() and not member.isreg() and not exclusion:
            return OTHER
        if not member.isdir() and not names:
            return NO_NAME
        fits = all(0 <= number <= MOST_OF_AN_OWNER for number in self.owner_of(member))
        return None if fits else NO_OWNER

    def target_of(self, member: Member) -> bytes | None:
        """Returns the target of the symbolic link that an entry is, if links are taken."""
        if member.type != tarfile.SYMTYPE or not self.contents:
            return None
        target = member.linkname.encode("utf-8", "surrogateescape")
        return target if links.is_target(target) else None

    def hard_links(self) -> list[bytes]:
        """Returns the paths of the files that have other names."""
        names: dict[int, list[bytes]] = collections.defaultdict(list)
        for path, placed in self.given.items():
            if placed.member.isreg():
                names[id(placed.member)].append(path_of(path))
        return sorted(path for paths in names.values() if len(paths) > 1 for path in paths)

    def taken(self) -> Entries:
        """Returns the entries that belong in the tree; the others are named."""
        taken, above = {}, None
        for names, placed in sorted(self.given.items(), key=lambda item: item[0]):
            exclusion = self.exclusion_of(names, placed.member)
            if above is not None and names[: len(above)] == above:
                exclusion = exclusion or BELOW
            elif exclusion:
                above = names
            if exclusion:
                self.left_out.add(names, exclusion)
            else:
                taken[names] = placed
        return taken

    def entries(self) -> Iterator[tuple[Path, Placed | None]]:
        """Yields all entries of the tree in path order; None for a directory without an entry in an archive."""
        taken: dict[Path, Placed | None] = {(): None, **self.taken()}
        for names in list(taken):
            parent = names[:-1]
            while parent not in taken:
                taken[parent] = None
                parent = parent[:-1]
        yield from sorted(taken.items(), key=lambda item: item[0])

    def write(self) -> None:
        """Writes the lines of all entries."""
        file: Path | None = None
        for names, placed in self.entries():
            if file is not None and names[: len(file)] == file:
                raise Refused(f"a file with entries below it: {path_of(file).decode('utf-8')}")
            if placed is not None and not placed.member.isdir():
                file = names
            self.line(names, placed)
            if placed is not None:
                self.leave(names, placed)

    def line(self, names: Path, placed: Placed | None) -> None:
        """Writes the line of an entry."""
        member = placed.member if placed else None
        file = placed if placed and not placed.member.isdir() else None
        mode = member.mode & 0o7777 if member else MODE
        target = self.target_of(member) if member else None
        mode = mode if target is None else links.MODE
        self.output.write(line_start(b"f" if file else b"d", mode, self.owner_of(member)))
        if target is not None and self.contents:
            self.output.write(self.contents(target).hex().encode() + b" ")
        elif file:
            self.content(file)
        self.output.write(path_of(names) + b"\n")

    def content(self, placed: Placed) -> None:
        """Writes a file's content, and a space after it."""
        none = True
        for piece in placed.content():
            if none and self.contents:
                links.check_content(piece, placed.member.name)
            self.output.write(piece.hex().encode())
            none = False
        self.output.write(b"- " if none else b" ")

    def leave(self, names: Path, placed: Placed) -> None:
        """Names the extended attributes of an entry, and what only an earlier archive has of a directory."""
        for key in sorted(placed.member.pax_headers):
            if key.startswith(ATTRIBUTES):
                self.left_out.add(names, ATTRIBUTE, f", {key}")
        for name in sorted(placed.names_not_here()):
            if (*names, name) not in self.given:
                self.left_out.add((*names, name), EARLIER)


def write_text(given: Entries, owner: Owner | None, strict: bool, has_links: bool) -> None:
    """Writes the text of entries to standard output, once all of it is made."""
    with temporary_file("the text") as stored:
        text = Text(given, stored, owner, LeftOut(), links.content_of if has_links else None)
        text.write()
        text.left_out.print_counts()
        if strict and text.left_out.counts:
            raise Refused("refused: something was left out")
        warn_of_length(stored.tell())
        write_output(stored, "the text")
