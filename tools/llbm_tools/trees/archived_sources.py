"""Writes the text of a source that is an archive or an image: with contents, or with tokens in their place."""

import os
from typing import TYPE_CHECKING, BinaryIO, cast

from llbm_tools import inputs
from llbm_tools.images import archives, packing, unpacking
from llbm_tools.images.archive_entries import Placed, entries_of
from llbm_tools.streams import temporary_file
from llbm_tools.trees import archive_texts
from llbm_tools.trees.content_tokens import stamp_of, token
from llbm_tools.trees.directory_texts import Values

if TYPE_CHECKING:
    from llbm_tools.trees.source_texts import Source

# The entries of an archive or an image, and the numbers of their archives in the table, by the archives' identities.
Found = tuple[archive_texts.Entries, dict[int, int]]


class ArchiveText(archive_texts.Text):
    """The text of an archive or of an image: with contents if it is one of values, else with tokens."""

    def __init__(self, given: archive_texts.Entries, source: "Source", numbers: dict[int, int]) -> None:
        super().__init__(given, source.text, source.reading.owner, source.left_out, source.reading.contents)
        self.values = source.text if isinstance(source.text, Values) else None
        self.numbers = numbers
        self.table = source.table

    def content(self, placed: Placed) -> None:
        """Writes a file's content or its token, and a space after it."""
        member = placed.member
        if not member.size:
            self.output.write(b"- ")
            return
        if self.values or member.sparse is not None:
            self.value(placed)
        else:
            content = self.table.add_part(self.numbers[id(placed.archive)], member.offset_data, member.size)
            self.output.write(token(content).hex().encode())
        self.output.write(b" ")

    def value(self, placed: Placed) -> None:
        """Writes a file's content, or the token of a copy of it."""
        if not self.values:
            self.output.write(token(self.table.add_copy(placed.content())).hex().encode())
            return
        for piece in placed.content():
            self.values.add(piece, placed.member.name)


def in_archive(source: "Source", place: str) -> Found:
    """Returns the entries of an archive."""
    given = source.kept.enter_context(inputs.opened_file(place))
    stamp = stamp_of(os.fstat(given.fileno()))
    stored = [source.kept.enter_context(temporary_file("the archive")) for _ in range(2)]
    bare = packing.open_unpacked(given, *stored)
    archive = archives.open_archive(bare)
    number = source.table.add_archive(bare.fileno(), place, stamp if bare is given else None)
    return entries_of(archive), {id(archive): number}


def in_image(source: "Source", place: str) -> Found:
    """Returns the entries of an image."""
    files = source.kept.enter_context(unpacking.files_at(place))
    reading = source.reading
    entries = source.kept.enter_context(unpacking.tree_of(files, None, reading.platform, reading.say))
    numbers: dict[int, int] = {}
    for placed in entries.values():
        if id(placed.archive) not in numbers:
            file = cast(BinaryIO, placed.archive.fileobj)
            numbers[id(placed.archive)] = source.table.add_archive(file.fileno(), "a temporary file", None)
    return entries, numbers


def write(source: "Source", place: str, is_image: bool) -> list[bytes]:
    """Writes the text of an archive or an image, and returns the paths of files that have other names in it."""
    entries, numbers = in_image(source, place) if is_image else in_archive(source, place)
    text = ArchiveText(entries, source, numbers)
    text.write()
    return text.hard_links()
