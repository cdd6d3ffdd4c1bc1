"""The texts of trees that are given: as a text, a directory, an archive or an image, each of which all tools read.

A text has the contents themselves or, for a build, tokens in their place. What can't be in a tree is named on standard
error and left out; it is refused if the reading is strict.
"""

import binascii
import contextlib
import os
import re
from collections.abc import Callable, Iterator
from typing import BinaryIO, NamedTuple

from llbm_tools import common, inputs
from llbm_tools.images import packing
from llbm_tools.streams import Failed, Refused, temporary_file
from llbm_tools.trees import links
from llbm_tools.trees.content_tokens import Table, token
from llbm_tools.trees.directory_texts import DirectoryText, Text, Values
from llbm_tools.trees.kept_sources import Recorder
from llbm_tools.trees.left_out import LeftOut
from llbm_tools.trees.trees import Owner, checked_at, line_start, path_of, warn_of_length

DIRECTORY, ARCHIVE, IMAGE, TEXT = "directory", "archive", "image", "text"
ROOT = (0, 0)
TREE_TEXT = re.compile(rb"d [0-7]{4} [0-9]+ [0-9]+ /\n")
TAR_MAGIC, TAR_PLACE = b"ustar", 257


class Reading(NamedTuple):
    """How trees are read: the owner of all entries, or None for their own (a text keeps its own); whether what can't be
    in a tree is refused; the platform of images; what prints lines; whether `left out: nothing` is not printed; what
    the content of a symbolic link is, or None if links are left out.
    """

    owner: Owner | None = ROOT
    strict: bool = False
    platform: str | None = None
    say: Callable[[str], None] = common.say
    quiet: bool = False
    contents: links.Contents | None = None


def start_of(place: str) -> bytes:
    """Returns the first bytes of a file."""
    with inputs.opened_file(place) as file, inputs.reading(place):
        return file.read(TAR_PLACE + len(TAR_MAGIC))


def is_image(place: str) -> bool:
    """Returns whether a directory or an archive is an image."""
    from llbm_tools.images import unpacking

    return unpacking.is_image(place)


def kind_of(place: str) -> str:
    """Returns what a place is read as: a directory, an archive, an image that is one of these, or a text.

    A file is an archive by its name, or by its first bytes; what begins like the text of a tree is one.
    """
    if os.path.isdir(place):
        return IMAGE if os.path.exists(os.path.join(place, packing.LAYOUT)) and is_image(place) else DIRECTORY
    start = start_of(place) if os.path.isfile(place) else b""
    is_packed = packing.form_of_start(start) or start[TAR_PLACE:] == TAR_MAGIC
    if TREE_TEXT.match(start) or not packing.is_archive(place) and not is_packed:
        return TEXT
    return IMAGE if is_image(place) else ARCHIVE


class Source:
    """One reading of a tree; what it needs stays open as long as `kept`."""

    def __init__(self, text: Text, table: Table, kept: contextlib.ExitStack, reading: Reading) -> None:
        self.text = text
        self.table = table
        self.kept = kept
        self.reading = reading
        self.left_out = LeftOut(reading.say)
        # The paths of files that have other names in the source.
        self.hard_links: list[bytes] = []

    def finish(self) -> None:
        """Prints what was left out, which is refused if the reading is strict, and a warning of a text too long."""
        if self.left_out.counts or not self.reading.quiet:
            self.left_out.print_counts()
        if self.reading.strict and self.left_out.counts:
            raise Refused("refused: something was left out")
        warn_of_length(self.text.count, self.reading.say)

    def read_directory(
        self, place: str, hidden: list[os.stat_result], record: Recorder | None, selected: frozenset[bytes] | None
    ) -> bool:
        """Writes the text of a directory, and returns whether all of it could be read; hidden entries are skipped, and
        those that are not selected.
        """
        owner = self.reading.owner
        contents = self.reading.contents
        walked = DirectoryText(self.text, self.table, owner, hidden, None, record, self.left_out, selected, contents)
        walked.walk(place)
        self.hard_links = walked.hard_links()
        self.finish()
        return walked.is_whole

    def read_text(self, place: str, shown: str) -> None:
        """Writes the text in a file; its entries keep their owners."""
        with inputs.opened(place) as given:
            for line, entry in checked_at(shown, given):
                if entry.content is None:
                    self.text.write(line)
                    continue
                content = binascii.unhexlify(entry.content)
                target = links.target_of(content) if self.reading.contents else None
                mode = entry.mode if target is None else links.MODE
                self.text.write(line_start(b"f", mode, (entry.user, entry.group)))
                if target is not None and self.reading.contents:
                    self.text.write(self.reading.contents(target).hex().encode())
                elif isinstance(self.text, Values) and content:
                    self.text.add(content, os.fsdecode(path_of(entry.names)))
                else:
                    number = self.table.add_copy(iter([content])) if content else None
                    self.text.write(b"-" if number is None else token(number).hex().encode())
                self.text.write(b" %b\n" % path_of(entry.names))
        warn_of_length(self.text.count, self.reading.say)

    def read(
        self,
        place: str,
        hidden: list[os.stat_result],
        record: Recorder | None = None,
        shown: str | None = None,
        selected: frozenset[bytes] | None = None,
    ) -> bool:
        """Writes the text of what is at a place, and returns whether all of it could be read; `shown` names it. Of a
        directory only the selected paths are read, if some are.
        """
        kind = kind_of(place)
        if kind == TEXT:
            self.read_text(place, shown or place)
            return True
        with inputs.named(shown or place):
            if kind == DIRECTORY:
                return self.read_directory(place, hidden, record, selected)
            # Most sources are directories and texts, and need not import what reads others.
            from llbm_tools.trees import archived_sources

            self.hard_links = archived_sources.write(self, place, kind == IMAGE)
            self.finish()
        return True


@contextlib.contextmanager
def text_at(place: str, reading: Reading) -> Iterator[BinaryIO]:
    """Yields the text of the tree at a place: the file itself, which is not checked, if that is a text."""
    if inputs.is_standard_input(place) or kind_of(place) == TEXT:
        with inputs.opened(place) as file:
            yield file
        return
    with temporary_file("a text") as stored, contextlib.ExitStack() as kept:
        if not Source(Values(stored, None), Table(), kept, reading).read(place, []):
            raise Failed(f"could not be read as a tree: {place}")
        stored.seek(0)
        yield stored
