"""The text of a directory, with tokens in the place of contents or with the contents themselves.

A directory is walked by open descriptors: an entry that is replaced during the walk is not followed out of it. What
can't be in a tree is named on standard error and left out with everything below it.
"""

import collections
import errno
import os
import stat
from collections.abc import Iterable
from typing import BinaryIO, NamedTuple

from llbm_tools.common import MOST_BYTES, MOST_NAMES, is_name
from llbm_tools.hashes import sha256
from llbm_tools.os_errors import in_words
from llbm_tools.streams import Failed, of_place
from llbm_tools.trees import links
from llbm_tools.trees.content_tokens import DIRECTORY, FILE, MARK, Table, token
from llbm_tools.trees.extended_attributes import attributes_of, path_in
from llbm_tools.trees.kept_sources import Directory, Recorder
from llbm_tools.trees.left_out import ATTRIBUTE, DEVICE, LINK, NO_NAME, PIPE, TOO_DEEP, Exclusion, LeftOut
from llbm_tools.trees.trees import Owner, line_start

ITSELF = Exclusion("the output file itself", "output file", "output files")
NO_FILES = {
    stat.S_IFLNK: LINK,
    stat.S_IFBLK: DEVICE,
    stat.S_IFCHR: DEVICE,
    stat.S_IFIFO: PIPE,
    stat.S_IFSOCK: Exclusion("a socket", "socket", "sockets"),
}
PIECE = 1 << 20


class HasMark(Exception):
    """A content that is given by value has the byte that begins tokens; the message names the file."""


class TooLong(Exception):
    """The text of a source that is given by value is longer than the program accepts."""


class Text:
    """A text that is written; one that gets longer than `most` bytes raises TooLong."""

    def __init__(self, output: BinaryIO, most: int | None = None) -> None:
        self.output = output
        self.most = most
        self.count = 0

    def write(self, part: bytes) -> None:
        """Writes a part of the text."""
        self.count += len(part)
        if self.most is not None and self.count > self.most:
            raise TooLong
        try:
            self.output.write(part)
        except BrokenPipeError:
            raise
        except OSError as fault:
            raise Failed(f"the text could not be written: {fault.strerror}") from fault


class Values(Text):
    """A text with the contents themselves, in hexadecimal; `unmarked` refuses the byte that begins tokens."""

    def __init__(self, output: BinaryIO, most: int | None = MOST_BYTES, *, unmarked: bool = False) -> None:
        super().__init__(output, most)
        self.unmarked = unmarked

    def add(self, piece: bytes, path: str) -> None:
        """Writes a piece of the content of the file at a path."""
        if self.unmarked and MARK in piece:
            raise HasMark(path)
        self.write(piece.hex().encode())


class Place(NamedTuple):
    """An open directory: its descriptor, its path, its depth, its number in the table, and what is kept of it."""

    descriptor: int
    path: bytes
    depth: int
    number: int = 0
    kept: Directory | None = None


class DirectoryText:
    """The text of a directory: with contents if it is one of values, else with the tokens of a table. Where some paths
    are selected, all others are not looked at. Without contents for them, symbolic links are left out.
    """

    def __init__(
        self,
        text: Text,
        table: Table | None = None,
        owner: Owner | None = None,
        hidden: Iterable[os.stat_result] = (),
        itself: os.stat_result | None = None,
        record: Recorder | None = None,
        left_out: LeftOut | None = None,
        selected: frozenset[bytes] | None = None,
        contents: links.Contents | None = None,
    ) -> None:
        self.text = text
        self.values = text if isinstance(text, Values) else None
        self.table = Table() if table is None else table
        self.owner = owner
        self.hidden = {(found.st_dev, found.st_ino) for found in hidden}
        self.itself = itself
        self.record = record
        self.left_out = left_out or LeftOut()
        self.selected = selected
        self.contents = contents
        self.names: dict[tuple[int, int], list[bytes]] = collections.defaultdict(list)
        self.root = 0
        self.is_whole = True
        self.user = os.geteuid()

    def walk(self, place: str) -> None:
        """Writes the whole text."""
        try:
            descriptor = os.open(place, DIRECTORY & ~os.O_NOFOLLOW)
        except OSError as fault:
            raise of_place(fault, place) from fault
        self.root = self.table.add_root(descriptor, place)
        self.directory(os.dup(descriptor), b"", 0)

    def unread(self, path: bytes, fault: OSError) -> None:
        """Names what could not be read."""
        self.left_out.say_of(path or b"/", f"could not be read: {in_words(fault)}")
        self.is_whole = False

    def start(self, letter: bytes, found: os.stat_result) -> bytes:
        """Returns a line up to its owner."""
        return line_start(letter, stat.S_IMODE(found.st_mode), self.owner or (found.st_uid, found.st_gid))

    def directory(self, descriptor: int, path: bytes, depth: int) -> None:
        """Writes the lines of an open directory and of all that is below it, and closes it."""
        try:
            try:
                found = os.fstat(descriptor)
                with os.scandir(descriptor) as entries:
                    below = sorted((os.fsencode(entry.name), entry) for entry in entries)
                attributes = attributes_of(descriptor)
            except OSError as fault:
                self.unread(path, fault)
                return
            self.text.write(self.start(b"d", found) + (path or b"/") + b"\n")
            self.leave_attributes(path, attributes)
            kept = self.record.directory(path, found) if self.record else None
            place = Place(descriptor, path, depth, self.table.add_directory(self.root, path), kept)
            for name, entry in below:
                self.entry(place, name, entry)
        finally:
            os.close(descriptor)

    def entry(self, above: Place, name: bytes, entry: os.DirEntry[str]) -> None:
        """Writes the lines of an entry of an open directory, or says why there are none."""
        path = b"%b/%b" % (above.path, name)
        try:
            found = entry.stat(follow_symlinks=False)
            if (found.st_dev, found.st_ino) in self.hidden:
                return
            if above.kept:
                above.kept.add(name, found)
            if self.selected is not None and path[1:] not in self.selected:
                return
            exclusion = self.exclusion_of(name, above.depth + 1, found)
            if exclusion:
                self.left_out.add(path[1:].split(b"/"), exclusion)
            elif stat.S_ISLNK(found.st_mode):
                self.link(above, path, name, found)
            elif stat.S_ISREG(found.st_mode):
                attributes = attributes_of(path_in(above.descriptor, name))
                self.file(above, path, name, found)
                self.leave_attributes(path, attributes)
            else:
                self.directory(os.open(name, DIRECTORY, dir_fd=above.descriptor), path, above.depth + 1)
        except BrokenPipeError:
            raise
        except OSError as fault:
            self.unread(path, fault)

    def leave_attributes(self, path: bytes, attributes: list[str]) -> None:
        """Names the extended attributes of an entry."""
        for attribute in attributes:
            self.left_out.add([name for name in path.split(b"/") if name], ATTRIBUTE, f", {attribute}")

    def exclusion_of(self, name: bytes, depth: int, found: os.stat_result) -> Exclusion | None:
        """Returns why an entry is left out, or None."""
        if not is_name(name):
            return NO_NAME
        if depth > MOST_NAMES:
            return TOO_DEEP
        if self.itself and os.path.samestat(found, self.itself) and stat.S_ISREG(found.st_mode):
            return ITSELF
        if stat.S_ISLNK(found.st_mode) and self.contents:
            return None
        return NO_FILES.get(stat.S_IFMT(found.st_mode))

    def hard_links(self) -> list[bytes]:
        """Returns the paths of the files that have other names in the text."""
        return sorted(path for paths in self.names.values() if len(paths) > 1 for path in paths)

    def link(self, above: Place, path: bytes, name: bytes, found: os.stat_result) -> None:
        """Writes the line of a symbolic link."""
        assert self.contents
        target = os.readlink(name, dir_fd=above.descriptor)
        content = self.contents(target)
        if above.kept:
            above.kept.note(sha256(target).digest(), None)
        owner = self.owner or (found.st_uid, found.st_gid)
        self.text.write(line_start(b"f", links.MODE, owner) + b"%b %b\n" % (content.hex().encode(), path))
        self.leave_attributes(path, attributes_of(path_in(above.descriptor, name)))

    def file(self, above: Place, path: bytes, name: bytes, found: os.stat_result) -> None:
        """Writes the line of a file."""
        if found.st_nlink > 1:
            self.names[found.st_dev, found.st_ino].append(path)
        if self.values or not found.st_size:
            self.value(above, path, name)
            return
        self.check_readable(above.descriptor, name, found)
        content = self.table.add_file(above.number, name, found)
        if self.record and above.kept:
            digest = self.record.digest_of(above.descriptor, path, name, found)
            above.kept.note(digest, content)
        self.text.write(self.start(b"f", found) + b"%b %b\n" % (token(content).hex().encode(), path))

    def check_readable(self, parent: int, name: bytes, found: os.stat_result) -> None:
        """Checks that this process may read a file."""
        if self.user == 0 or found.st_uid == self.user and found.st_mode & stat.S_IRUSR:
            return
        if not os.access(name, os.R_OK, dir_fd=parent, effective_ids=True):
            raise PermissionError(errno.EACCES, os.strerror(errno.EACCES))

    def value(self, above: Place, path: bytes, name: bytes) -> None:
        """Writes the line of a file with its content."""
        digest = sha256()
        with open(os.open(name, FILE, dir_fd=above.descriptor), "rb", buffering=0) as content:
            found = os.fstat(content.fileno())
            if not stat.S_ISREG(found.st_mode):
                raise OSError(None, "no longer a file")
            piece = content.read(PIECE)
            if piece and not self.values:
                raise OSError(None, "it has a content, but its size is 0; give it with --by-value")
            if self.contents:
                links.check_content(piece, os.fsdecode(path))
            self.text.write(self.start(b"f", found) + (b"" if piece else b"-"))
            while piece and self.values:
                digest.update(piece)
                self.values.add(piece, os.fsdecode(path))
                piece = self.next_piece(content, path)
            self.text.write(b" %b\n" % path)
        if above.kept and found.st_size:
            above.kept.note(digest.digest(), None)

    def next_piece(self, content: BinaryIO, path: bytes) -> bytes:
        """Returns the next piece of a content. After a failure the text is cut off, so nothing more is read."""
        try:
            return content.read(PIECE)
        except OSError as fault:
            raise Failed(f"could not be read: {os.fsdecode(path)}: {in_words(fault)}") from fault
