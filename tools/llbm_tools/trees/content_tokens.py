"""Contents by reference: a short token in the place of each content, and where the content itself is.

A token is the byte 255, which UTF-8 does not have, and a number of four bytes, the most significant first. The program
hands contents on without looking at them, so what it prints has tokens in the place of the contents, with literal bytes
between them; both are copied here. A file that is not as it was when its token was made is refused.
"""

import array
import errno
import os
import tempfile
from collections.abc import Iterator
from typing import IO, NamedTuple

from llbm_tools.streams import Failed, Refused

ESCAPE = 255
MARK = b"\xff"
BYTES_OF_A_NUMBER = 4
BYTES_OF_A_TOKEN = 1 + BYTES_OF_A_NUMBER

DIRECTORY = os.O_RDONLY | os.O_CLOEXEC | os.O_NOFOLLOW | os.O_DIRECTORY
FILE = os.O_RDONLY | os.O_CLOEXEC | os.O_NOFOLLOW | os.O_NONBLOCK

NAMES_AT_ONCE = 15
SMALL = 1 << 17
PIECE = 1 << 24
GONE = (errno.ENOENT, errno.ENOTDIR, errno.ELOOP, errno.EISDIR, errno.ENXIO)
NO_COPYING = (errno.EXDEV, errno.EINVAL, errno.ENOSYS, errno.EOPNOTSUPP, errno.EBADF, errno.EPERM)

Piece = int | bytes


class Stamp(NamedTuple):
    """What shows that a file has changed."""

    inode: int
    size: int
    modified: int
    changed: int


def stamp_of(found: os.stat_result) -> Stamp:
    """Returns the stamp of a file."""
    return Stamp(found.st_ino, found.st_size, found.st_mtime_ns, found.st_ctime_ns)


def token(number: int) -> bytes:
    """Returns the token of a content."""
    return MARK + number.to_bytes(BYTES_OF_A_NUMBER, "big")


def pieces_of(text: bytes) -> Iterator[Piece]:
    """Yields the pieces of a content: the numbers of its tokens, and the literal bytes between them."""
    place = 0
    while place < len(text):
        mark = text.find(MARK, place)
        end = len(text) if mark < 0 else mark
        if end > place:
            yield text[place:end]
        place = end
        if mark >= 0:
            place = mark + BYTES_OF_A_TOKEN
            if place > len(text):
                raise Refused("a content ends inside a token")
            yield int.from_bytes(text[mark + 1 : place], "big")


class Below:
    """The directories below an open one, by path; the last one stays open."""

    def __init__(self, root: int) -> None:
        self.root = root
        self.path = b""
        self.last: int | None = None

    def open(self, path: bytes) -> int:
        """Returns the descriptor of the directory at `/a/b` or the like, or at an empty path; it stays open."""
        if not path:
            return self.root
        if self.last is not None and path == self.path:
            return self.last
        self.close()
        descriptor = self.root
        names = path[1:].split(b"/")
        for start in range(0, len(names), NAMES_AT_ONCE):
            step = b"/".join(names[start : start + NAMES_AT_ONCE])
            above, descriptor = descriptor, os.open(step, DIRECTORY, dir_fd=descriptor)
            if above != self.root:
                os.close(above)
        self.path, self.last = path, descriptor
        return descriptor

    def close(self) -> None:
        """Closes the last directory."""
        if self.last is not None:
            os.close(self.last)
            self.last = None


class Archive(NamedTuple):
    """An archive without compression: its open file, its path, and its stamp if it can change meanwhile."""

    descriptor: int
    path: str
    stamp: Stamp | None


class Table:
    """The contents by number: each is a file of an open directory, or a part of an archive."""

    def __init__(self) -> None:
        self.roots: list[tuple[int, str]] = []
        self.directories: list[tuple[int, bytes]] = []
        self.archives: list[Archive] = []
        self.copies: IO[bytes] | None = None
        self.number_of_copies = 0
        self.names: list[bytes] = []
        self.holders = array.array("q")
        self.starts = array.array("Q")
        self.sizes = array.array("Q")
        self.modified = array.array("q")
        self.changed = array.array("q")
        self.targets: dict[int, bytes] = {}
        self.links: dict[bytes, int] = {}

    def __len__(self) -> int:
        return len(self.sizes)

    def add_root(self, descriptor: int, path: str) -> int:
        """Adds the open directory of a source, and returns its number."""
        self.roots.append((descriptor, path))
        return len(self.roots) - 1

    def add_directory(self, root: int, path: bytes) -> int:
        """Adds a directory below a source, and returns its number."""
        self.directories.append((root, path))
        return len(self.directories) - 1

    def add_archive(self, descriptor: int, path: str, stamp: Stamp | None) -> int:
        """Adds an archive, and returns its number."""
        self.archives.append(Archive(descriptor, path, stamp))
        return len(self.archives) - 1

    def add(self, holder: int, name: bytes, start: int, size: int, modified: int, changed: int) -> int:
        """Adds a content, and returns its number."""
        if len(self.sizes) >= 1 << 8 * BYTES_OF_A_NUMBER:
            raise Refused("the sources have too many files")
        self.names.append(name)
        for column, value in [
            (self.holders, holder), (self.starts, start), (self.sizes, size), (self.modified, modified),
            (self.changed, changed),
        ]:
            column.append(value)
        return len(self.sizes) - 1

    def add_file(self, directory: int, name: bytes, found: os.stat_result) -> int:
        """Adds the content of a file of a directory, and returns its number."""
        return self.add(directory, name, found.st_ino, found.st_size, found.st_mtime_ns, found.st_ctime_ns)

    def add_part(self, archive: int, start: int, size: int) -> int:
        """Adds a part of an archive, and returns its number."""
        return self.add(-1 - archive, b"", start, size, 0, 0)

    def add_copy(self, pieces: Iterator[bytes]) -> int:
        """Stores a content in a temporary file, and returns its number."""
        copies = self.copies or tempfile.TemporaryFile()
        if self.copies is None:
            self.copies = copies
            self.number_of_copies = self.add_archive(copies.fileno(), "a temporary file", None)
        start = copies.tell()
        for piece in pieces:
            copies.write(piece)
        copies.flush()
        return self.add_part(self.number_of_copies, start, copies.tell() - start)

    def add_link(self, target: bytes) -> bytes:
        """Returns the token of a symbolic link, which nothing reads; links to one target have one."""
        if target not in self.links:
            number = self.links[target] = self.add(0, b"", 0, 0, 0, 0)
            self.targets[number] = target
        return token(self.links[target])

    def target(self, content: bytes) -> bytes | None:
        """Returns the target of the symbolic link that a whole content is, or None."""
        if len(content) != BYTES_OF_A_TOKEN or not content.startswith(MARK):
            return None
        return self.targets.get(int.from_bytes(content[1:], "big"))

    def close(self) -> None:
        """Closes the directories of the sources."""
        while self.roots:
            os.close(self.roots.pop()[0])

    def size(self, number: int) -> int:
        """Returns the size of a content."""
        if number >= len(self.sizes):
            raise Refused("a content has a token that is none of a source")
        if number in self.targets:
            raise Refused(f"a symbolic link to {os.fsdecode(self.targets[number])} was read as a file")
        return self.sizes[number]

    def stamp(self, number: int) -> Stamp:
        """Returns the stamp that a file had when its token was made."""
        return Stamp(self.starts[number], self.sizes[number], self.modified[number], self.changed[number])

    def path(self, number: int) -> str:
        """Returns the path of a content, for a person."""
        holder = self.holders[number]
        if holder < 0:
            return self.archives[-1 - holder].path
        root, path = self.directories[holder]
        return os.path.join(self.roots[root][1], os.fsdecode(path[1:]), os.fsdecode(self.names[number]))

    def check_archives(self) -> None:
        """Refuses an archive that has changed."""
        for archive in self.archives:
            if archive.stamp and stamp_of(os.fstat(archive.descriptor)) != archive.stamp:
                raise Refused(f"changed during the build: {archive.path}")


def write_all(output: int, data: bytes) -> None:
    """Writes bytes to an open file."""
    done = os.write(output, data)
    while done < len(data):
        done += os.write(output, data[done:])


def read_part(given: int, start: int, size: int) -> bytes:
    """Reads a part of an open file of a source."""
    try:
        return os.pread(given, size, start)
    except OSError as fault:
        raise Failed(f"a source could not be read: {fault.strerror}") from fault


def copy_by_kernel(given: int, start: int, size: int, output: int) -> int:
    """Copies a part of a file as far as the system does so without this process, and returns how many bytes."""
    done = 0
    while done < size:
        try:
            count = os.copy_file_range(given, output, size - done, start + done)
        except OSError as fault:
            if fault.errno not in NO_COPYING:
                raise
            return done
        if not count:
            return done
        done += count
    return done


def copy_part(given: int, start: int, size: int, output: int) -> int:
    """Copies a part of a file to another one, at the place of the latter, and returns how many bytes there were."""
    done = copy_by_kernel(given, start, size, output) if size > SMALL else 0
    while done < size:
        data = read_part(given, start + done, min(size - done, PIECE))
        if not data:
            return done
        write_all(output, data)
        done += len(data)
    return done


class Copier:
    """Copies contents by their tokens, or without a table as they are; one directory of each source stays open."""

    def __init__(self, table: Table | None) -> None:
        self.has_tokens = table is not None
        self.table = Table() if table is None else table
        self.below = [Below(descriptor) for descriptor, _ in self.table.roots]

    def close(self) -> None:
        """Closes the directories."""
        for below in self.below:
            below.close()

    def target(self, text: bytes) -> bytes | None:
        """Returns the target of the symbolic link that a content is, or None."""
        return self.table.target(text) if self.has_tokens else None

    def size(self, text: bytes) -> int:
        """Returns the size of a content with tokens; a symbolic link has none."""
        if not self.has_tokens:
            return len(text)
        if self.target(text) is not None:
            return 0
        return sum(len(one) if isinstance(one, bytes) else self.table.size(one) for one in pieces_of(text))

    def copy(self, text: bytes, output: int) -> None:
        """Writes a content with tokens to an open file."""
        for one in pieces_of(text) if self.has_tokens else [text]:
            if isinstance(one, bytes):
                write_all(output, one)
            else:
                self.copy_content(one, output)

    def copy_content(self, number: int, output: int) -> None:
        """Writes the content of a token to an open file; a file that has changed is refused."""
        size, holder = self.table.size(number), self.table.holders[number]
        if holder < 0:
            archive = self.table.archives[-1 - holder]
            unchanged = copy_part(archive.descriptor, self.table.starts[number], size, output) == size
        else:
            given = self.open(number)
            try:
                unchanged = copy_part(given, 0, size, output) == size
                unchanged = unchanged and stamp_of(os.fstat(given)) == self.table.stamp(number)
            finally:
                os.close(given)
        if not unchanged:
            raise Refused(f"changed during the build: {self.table.path(number)}")

    def open(self, number: int) -> int:
        """Opens the file of a content, and returns its descriptor."""
        root, path = self.table.directories[self.table.holders[number]]
        try:
            return os.open(self.table.names[number], FILE, dir_fd=self.below[root].open(path))
        except OSError as fault:
            if fault.errno in GONE:
                raise Refused(f"changed during the build: {self.table.path(number)}") from fault
            raise Failed(f"could not be read: {self.table.path(number)}: {fault.strerror}") from fault
