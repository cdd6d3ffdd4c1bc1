"""Writes a tree text as a new directory.

In: a tree text on standard input, and the directory's name on the command line; it does not exist yet, or it is an
empty directory.

Out: the directory with all entries of the text and their modes; the root's line is the directory itself. Owners are set
only if the tool runs as root. With --mtime every entry has that time, else that of its writing. The whole text is
checked before anything is written; its first faulty line is named on standard error with `line N` at its end, counted
from 1, and nothing after it is read. The text is processed line by line with an unnamed temporary file (in TMPDIR), so
the memory needed depends only on the longest line. With --links a file whose content `tree from directory --links` and
the like write for a symbolic link becomes that link; no path leads through one, and it has no mode of its own.

Exit status: 0 the directory is written; 2 the text, the directory or the command line is refused, and nothing is
written; 3 a read or a write failed (named on standard error), and what was written remains; 130 interrupted, and what
was written remains.
"""

import argparse
import binascii
import contextlib
import os
from collections.abc import Iterable, Iterator

from llbm_tools.command_line import Parser
from llbm_tools.inputs import input_lines
from llbm_tools.streams import Failed, Refused, exit_status, of_place, temporary_file
from llbm_tools.trees import entry_times, links
from llbm_tools.trees.trees import Entry, Names, check_into, entry_of, finish

OPENING = os.O_RDONLY | os.O_CLOEXEC | os.O_NOFOLLOW | os.O_DIRECTORY
MAKING = os.O_WRONLY | os.O_CLOEXEC | os.O_NOFOLLOW | os.O_CREAT | os.O_EXCL


@contextlib.contextmanager
def at(names: Names) -> Iterator[None]:
    """Turns an OSError into a failure that names this path."""
    try:
        yield
    except OSError as fault:
        path = os.fsdecode(b"/" + b"/".join(names))
        raise Failed(f"could not be written: {path}: {fault.strerror}") from fault


def open_root(directory: bytes) -> int:
    """Opens the directory, and makes it first if it does not exist."""
    try:
        with contextlib.suppress(FileExistsError):
            os.mkdir(directory, 0o700)
        return os.open(directory, OPENING)
    except OSError as fault:
        raise of_place(fault, os.fsdecode(directory)) from fault


def check_empty(descriptor: int, directory: bytes) -> None:
    """Checks that the open directory is empty."""
    with at([]):
        if os.listdir(descriptor):
            raise Refused(f"not empty: {os.fsdecode(directory)}")


class Writer:
    """Writes entries below a directory; holds the open directories, from the root down."""

    def __init__(self, descriptor: int, root: Entry, time: int | None, has_links: bool) -> None:
        self.open = [(descriptor, root)]
        self.time = time
        self.has_links = has_links

    def put(self, entry: Entry) -> None:
        """Makes an entry in its parent; directories that are not above it are finished."""
        self.end(len(entry.names))
        parent = self.open[-1][0]
        with at(entry.names):
            target = links.target_of(binascii.unhexlify(entry.content or b"")) if self.has_links else None
            if entry.content is None:
                self.put_directory(parent, entry)
            elif target is not None:
                links.make(target, parent, entry.names[-1], entry, self.time)
            else:
                self.put_file(parent, entry)

    def put_directory(self, parent: int, entry: Entry) -> None:
        """Makes a directory, and keeps it open."""
        os.mkdir(entry.names[-1], 0o700, dir_fd=parent)
        self.open.append((os.open(entry.names[-1], OPENING, dir_fd=parent), entry))

    def put_file(self, parent: int, entry: Entry) -> None:
        """Makes a file, and closes it."""
        descriptor = os.open(entry.names[-1], MAKING, 0o600, dir_fd=parent)
        with open(descriptor, "wb") as file:
            file.write(binascii.unhexlify(entry.content or b""))
            file.flush()
            finish(descriptor, entry, self.time)

    def end(self, count: int) -> None:
        """Closes all open directories but the first ones, the deepest first, and sets their owners and modes."""
        while len(self.open) > count:
            descriptor, entry = self.open.pop()
            with at(entry.names):
                finish(descriptor, entry, self.time)
                os.close(descriptor)


def write(lines: Iterable[bytes], directory: bytes, time: int | None, has_links: bool) -> None:
    """Writes the directory of valid lines."""
    entries = map(entry_of, lines)
    os.umask(0o077)
    root = open_root(directory)
    check_empty(root, directory)
    writer = Writer(root, next(entries), time, has_links)
    for entry in entries:
        writer.put(entry)
    writer.end(0)


def write_checked(directory: bytes, time: int | None, has_links: bool) -> None:
    """Writes the directory of the text on standard input, once all of the text is checked."""
    with temporary_file("the text") as stored:
        check_into(stored, input_lines())
        stored.seek(0)
        write(stored, directory, time, has_links)


def parse_options() -> argparse.Namespace:
    """Parses the command line."""
    parser = Parser(description="Writes the tree text on standard input as a new directory.")
    parser.add_argument("directory", metavar="DIRECTORY", type=os.fsencode, help="the new directory")
    parser.add_argument(
        "--mtime", metavar="SECONDS", type=entry_times.seconds_of, help="the time of every entry, since 1970"
    )
    parser.add_argument("--links", action="store_true", help="make symbolic links of what tools with --links wrote")
    return parser.parse_args()


def main() -> int:
    """Runs the tool, and returns its exit status."""
    options = parse_options()
    return exit_status(lambda: write_checked(options.directory, options.mtime, options.links))
