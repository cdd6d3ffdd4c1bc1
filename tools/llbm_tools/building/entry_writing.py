"""Writes entries of a result's text: directories, and files whose contents are tokens or the contents themselves."""

import binascii
import os
from typing import BinaryIO

from llbm_tools.building.result_texts import Line, Part, lines_in
from llbm_tools.streams import Failed
from llbm_tools.trees import links
from llbm_tools.trees.content_tokens import Below, Copier, Table
from llbm_tools.trees.trees import Entry, finish

NEW_FILE = os.O_WRONLY | os.O_CLOEXEC | os.O_NOFOLLOW | os.O_CREAT | os.O_EXCL


def entry_at(line: Line) -> Entry:
    """Returns an entry without its content."""
    return Entry(line.mode, line.user, line.group, line.content, line.path[1:].split(b"/") if line.path else [])


def not_written(path: bytes, fault: OSError) -> Failed:
    """Returns the failure to write the entry at a path."""
    return Failed(f"could not be written: {os.fsdecode(path or b'/')}: {fault.strerror}")


def make_directories(root: int, lines: list[Line]) -> None:
    """Makes the directories below an open one; they come in path order."""
    below = Below(root)
    for line in lines[1:]:
        parent, name = line.path.rsplit(b"/", 1)
        try:
            os.mkdir(name, 0o700, dir_fd=below.open(parent))
        except OSError as fault:
            raise not_written(line.path, fault) from fault
    below.close()


def finish_directories(root: int, lines: list[Line], time: int | None) -> None:
    """Sets the times, owners and modes of directories, those that are deepest first."""
    below = Below(root)
    for line in reversed(lines):
        try:
            finish(below.open(line.path), entry_at(line), time)
        except OSError as fault:
            raise not_written(line.path, fault) from fault
    below.close()


class Files:
    """Writes files below an open directory."""

    def __init__(self, root: int, table: Table | None, time: int | None) -> None:
        self.time = time
        self.below = Below(root)
        self.copier = Copier(table)

    def write(self, text: BinaryIO, part: Part) -> None:
        """Writes the files in a part of a checked text."""
        for line in lines_in(text, part):
            if line.content is None:
                continue
            try:
                self.put(line)
            except OSError as fault:
                raise not_written(line.path, fault) from fault

    def close(self) -> None:
        """Closes the directories."""
        self.below.close()
        self.copier.close()

    def put(self, line: Line) -> None:
        """Writes a file, or a symbolic link."""
        parent, name = line.path.rsplit(b"/", 1)
        content = binascii.unhexlify(line.content or b"")
        target = self.copier.target(content)
        if target is not None:
            links.make(target, self.below.open(parent), name, entry_at(line), self.time)
            return
        descriptor = os.open(name, NEW_FILE, 0o600, dir_fd=self.below.open(parent))
        try:
            self.copier.copy(content, descriptor)
            finish(descriptor, entry_at(line), self.time)
        finally:
            os.close(descriptor)
