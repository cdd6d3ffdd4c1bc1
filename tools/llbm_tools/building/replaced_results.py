"""Makes a new result from an old one: only the entries that differ are written, and all of them appear in one step.

The smallest place that has all differences, a file or a directory, is made anew beside the result, with links to the
files of the old one that stay as they are; then the two are exchanged.
"""

import itertools
import os
from collections.abc import Callable, Iterable, Iterator

from llbm_tools.building.atomic_exchange import exchange
from llbm_tools.building.child_processes import held_back, ignore_signals
from llbm_tools.building.entry_writing import Files, finish_directories, make_directories, not_written
from llbm_tools.building.result_texts import Line, parent_of, read_line
from llbm_tools.common import say
from llbm_tools.trees.content_tokens import DIRECTORY, Below, Table

NEW = "new"

Same = Callable[[bytes, bytes], bool]


def is_below(path: bytes, place: bytes) -> bool:
    """Returns whether a path is a place or below it."""
    return path == place or path.startswith(place + b"/")


def pairs_of(old: Iterator[Line], new: Iterator[Line]) -> Iterator[tuple[Line | None, Line | None]]:
    """Yields the entries of two texts at each path, in path order."""
    one, two = next(old, None), next(new, None)
    while one or two:
        if two is None or one and key_of(one) < key_of(two):
            yield one, None
            one = next(old, None)
        elif one is None or key_of(two) < key_of(one):
            yield None, two
            two = next(new, None)
        else:
            yield one, two
            one, two = next(old, None), next(new, None)


def key_of(line: Line) -> bytes:
    """Returns what orders the paths of a text."""
    return line.path.replace(b"/", b"\0")


def is_same(one: Line, two: Line, same: Same) -> bool:
    """Returns whether two entries at one path are the same."""
    if one[:3] != two[:3] or (one.content is None) != (two.content is None):
        return False
    return one.content is None or same(one.content, two.content or b"")


def differences(old: Iterator[Line], new: Iterator[Line], same: Same) -> Iterator[tuple[bytes, bytes]]:
    """Yields the paths that differ, each with the place that has to be made anew: the path itself, or what it is in."""
    for one, two in pairs_of(old, new):
        if one and two and is_same(one, two, same):
            continue
        path = (one or two or Line(0, 0, 0, None, b"")).path
        stays = one is not None and two is not None and (one.content is None) == (two.content is None)
        yield path, path if stays else parent_of(path)


def common_place(places: Iterable[bytes]) -> bytes:
    """Returns the deepest path that all places are at or below."""
    names = [place.split(b"/") for place in places]
    first, last = min(names), max(names)
    shared = list(itertools.takewhile(lambda pair: pair[0] == pair[1], zip(first, last)))
    return b"/".join(name for name, _ in shared)


def lines_at(text: bytes, place: bytes) -> Iterator[Line]:
    """Yields the entries of a text at a place and below it, which are one after another; none if it is not there."""
    start = 0
    if place:
        found = text.find(b" %b\n" % place)
        while found >= 0:
            start = text.rfind(b"\n", 0, found) + 1
            if read_line(text[start : text.index(b"\n", found) + 1]).path == place:
                break
            found = text.find(b" %b\n" % place, found + 1)
        start = start if found >= 0 else len(text)
    while start < len(text):
        end = text.index(b"\n", start) + 1
        line = read_line(text[start:end])
        if not is_below(line.path, place):
            return
        yield line
        start = end


class Part:
    """A place of the result that is made anew: its entries by the new text, and which of their paths differ."""

    def __init__(self, place: bytes, lines: list[Line], differ: set[bytes]) -> None:
        self.place = place
        self.lines = [line._replace(path=line.path[len(place) :]) for line in lines]
        self.differ = {path[len(place) :] for path in differ}

    def make(self, old: str, new: str, table: Table | None, time: int | None) -> None:
        """Makes the new place, with links to the files of the old one that stay."""
        if self.lines[0].content is not None:
            self.make_file(new, table, time)
            return
        os.mkdir(new, 0o700)
        root, before = os.open(new, DIRECTORY), os.open(old, DIRECTORY)
        try:
            self.make_directory(root, before, table, time)
        finally:
            os.close(before)
            os.close(root)

    def make_file(self, new: str, table: Table | None, time: int | None) -> None:
        """Writes the one file."""
        above = os.open(os.path.dirname(new), DIRECTORY)
        files = Files(above, table, time)
        try:
            files.put(self.lines[0]._replace(path=b"/" + os.path.basename(new).encode()))
        except OSError as fault:
            raise not_written(self.place, fault) from fault
        finally:
            files.close()
            os.close(above)

    def make_directory(self, root: int, before: int, table: Table | None, time: int | None) -> None:
        """Makes the entries of an open directory, with links to the files of another one."""
        directories = [line for line in self.lines if line.content is None]
        make_directories(root, directories)
        files, old, new = Files(root, table, time), Below(before), Below(root)
        try:
            for line in self.lines:
                if line.content is not None and (line.path in self.differ or not linked(line.path, old, new)):
                    files.put(line)
        except OSError as fault:
            raise not_written(line.path, fault) from fault
        finally:
            files.close()
            old.close()
            new.close()
        finish_directories(root, directories, time)


def linked(path: bytes, old: Below, new: Below) -> bool:
    """Makes a link to an old file, and returns whether that is possible."""
    parent, name = path.rsplit(b"/", 1)
    try:
        os.link(name, name, src_dir_fd=old.open(parent), dst_dir_fd=new.open(parent), follow_symlinks=False)
    except OSError:
        return False
    return True


def say_steps(is_one_step: bool) -> None:
    """Says if a result was not replaced in one step."""
    if not is_one_step:
        say("the result was replaced in two steps: the kernel or the file system can't exchange two names")


def replace(part: Part, result: str, folder: str, table: Table | None, time: int | None) -> None:
    """Makes a part of a result in a folder, and exchanges it with the old one."""
    count = "1 entry differs" if len(part.differ) == 1 else f"{len(part.differ):,} entries differ"
    say(f"writing {result}: {count}, in {os.fsdecode(part.place) or 'all of it'}")
    old = result + os.fsdecode(part.place)
    new = os.path.join(folder, NEW)
    mask = os.umask(0o077)
    try:
        part.make(old, new, table, time)
    finally:
        os.umask(mask)
    with held_back():
        is_one_step = exchange(new, old)
        ignore_signals()
    say_steps(is_one_step)
    if time is not None and part.place:
        os.utime(os.path.dirname(old), (time, time))
    say(f"{result} is written")
