"""Reads everything that a tool is given: once, and in one way for all tools.

A place is a path; `-`, /dev/stdin or no word is standard input. A place that can't be opened, or that is a directory
where a file is read, is refused, and so is a device, which may never end, unless it is a terminal or /dev/null; a read
that fails, and a standard input that is closed, is a failure. A file that is changed while it is read is refused.
"""

import contextlib
import os
import shutil
import stat
import sys
from collections.abc import Iterator
from typing import BinaryIO

from llbm_tools.common import MOST_BYTES
from llbm_tools.streams import PIECE, Failed, Refused, of_place

STANDARD_INPUT = "standard input"


def is_standard_input(place: str | None) -> bool:
    """Returns whether a place is standard input."""
    return place in (None, "-", "/dev/stdin")


def shown(place: str | None) -> str:
    """Returns a place as it is printed."""
    return STANDARD_INPUT if place is None or is_standard_input(place) else place


def is_pipe(place: str) -> bool:
    """Returns whether a place can be read only once: standard input, or what is neither a file nor a directory."""
    return is_standard_input(place) or (
        os.path.exists(place) and not os.path.isfile(place) and not os.path.isdir(place)
    )


def check_inputs(*places: str | None) -> None:
    """Checks that at most one of these inputs is standard input."""
    if sum(map(is_standard_input, places)) > 1:
        raise Refused("only one input can come from standard input")


def is_device(file: BinaryIO) -> bool:
    """Returns whether an open file is a device that may never end: neither a terminal nor /dev/null."""
    found = os.fstat(file.fileno())
    if not stat.S_ISCHR(found.st_mode) and not stat.S_ISBLK(found.st_mode):
        return False
    return not file.isatty() and found.st_rdev != os.stat(os.devnull).st_rdev


def standard_input() -> BinaryIO:
    """Returns standard input, if it is open."""
    if sys.stdin is None:
        raise Failed("standard input is closed")
    if is_device(sys.stdin.buffer):
        raise Refused(f"is a device: {STANDARD_INPUT}")
    return sys.stdin.buffer


def input_lines() -> Iterator[bytes]:
    """Yields the lines of standard input."""
    with reading(STANDARD_INPUT):
        yield from standard_input()


@contextlib.contextmanager
def reading(place: str) -> Iterator[None]:
    """Turns an OSError of a read into the end of the tool; standard input that is a directory is refused."""
    try:
        yield
    except OSError as fault:
        raise of_place(fault, place) from fault


@contextlib.contextmanager
def named(place: str | None) -> Iterator[None]:
    """Names a place in the refusal of what is there, unless the refusal does."""
    try:
        yield
    except Refused as fault:
        if f": {shown(place)}" in str(fault):
            raise
        raise Refused(f"{fault}: {shown(place)}") from fault


def check_there(place: str) -> None:
    """Refuses a place at which there is nothing."""
    with reading(place):
        if not is_standard_input(place):
            os.stat(place)


@contextlib.contextmanager
def opened_file(place: str) -> Iterator[BinaryIO]:
    """Yields the file at a path."""
    with reading(place):
        file = open(place, "rb")
    with file:
        if is_device(file):
            raise Refused(f"is a device: {place}")
        yield file


@contextlib.contextmanager
def opened(place: str | None) -> Iterator[BinaryIO]:
    """Yields the file at a place, or standard input."""
    if place is None or is_standard_input(place):
        yield standard_input()
        return
    with opened_file(place) as file:
        yield file


def state_of(file: BinaryIO) -> tuple[int, ...]:
    """Returns what shows that a regular file was changed; for others nothing shows it."""
    found = os.fstat(file.fileno())
    return (found.st_size, found.st_mtime_ns, found.st_ctime_ns) if stat.S_ISREG(found.st_mode) else ()


def data_at(place: str | None, most: int = MOST_BYTES) -> bytes:
    """Returns the bytes at a place; at most one byte more than the limit of the program."""
    with opened(place) as file, reading(shown(place)):
        before = state_of(file)
        data = file.read(most + 1)
        if state_of(file) != before:
            raise Refused(f"changed while it was read: {shown(place)}")
        return data


def stored_data(place: str | None, folder: str, name: str) -> str:
    """Returns a path with the bytes at a place: the place, or in a folder a copy of what can be read only once."""
    if place is not None and not is_pipe(place):
        data_at(place)
        return place
    stored = os.path.join(folder, name)
    with open(stored, "xb") as file:
        file.write(data_at(place))
    return stored


def store(place: str, stored: str) -> None:
    """Copies all bytes at a place into a new file."""
    with opened(place) as given:
        try:
            with open(stored, "xb") as file:
                shutil.copyfileobj(given, file, PIECE)
        except OSError as fault:
            raise Failed(f"could not be stored: {shown(place)}: {fault.strerror}") from fault
