"""Standard output, new files and exit statuses, and what a tool says if a file can't be used."""

import contextlib
import os
import shutil
import sys
from collections.abc import Callable, Iterable, Iterator
from typing import BinaryIO, cast

from llbm_tools import paths
from llbm_tools.common import discard_output, not_llbm, program_given, program_place, say
from llbm_tools.os_errors import WRONGLY_NAMED, in_words, os_error_text

REFUSED, FAILED, INTERRUPTED = 2, 3, 130

PIECE = 1 << 20


class Refused(Exception):
    """What the caller gave is wrong; each argument is a line that says why."""


class Failed(Exception):
    """A read or a write failed; the message says which."""


def of_place(fault: OSError, place: str) -> Refused | Failed:
    """Returns the end of a tool that can't use a place: a refusal if it was named wrongly, else a failure."""
    line = f"{in_words(fault)}: {place}"
    return Refused(line) if fault.errno in WRONGLY_NAMED else Failed(line)


def status_of(fault: OSError) -> int:
    """Returns the exit status for a failed call: a file that was named wrongly is refused, all else is a failure."""
    return REFUSED if fault.filename is not None and fault.errno in WRONGLY_NAMED else FAILED


def exit_status(work: Callable[[], int | None]) -> int:
    """Does the work, prints why it was refused or failed, and returns the exit status.

    If the reader of the output has closed it, as `head` does, nothing is printed.
    """
    try:
        return work() or 0
    except Refused as fault:
        for line in fault.args:
            say(str(line))
        return REFUSED
    except Failed as fault:
        say(str(fault))
        discard_output()
        return FAILED
    except BrokenPipeError:
        discard_output()
        return FAILED
    except OSError as fault:
        say(os_error_text(fault))
        discard_output()
        return status_of(fault)
    except MemoryError:
        say("out of memory")
        return FAILED
    except KeyboardInterrupt:
        discard_output()
        return INTERRUPTED


def why_not(named: str, is_named: bool = True) -> str:
    """Returns why what is named can't be used as the program; empty if it can. `is_named` says whether a person did."""
    found = shutil.which(named)
    if found is None:
        return "not a program" if os.path.exists(named) else "there is no such program"
    return not_llbm(found, is_named)


def program_at(word: str | None, others: str = "--llbm PROGRAM names another one") -> str:
    """Returns the path of the program: the given one, or else that of the repository or the installation.

    What is not llbm, by its `--version`, is refused. If nobody named it, and it is not proved, standard error says so.
    """
    named = program_place(word)
    cause = why_not(named, program_given(word) is not None)
    if cause:
        raise Refused(f"{cause}: {named}; {others}")
    return os.path.abspath(shutil.which(named) or named)


def check_program(place: str, others: str = "--llbm PROGRAM names another one") -> None:
    """Refuses what is not the program llbm, as the one that `rt ci` leaves is."""
    if place != str(paths.PROVED) and (cause := why_not(place)):
        raise Refused(f"{cause}: {place}; {others}")


def program_to_ask(word: str | None) -> str:
    """Returns the path of the program, as `program_at` does, for a tool that checks by its answers what it is.

    So one that a person named, and the one that `rt ci` leaves, are not started for that.
    """
    place = shutil.which(program_place(word))
    is_known = program_given(word) is not None or place == str(paths.PROVED)
    return os.path.abspath(place) if place and is_known else program_at(word)


@contextlib.contextmanager
def temporary_file(what: str) -> Iterator[BinaryIO]:
    """Yields an unnamed temporary file (under TMPDIR); an OSError becomes Failed."""
    # What stores nothing starts sooner without this.
    import tempfile

    try:
        with tempfile.TemporaryFile() as stored:
            yield cast(BinaryIO, stored)
    except BrokenPipeError:
        raise
    except OSError as fault:
        raise Failed(f"{what} could not be stored: {fault.strerror}") from fault


def write_output(stored: BinaryIO, what: str) -> None:
    """Writes a temporary file to standard output."""
    if sys.stdout is None:
        raise Failed(f"{what} could not be written: standard output is closed")
    stored.seek(0)
    try:
        shutil.copyfileobj(stored, sys.stdout.buffer, PIECE)
        sys.stdout.flush()
    except (BrokenPipeError, KeyboardInterrupt):
        discard_output()
        raise
    except OSError as fault:
        discard_output()
        raise Failed(f"{what} could not be written: {fault.strerror}") from fault


def mode_of_new_files() -> int:
    """Returns the mode of new files on this system."""
    mask = os.umask(0o077)
    os.umask(mask)
    return 0o666 & ~mask


def write_and_rename(pieces: Iterable[bytes], place: str) -> None:
    """Writes pieces to a file under a temporary name beside a path, and renames it when it is complete."""
    import tempfile

    descriptor, beside = tempfile.mkstemp(prefix=".llbm-", dir=os.path.dirname(place) or ".")
    try:
        with open(descriptor, "wb") as file:
            file.writelines(pieces)
            os.fchmod(file.fileno(), mode_of_new_files())
        os.rename(beside, place)
    except BaseException:
        with contextlib.suppress(OSError):
            os.unlink(beside)
        raise


def write_new_file(stored: BinaryIO, place: str) -> None:
    """Writes a temporary file to a new path, completely or not at all."""
    if os.path.lexists(place):
        raise Refused(f"this exists already: {place}")
    stored.seek(0)
    try:
        write_and_rename(iter(lambda: stored.read(PIECE), b""), place)
    except OSError as fault:
        raise of_place(fault, place) from fault
