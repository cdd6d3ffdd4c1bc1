"""What the tools of this folder share: the program, rules for names, text for a person, and the standard streams."""

import contextlib
import os
import re
import shutil
import sys
from typing import NamedTuple

from llbm_tools import paths

LOGIC = "logic dac8208d650f15bf"
PROVER = f"Rattle {LOGIC}"
NOT_PROVED = "not proved, compiled with"
VERSION = re.compile(r"^llbm \d+\.\d+, ", re.MULTILINE)
MOST_SECONDS = 60
MOST_OF_A_LINE = 200
# The status of a program that shows its version: that of llbm, and that of most others.
STATUSES = (2, 0)

MOST_BYTES = 67_108_864
MOST_NAMES = 128
NAME = re.compile(rb"[^\x00-\x1f/\x7f]{1,255}")


def is_name(name: bytes) -> bool:
    """Returns whether these bytes are a valid name in a tree."""
    if not NAME.fullmatch(name) or name in (b".", b".."):
        return False
    try:
        name.decode("utf-8")
    except UnicodeDecodeError:
        return False
    return True


def names_in(text: str) -> list[str] | None:
    """Returns the names of a path from the root, or None if a text is no path."""
    names: list[str] = []
    for part in text.split("/"):
        if part in ("", "."):
            continue
        if part == "..":
            names = names[:-1]
        elif not is_name(part.encode("utf-8")) or len(names) == MOST_NAMES:
            return None
        else:
            names.append(part)
    return names


def printable(text: str) -> str:
    """Returns a text with non-printable characters escaped."""
    return "".join(c if c.isprintable() else c.encode("unicode_escape").decode() for c in text)


def shortened(text: str, most: int) -> str:
    """Returns a text, cut with `...` if it has more than `most` characters."""
    return text if len(text) <= most else text[: most - 3] + "..."


def say(text: str) -> None:
    """Prints one line on standard error, if it is open, with non-printable characters escaped."""
    with contextlib.suppress(OSError, AttributeError):
        os.write(sys.stderr.fileno(), f"{printable(text)}\n".encode("utf-8"))


def check_open(stream: object, name: str) -> None:
    """Raises OSError if a standard stream is closed."""
    if stream is None:
        raise OSError(None, f"{name} is closed")


def discard_output() -> None:
    """Redirects standard output to /dev/null, so that buffered output does not fail again at exit."""
    os.dup2(os.open(os.devnull, os.O_WRONLY), 1)


class Answer(NamedTuple):
    """What a program prints on standard error for `--version`, and its status; that is None if it did not end in time.

    The status is that of a process, or the number of the signal that ended it, below 0.
    """

    text: str
    status: int | None

    def ending(self) -> str:
        """Returns how the program ended, and the first line that it printed."""
        if self.status is None:
            return f"it does not end within {MOST_SECONDS} seconds"
        ended = f"status {self.status}" if self.status >= 0 else f"signal {-self.status}"
        first = next(filter(None, map(str.strip, self.text.splitlines())), "")
        return f"it ends with {ended}" + (f" and prints {shortened(first, MOST_OF_A_LINE)}" if first else "")


def answer_of(program: str | os.PathLike[str]) -> Answer:
    """Asks a program for its version."""
    # Most tools start no program: without this module they start sooner.
    import subprocess

    try:
        done = subprocess.run(
            [program, "--version"], stdin=subprocess.DEVNULL, capture_output=True, timeout=MOST_SECONDS
        )
    except subprocess.TimeoutExpired:
        return Answer("", None)
    return Answer(done.stderr.decode("utf-8", "replace"), done.returncode)


def said_by(program: str | os.PathLike[str]) -> str:
    """Returns what a program prints on standard error for `--version`; nothing if it does not end in time."""
    return answer_of(program).text


def is_unproved(program: str | os.PathLike[str]) -> bool:
    """Returns whether a program says of itself, by `--version`, that it is not proved."""
    with contextlib.suppress(OSError):
        return NOT_PROVED in said_by(program)
    return False


def not_llbm(program: str, is_named: bool = True) -> str:
    """Returns why a program can't be used as llbm: it does not start, or its version is not one of llbm; or nothing.

    If nobody named it, and it is not proved, standard error says so.
    """
    try:
        answer = answer_of(program)
    except OSError as fault:
        return f"the program does not start: {fault.strerror}"
    if VERSION.search(answer.text):
        if not is_named and NOT_PROVED in answer.text:
            say_unproved(program)
        return ""
    is_other = answer.status in STATUSES
    return "this is not the program llbm" if is_other else f"the program does not start: {answer.ending()}"


def say_unproved(program: str) -> None:
    """Says on standard error that a program is not proved."""
    say(f"the program is not proved: {os.path.relpath(program)}")


def program_given(word: str | None) -> str | None:
    """Returns the program that a person names: by an option, or else by the variable LLBM."""
    return word if word is not None else os.environ.get("LLBM") or None


def program_place(word: str | None) -> str:
    """Returns the program that is named, else the one of this folder, else the one on PATH.

    If there is none, it is the first place of this folder at which there could be one.
    """
    given = program_given(word)
    if given is not None:
        return given
    places = [paths.INSTALLED_PROGRAM] if paths.INSTALLED.is_file() else [paths.PROVED, paths.UNPROVED]
    found = next((str(place) for place in places if shutil.which(place)), shutil.which("llbm"))
    return found or str(places[0])


def program_named(word: str | None) -> str:
    """Returns the program that is named, else that of the installation or repository around this folder, or of PATH.

    A proved one comes before one that is not; that one is not proved which nobody named is said on standard error.
    """
    place = program_place(word)
    if program_given(word) is None and is_unproved(place):
        say_unproved(place)
    return place
