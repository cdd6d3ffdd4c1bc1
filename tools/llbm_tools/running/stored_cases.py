"""Cases in folders: the words of the program's command line, what it reads, and what it has to write.

A case is a folder with a file `args`, which has one word on each line. The program starts in the folder, with `stdin`
as its standard input; in place of it `definition.text` may have the text of entries, which is assembled first. PATH of
a word NAME=PATH of `run` or `step` may also be a directory, of which the filters of its source select, or an archive.
`stdout`, `stderr` and `status` are what the program has to write and its exit status; one that is not there is empty,
or 0.
"""

import difflib
import io
import os
import pathlib
import subprocess
import tempfile
from collections.abc import Iterator
from typing import NamedTuple

from llbm_tools import common
from llbm_tools.rules.filters import Filters
from llbm_tools.running.program_words import read_words
from llbm_tools.streams import Failed, Refused
from llbm_tools.trees import diff_of_trees
from llbm_tools.trees.source_files import source_file
from llbm_tools.trees.trees import checked_at

ARGS, INPUT, TEXT, OUTPUT, MESSAGES, STATUS = "args", "stdin", "definition.text", "stdout", "stderr", "status"
WITH_SOURCES = ("run", "step")
HELP_WORDS = {"--help", "-h", "help", "--version", "-V"}
MOST_LINES = 20

PASSED, FAILED, UPDATED = "passed", "failed", "updated"


class Answer(NamedTuple):
    """What the program writes to standard output and to standard error, and its exit status."""

    output: bytes
    messages: bytes
    status: int


class Ended(NamedTuple):
    """How a case ended: its name, one of the words above, and a line for each difference or why it could not run."""

    name: str
    outcome: str
    lines: list[str]


class NoAnswer(Exception):
    """A case could not be run; the message says why."""


def content_of(folder: pathlib.Path, name: str, default: bytes = b"") -> bytes:
    """Returns the content of a file of a case, or the default where it is missing."""
    try:
        return (folder / name).read_bytes()
    except FileNotFoundError:
        return default


def folders_below(place: str, only: str) -> list[pathlib.Path]:
    """Returns the folders of cases at and below a place, in order, whose paths have this text."""
    if not os.path.isdir(place):
        raise Refused(f"there is no such directory: {place}")
    found = sorted(file.parent for file in pathlib.Path(place).rglob(ARGS) if file.is_file())
    return [folder for folder in found if only in str(folder)]


def words_of(folder: pathlib.Path) -> list[str]:
    """Returns the words of a case."""
    try:
        return content_of(folder, ARGS).decode("utf-8").splitlines()
    except UnicodeDecodeError as fault:
        raise NoAnswer(f"{ARGS} is not UTF-8") from fault


def wanted_of(folder: pathlib.Path) -> Answer:
    """Returns what a case says that the program has to write."""
    status = content_of(folder, STATUS, b"0").strip()
    if not status.isdigit():
        raise NoAnswer(f"{STATUS} is not a number")
    return Answer(content_of(folder, OUTPUT), content_of(folder, MESSAGES), int(status))


class Runner:
    """Runs cases by a program, each within a number of seconds; of directories filters select, unless they are off."""

    def __init__(self, program: str, seconds: int, *, has_filters: bool = True) -> None:
        self.program, self.seconds, self.has_filters = program, seconds, has_filters

    def done(self, words: list[str], given: bytes, folder: pathlib.Path) -> Answer:
        """Runs the program in a folder, and returns what it wrote."""
        try:
            run = subprocess.run(
                [self.program, *words], input=given, capture_output=True, cwd=folder, timeout=self.seconds
            )
        except subprocess.TimeoutExpired as fault:
            raise NoAnswer(f"no answer within {self.seconds} seconds") from fault
        return Answer(run.stdout, run.stderr, run.returncode)

    def given_to(self, folder: pathlib.Path) -> bytes:
        """Returns the standard input of a case."""
        if (folder / INPUT).exists() or not (folder / TEXT).exists():
            return content_of(folder, INPUT)
        assembled = self.done(["asm"], content_of(folder, TEXT), folder)
        if assembled.status:
            why = assembled.messages.decode("utf-8", "backslashreplace").strip()
            raise NoAnswer(f"{why} (the text in {TEXT})")
        return assembled.output

    def answer(self, folder: pathlib.Path) -> Answer:
        """Returns what the program writes for a case."""
        words, given = words_of(folder), self.given_to(folder)
        with tempfile.TemporaryDirectory(prefix="llbm-check-") as made:
            try:
                if words[:1] and words[0] in WITH_SOURCES:
                    file = read_words(words).file
                    data = content_of(folder, file) if file else given
                    words = [self.source_word(word, f"{made}/{n}.tree", folder, data) for n, word in enumerate(words)]
            except (Refused, Failed) as cause:
                raise NoAnswer(str(cause)) from cause
            return self.done(words, given, folder)

    def source_word(self, word: str, text: str, folder: pathlib.Path, data: bytes) -> str:
        """Returns a word of the command line, with the text of a tree in place of a directory or an archive."""
        name, equals, path = word.partition("=")
        place = os.path.join(folder, path)
        if not name or not equals or not os.path.exists(place) or word.startswith("-"):
            return word
        selected = Filters(data, are_applied=self.has_filters).selected(name, place)
        file = source_file(name, place, text, common.say, selected)
        return word if file == place else f"{name}={file}"


def is_same(words: list[str], wanted: Answer, found: Answer) -> bool:
    """Returns whether an answer is the one that is wanted; below a fault there may be a page that was asked for."""
    if HELP_WORDS & set(words) and wanted.messages and found.messages.startswith(wanted.messages):
        found = found._replace(messages=wanted.messages)
    return wanted == found


def text_lines(name: str, wanted: bytes, found: bytes) -> Iterator[str]:
    """Yields the lines in which two texts differ."""
    before, after = (one.decode("utf-8", "backslashreplace").splitlines() for one in (wanted, found))
    for line in list(difflib.unified_diff(before, after, lineterm="", n=0))[2:]:
        if not line.startswith("@@"):
            yield f"{name}: {line}"


def tree_lines(wanted: bytes, found: bytes) -> Iterator[str]:
    """Yields a line for each path at which two trees differ; raises Refused if one is no tree."""
    first, second = (list(checked_at(OUTPUT, io.BytesIO(one))) for one in (wanted, found))
    entries = [iter([entry for _, entry in one]) for one in (first, second)]
    for line in diff_of_trees.difference_lines(*entries):
        yield line.decode("utf-8", "backslashreplace").rstrip("\n")


def output_lines(wanted: bytes, found: bytes) -> list[str]:
    """Returns the lines in which two outputs differ: path by path if both are trees."""
    try:
        return list(tree_lines(wanted, found))
    except Refused:
        return list(text_lines(OUTPUT, wanted, found))


def differences(wanted: Answer, found: Answer) -> list[str]:
    """Returns the lines in which two answers differ."""
    lines = [f"{STATUS}: {wanted.status} -> {found.status}"] if wanted.status != found.status else []
    lines += text_lines(MESSAGES, wanted.messages, found.messages)
    lines += output_lines(wanted.output, found.output) if wanted.output != found.output else []
    more = len(lines) - MOST_LINES
    return [*lines[:MOST_LINES], *([f"and {more:,} more lines"] if more > 0 else [])] or ["the ends of lines differ"]


def update(folder: pathlib.Path, wanted: Answer, found: Answer) -> None:
    """Stores an answer; a file whose content would be the default is not made anew."""
    pairs = [(OUTPUT, wanted.output, found.output), (MESSAGES, wanted.messages, found.messages)]
    pairs.append((STATUS, b"%d\n" % wanted.status, b"%d\n" % found.status))
    for name, before, after in pairs:
        if before != after:
            (folder / name).write_bytes(after)


def ended(runner: Runner, folder: pathlib.Path, name: str, is_updated: bool) -> Ended:
    """Runs a case, and returns how it ended."""
    try:
        wanted, found = wanted_of(folder), runner.answer(folder)
        if is_same(words_of(folder), wanted, found):
            return Ended(name, PASSED, [])
        lines = differences(wanted, found)
        if is_updated:
            update(folder, wanted, found)
        return Ended(name, UPDATED if is_updated else FAILED, lines)
    except NoAnswer as cause:
        return Ended(name, FAILED, [str(cause)])
