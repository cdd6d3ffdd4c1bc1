"""Finds what the words, the files and the definition of a run say about a line that the program printed for it."""

import contextlib
import os
import re
from collections.abc import Iterator
from typing import NamedTuple

from llbm_tools.common import MOST_BYTES, printable, shortened
from llbm_tools.llb import no_definition
from llbm_tools.llb.source_names import missing_notes, word_notes
from llbm_tools.os_errors import in_words
from llbm_tools.running.program_words import Words
from llbm_tools.trees import trees

MOST_CHARACTERS = 80
FAULT = re.compile(r"fault ([0-9]+)(?: ([0-9]+)\b)?")
TREES, NO_DEFINITION, MISSING, UNREAD, WORDS, TOO_LONG, LINES = (31, 32, 33), 81, 121, 181, 183, 185, (161, 162)


class Run(NamedTuple):
    """What a run was given: its words, and what came from standard input, if it is known."""

    words: Words
    given: bytes | None


def data_of(run: Run) -> bytes | None:
    """Returns the definition, or None if it is not at hand."""
    if run.words.command != "step":
        return run.given
    with contextlib.suppress(OSError), open(run.words.file or "", "rb") as file:
        return file.read(MOST_BYTES + 1) if os.path.isfile(run.words.file or "") else None
    return None


def line_in(data: bytes, number: int) -> str:
    """Returns a line, counted from 1, for a person, cut if it is long."""
    lines = data.split(b"\n")
    text = lines[number - 1][: 4 * MOST_CHARACTERS] if 1 <= number <= len(lines) else b""
    return shortened(printable(text.decode("utf-8", "backslashreplace")), MOST_CHARACTERS)


def unread_file(place: str) -> str:
    """Returns why a file cannot be read; empty if it can."""
    try:
        with open(place, "rb") as file:
            file.read(1)
    except OSError as fault:
        return f"{in_words(fault)}: {place}"
    return ""


def tree_text(place: str) -> str:
    """Returns the first faulty line of a tree's text, with its cause; empty if there is none."""
    try:
        with open(place, "rb") as file:
            data = file.read(MOST_BYTES + 1)
    except OSError:
        return ""
    try:
        for _ in trees.checked(data.splitlines(keepends=True)):
            pass
    except trees.FaultyLine as fault:
        line = f"not the text of a tree: {fault.cause}: {place}, line {fault.number}"
        return f"{line}: {line_in(data, fault.number)}" if data else line
    return ""


def of_sources(run: Run, number: int) -> Iterator[str]:
    """Yields the first file that the program could not use, for the faults 31 to 33, 181 and 185."""
    look = tree_text if number in TREES else unread_file
    for name, file in run.words.sources:
        cause = trees.too_long(file) if number == TOO_LONG else look(file)
        if cause:
            yield f"{cause} (the local source {name})"
            return
    if number == UNREAD and run.words.command == "step" and (cause := unread_file(run.words.file or "")):
        yield f"{cause} (the definition)"
    elif number == UNREAD:
        yield "standard input could not be read"


def of_words(run: Run) -> list[str]:
    """Returns which names no local source has, and which are given twice."""
    return word_notes(data_of(run), run.words.names()) if run.words.sources else []


def causes_of(run: Run, line: str) -> list[str]:
    """Returns what is known of a line besides its explanation, as lines for a person."""
    fault = FAULT.match(line)
    number = int(fault[1]) if fault else 0
    if number == WORDS:
        return [run.words.refused] if run.words.refused else []
    if number == NO_DEFINITION:
        data = data_of(run)
        place = run.words.file if run.words.command == "step" else None
        return [no_definition.text_line(place)] if data is not None and no_definition.is_text(data) else []
    if number == MISSING:
        return [*missing_notes(data_of(run), run.words.names()), *of_words(run)]
    if number in (*TREES, UNREAD, TOO_LONG):
        return list(of_sources(run, number))
    if number in LINES and fault and fault[2] and run.given is not None:
        return [f"line {fault[2]}: {line_in(run.given, int(fault[2]))}"]
    return []
