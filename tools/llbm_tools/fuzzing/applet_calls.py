"""The calls of applets, as the table of docs/FORMATS.md has them."""

import functools
import re
from collections.abc import Iterator

from llbm_tools.definitions.faults import tables_in
from llbm_tools.paths import ROOT

PAGE = ROOT / "docs" / "FORMATS.md"
HEAD = "Call"

# What a word of a call is, if it is not written as it is.
PATH, WORD, MODE = "P", "W", "MODE"
MANY = "..."

Call = tuple[str, ...]


def form_of(word: str) -> str:
    """Returns what a word of the table is: the names of paths are written in capital letters."""
    return PATH if word.isupper() and word not in (WORD, MODE) else word


def calls_in(cell: str) -> Iterator[Call]:
    """Yields the calls in a cell; one that begins with an option is of the applet before it, `...` is one more or none.
    """
    name = ""
    for words in (span.split(" ") for span in re.findall("`([^`]+)`", cell)):
        if words[0].startswith("-"):
            words = [name, *words]
        name = words[0]
        call = tuple(form_of(word) for word in words if word != MANY)
        yield call
        if MANY in words:
            yield (*call, call[-1])


@functools.cache
def calls() -> list[Call]:
    """Returns all calls, in the order of the table."""
    rows = next(rows for head, rows in tables_in(PAGE.read_text("utf-8")) if head[0] == HEAD)
    return [call for first, *_ in rows for call in calls_in(first)]
