"""Queries of the graph of entries: what an entry needs, what needs it, and a path from one to another.

An entry is named by the number of its vertex, `V`, by its row, `%K`, by its digest (8 digits or more) or by its name.
"""

import collections
import re
from collections.abc import Iterable

from llbm_tools.definitions.inspection import Entry, Inspected
from llbm_tools.streams import Refused

SHORTEST_DIGEST = 8

NUMBER = re.compile(r"(%?)([0-9]{1,9})")
DIGEST = re.compile(rf"(?:sha256:)?([0-9a-f]{{{SHORTEST_DIGEST},64}})")


def rows_named(entries: list[Entry], word: str) -> list[int]:
    """Returns the rows of the entries that a word names."""
    found = [entry.row for entry in entries if word in (entry.name.text, entry.name.shown())]
    number, digest = NUMBER.fullmatch(word), DIGEST.fullmatch(word)
    if not found and number:
        wanted = int(number[2])
        found = [entry.row for entry in entries if (entry.row if number[1] else entry.name.vertex) == wanted]
    if not found and digest:
        found = [entry.row for entry in entries if entry.name.digest.startswith(f"sha256:{digest[1]}")]
    return found


def row_named(entries: list[Entry], word: str) -> int:
    """Returns the row of the one entry that a word names."""
    found = rows_named(entries, word)
    if len(found) == 1:
        return found[0]
    if found:
        rows = ", ".join(f"%{row}" for row in found)
        raise Refused(f"{len(found)} entries have this name or digest: {word}: {rows}")
    raise Refused(f"no entry has this vertex, row (%K), digest (8 digits or more) or name: {word}")


class Links:
    """The rows that each row's inputs name, and the rows whose inputs name it."""

    def __init__(self, inspected: Inspected) -> None:
        self.entries = inspected.below_terminal()
        self.needed: dict[int, list[int]] = {}
        self.users: dict[int, list[int]] = {entry.row: [] for entry in self.entries}
        for entry in self.entries:
            rows = [edge.row for edge in entry.inputs if edge.row is not None]
            self.needed[entry.row] = list(dict.fromkeys(rows))
            for row in self.needed[entry.row]:
                self.users[row].append(entry.row)

    def row(self, word: str) -> int:
        """Returns the row that a word names."""
        return row_named(self.entries, word)

    def before(self, row: int) -> set[int]:
        """Returns the rows that a row needs, directly or not."""
        return set(reached(row, self.needed)) - {row}

    def after(self, row: int) -> set[int]:
        """Returns the rows that need a row, directly or not."""
        return set(reached(row, self.users)) - {row}

    def between(self, first: int, last: int) -> list[int]:
        """Returns a shortest path from a row to one that needs it, with both; empty if there is none."""
        came = reached(last, self.needed)
        if first not in came:
            return []
        path = [first]
        while path[-1] != last:
            path.append(came[path[-1]])
        return path


def reached(start: int, links: dict[int, list[int]]) -> dict[int, int]:
    """Returns the rows that are reached from a row, nearest first, each with the row that it was reached from."""
    came = {start: start}
    left = collections.deque([start])
    while left:
        row = left.popleft()
        for other in links[row]:
            if other not in came:
                came[other] = row
                left.append(other)
    return came


def chosen(entries: Iterable[Entry], rows: set[int]) -> list[Entry]:
    """Returns the entries of these rows, in their order."""
    return [entry for entry in entries if entry.row in rows]
