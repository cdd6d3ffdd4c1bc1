"""How many tests passed, failed and were skipped: the last line of each tool that tests, how it is written and read.

The line is `N passed, M failed, K skipped`. What `rt` prints is read too: `N passed, M failed` of `rt ci`, which may
have more behind it, and `test result: ok. N passed; M failed; K ignored; ..` of `rt try --test`.
"""

import re
from collections.abc import Iterable
from typing import NamedTuple

LINE = re.compile(
    r"(?:test result: \w+\. )?([0-9]+) passed[,;] ([0-9]+) failed(?:[,;] ([0-9]+) (?:skipped|ignored))?(?:[ ;].*)?"
)


class Counts(NamedTuple):
    """How many tests passed, failed and were skipped."""

    passed: int = 0
    failed: int = 0
    skipped: int = 0

    def line(self) -> str:
        """Returns the counts as a line."""
        return f"{self.passed} passed, {self.failed} failed, {self.skipped} skipped"

    def status(self) -> int:
        """Returns the exit status of a tool with these counts."""
        return int(self.failed > 0)


def total(each: Iterable[Counts]) -> Counts:
    """Returns the sum of all counts."""
    rows = list(each)
    return Counts(*(sum(row[place] for row in rows) for place in range(3)))


def read(line: str) -> Counts | None:
    """Returns the counts that a line has; nothing if it is no such line."""
    found = LINE.fullmatch(line)
    return Counts(int(found[1]), int(found[2]), int(found[3] or 0)) if found else None
