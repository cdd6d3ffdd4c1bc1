"""Names what cannot be in a tree on standard error, and counts it by cause."""

import collections
from collections.abc import Callable, Sequence
from typing import NamedTuple

from llbm_tools.common import MOST_NAMES, is_name, say
from llbm_tools.trees.trees import path_of


class Exclusion(NamedTuple):
    """A cause for leaving entries out, and the words for one and for several such entries."""

    cause: str
    one: str
    many: str


NO_NAME = Exclusion("not a valid name", "entry with an invalid name", "entries with invalid names")
TOO_DEEP = Exclusion(f"more than {MOST_NAMES} names", "path that is too long", "paths that are too long")
LINK = Exclusion("a symbolic link", "symbolic link", "symbolic links")
DEVICE = Exclusion("a device", "device", "devices")
PIPE = Exclusion("a pipe", "pipe", "pipes")
ATTRIBUTE = Exclusion("an extended attribute", "extended attribute", "extended attributes")


def exclusion_of_names(names: Sequence[bytes]) -> Exclusion | None:
    """Returns why no tree can have a path, or None if it can."""
    if not all(map(is_name, names)):
        return NO_NAME
    return TOO_DEEP if len(names) > MOST_NAMES else None


class LeftOut:
    """Counts what is left out of one text; lines go to `say`, by default to standard error."""

    def __init__(self, say: Callable[[str], None] = say) -> None:
        self.counts: collections.Counter[Exclusion] = collections.Counter()
        self.say = say

    def say_of(self, path: bytes, cause: str) -> None:
        """Prints one line about the entry at a path."""
        self.say(f"{cause}: {path.decode('utf-8', 'backslashreplace')}")

    def add(self, names: Sequence[bytes], exclusion: Exclusion, detail: str = "") -> None:
        """Names an entry that is left out, and counts it."""
        self.say_of(path_of(names), f"left out: {exclusion.cause}{detail}")
        self.counts[exclusion] += 1

    def print_counts(self) -> None:
        """Prints how much was left out."""
        counts = [f"{count} {kind.one if count == 1 else kind.many}" for kind, count in sorted(self.counts.items())]
        self.say(f"left out: {', '.join(counts) or 'nothing'}")
