"""What an event did, as lines for a person: what happened, the paths that it changed, and what ends otherwise in
BuildKit."""

from collections.abc import Iterator

from llbm_tools.debugging.last_event import Happened
from llbm_tools.debugging.tree_changes import Change, Compared
from llbm_tools.rules.rule_words import more_paths


def change_line(change: Change) -> str:
    """Returns a change in one line: what happened, to which path, and the rest."""
    return f"{change.kind} {change.path}: {change.described()}"


def compared_lines(compared: Compared, most: int) -> Iterator[str]:
    """Yields a line for each change of a tree that is shown, and one that counts the others."""
    if compared.left:
        yield f"{compared.name}: {compared.left}"
    for change in compared.changes[:most]:
        yield f"{compared.name}: {change_line(change)}"
    more = sum(compared.counts.values()) - len(compared.changes[:most])
    if more > 0:
        yield f"{compared.name}: {more_paths(more)}"


def changed_lines(happened: Happened, most: int) -> Iterator[str]:
    """Yields the lines of the paths that an event changed, tree by tree."""
    for compared in happened.compared:
        yield from compared_lines(compared, most)


def otherwise_lines(happened: Happened | None) -> Iterator[str]:
    """Yields a line for each way in which an event ends otherwise in BuildKit."""
    yield from (f"BuildKit: {line}" for line in (happened.otherwise if happened else []))
