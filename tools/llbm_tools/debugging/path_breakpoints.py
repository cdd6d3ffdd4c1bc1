"""Stops at events that change a path: which events of a record changed it, and how.

What an event changed is asked of the session by an exact step back, so a run that looks for paths is slower: each event
costs the texts of the trees that its worker works on, twice.
"""

from typing import NamedTuple

from llbm_tools.common import names_in
from llbm_tools.debugging.last_event import Happened, Watch
from llbm_tools.debugging.tree_changes import Change
from llbm_tools.sessions.session import Event

# No tree has as many paths: all changes are looked at.
ALL_PATHS = 1 << 40


class Touched(NamedTuple):
    """An event that changed a path: its number in the record, the event, the tree, and how an entry changed there."""

    number: int
    event: Event
    tree: str
    change: Change


def is_at_or_below(path: str, other: str) -> bool:
    """Returns whether a path is another one or below it."""
    names, there = names_in(other), names_in(path)
    return names is not None and there is not None and there[: len(names)] == names


def changes_at(happened: Happened | None, path: str) -> list[tuple[str, Change]]:
    """Returns the changes of an event at or below a path, each with its tree."""
    compared = happened.compared if happened else []
    return [(one.name, each) for one in compared for each in one.changes if is_at_or_below(each.path, path)]


def last_change(watch: Watch, path: str) -> Touched | None:
    """Returns how the last event of the record changed what is at or below a path, or None."""
    found = changes_at(watch.last(ALL_PATHS), path) if watch.session.record else []
    if not found:
        return None
    tree, change = found[0]
    return Touched(len(watch.session.record), watch.session.record[-1], tree, change)


def all_changes(watch: Watch, path: str) -> list[Touched]:
    """Returns the events of the record that changed what is at or below a path, the last first.

    The run goes back to its beginning, and then forward again to where it is.
    """
    session, found = watch.session, []
    undone: list[Event] = []
    try:
        while session.record:
            touched = last_change(watch, path)
            found += [touched] if touched else []
            undone.append(session.back())
    finally:
        if session.child.poll() is None:
            session.redo_all(undone)
    return found
