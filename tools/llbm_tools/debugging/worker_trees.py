"""What a session shows of a running worker and of caches: its trees, and the instances of each key.

The lines are those of `work W` and `caches` in docs/FORMATS.md.
"""

import re
from typing import NamedTuple

from llbm_tools.debugging import shown_trees
from llbm_tools.sessions.session import Session

MOST_COMPARED = 67_108_864

PART = re.compile(r"([0-9]+) (local|input|result [0-9]+|laid|mount /.*)", re.DOTALL)
KEY = re.compile(r"([0-9]+) (shared|locked|private) ([0-9]+) (\S+) (.*)", re.DOTALL)


class Part(NamedTuple):
    """A tree that a worker works on: its number there, and its role in words."""

    number: int
    role: str

    @property
    def name(self) -> str:
        """The role, for an input with its number."""
        return f"input {self.number}" if self.role == "input" else self.role


class Key(NamedTuple):
    """A key of the caches: its number, mode, how many instances it has, its seed or `-`, and its ID."""

    number: int
    mode: str
    instances: int
    seed: str
    id: str


def parts_of(session: Session, worker: int) -> list[Part]:
    """Returns the trees that a worker works on, in order.

    There are none for an idle worker, and none for a file op without inputs before its first action.
    """
    lines = session.lines_by(f"work {worker}")
    if lines == [b"none"]:
        return []
    found: list[Part] = []
    for line in lines:
        text = line.decode("utf-8", "backslashreplace")
        match = PART.fullmatch(text)
        if not match or int(match[1]) != len(found):
            raise session.broken(text)
        found.append(Part(int(match[1]), match[2]))
    return found


def keys_of(session: Session) -> list[Key]:
    """Returns the keys of the caches, by number. An ID can have line ends, so other lines belong to the one before."""
    found: list[Key] = []
    for line in session.lines_by("caches"):
        text = line.decode("utf-8", "backslashreplace")
        match = KEY.fullmatch(text)
        if match and int(match[1]) == len(found):
            found.append(Key(int(match[1]), match[2], int(match[3]), match[4], match[5]))
        elif found:
            found[-1] = found[-1]._replace(id=f"{found[-1].id}\n{text}")
        else:
            raise session.broken(text)
    return found


def tree_by(session: Session, command: str, most: int | None = None) -> shown_trees.Node | None:
    """Returns the tree that a command of a session prints, or None if it prints that there is none."""
    lines = session.tree_by(command, most)
    if lines is None:
        return None
    try:
        return shown_trees.tree_of(lines)
    except (ValueError, LookupError) as fault:
        raise session.broken(f"not a tree: {fault}") from fault


def flat_by(session: Session, command: str) -> dict[str, bytes]:
    """Returns the entries of the tree that a command prints, by path; raises TooLarge above a limit of bytes."""
    lines = session.tree_by(command, MOST_COMPARED) or []
    try:
        return dict(shown_trees.path_and_head(line) for line in lines)
    except ValueError as fault:
        raise session.broken(f"not a tree: {fault}") from fault
