"""Compares two trees path by path: what was added, removed or changed, with the old and the new content."""

from typing import NamedTuple

from llbm_tools.common import printable
from llbm_tools.debugging import shown_trees

ADDED, REMOVED, CHANGED = "added", "removed", "changed"


class Change(NamedTuple):
    """A path at which two trees differ: its entry in each, without its names, or None where there is none."""

    path: str
    before: shown_trees.Node | None
    after: shown_trees.Node | None

    @property
    def kind(self) -> str:
        """Whether the path was added, removed or changed."""
        if self.before is None:
            return ADDED
        return CHANGED if self.after else REMOVED

    def described(self) -> str:
        """Describes the change, without its kind."""
        if self.before and self.after:
            return ", ".join(differences(self.before, self.after))
        return entry_text(self.after or self.before)

    def shown(self) -> str:
        """Describes the change in one line."""
        return f"{self.kind} {self.described()}"


class Compared(NamedTuple):
    """How one tree became another: its name, the first of the changes, and how many there are of each kind.

    `left` says why the trees were not compared; it is empty where they were.
    """

    name: str
    changes: list[Change]
    counts: dict[str, int]
    left: str = ""

    def summary(self) -> str:
        """Says how many paths were added, removed and changed."""
        return self.left or ", ".join(f"{count:,} {kind}" for kind, count in self.counts.items() if count) or "nothing"


def entry_text(node: shown_trees.Node | None) -> str:
    """Describes an entry in one line; empty if there is none."""
    if node is None:
        return ""
    kind = "directory" if node.is_directory() else "file"
    what, content = ("", "") if node.is_directory() else shown_trees.shown(node)
    text = f"{kind} {node.mode} {node.owner}" + (f", {what}" if what else "")
    return f"{text}: {printable(content)}" if content else text


def differences(before: shown_trees.Node, after: shown_trees.Node) -> list[str]:
    """Describes each way in which two entries at one path differ."""
    if before.is_directory() != after.is_directory():
        return [f"{entry_text(before)} -> {entry_text(after)}"]
    found = []
    if before.mode != after.mode:
        found.append(f"mode {before.mode} -> {after.mode}")
    if before.owner != after.owner:
        found.append(f"owner {before.owner} -> {after.owner}")
    if before.content != after.content:
        found.append(" -> ".join(content_text(node) for node in (before, after)))
    return found


def content_text(node: shown_trees.Node) -> str:
    """Describes a content in one line."""
    what, content = shown_trees.shown(node)
    return f"{what}: {printable(content)}" if content else what


def place_of(path: str) -> list[bytes]:
    """Returns the names of a path, by which paths are ordered."""
    return [name.encode("utf-8") for name in path.split("/")[1:] if name]


def compared(name: str, before: dict[str, bytes], after: dict[str, bytes], most: int) -> Compared:
    """Compares two trees, given their entries by path; at most `most` of the changes are kept, the first by path."""
    paths = [path for path in after if before.get(path) != after[path]]
    paths += [path for path in before if path not in after]
    paths.sort(key=place_of)
    counts = {ADDED: 0, REMOVED: 0, CHANGED: 0}
    for path in paths:
        counts[ADDED if path not in before else CHANGED if path in after else REMOVED] += 1
    kept = [Change(path, node_in(before, path), node_in(after, path)) for path in paths[:most]]
    return Compared(name, kept, counts)


def node_in(flat: dict[str, bytes], path: str) -> shown_trees.Node | None:
    """Returns the entry at a path, without its names, or None."""
    return shown_trees.node_of(flat[path]) if path in flat else None
