"""Lists what is at and below a path of a tree: a line for each entry."""

from collections.abc import Iterator

from llbm_tools.common import printable, shortened
from llbm_tools.debugging.shown_trees import Node, summary_of

MOST_OF_AN_ENTRY = 160


def entry_line(path: str, node: Node) -> str:
    """Returns the line of an entry: its path, and its mode, owner and names or content."""
    mark = "/" if node.is_directory() and path != "/" else ""
    return shortened(f"{printable(path)}{mark}  {summary_of(node)}", MOST_OF_AN_ENTRY)


def below(path: str, node: Node) -> Iterator[tuple[str, Node]]:
    """Yields an entry and those below it, each with its path, in the order of the tree's text."""
    todo = [(path, node)]
    while todo:
        place, one = todo.pop()
        yield place, one
        todo += [(f"{place.rstrip('/')}/{name}", each) for name, each in reversed(one.entries.items())]


def tree_lines(path: str, node: Node, most: int) -> list[str]:
    """Returns the lines of an entry and of those below it, at most `most`, and a line that counts the others."""
    entries = list(below(path, node))
    more = len(entries) - most
    lines = [entry_line(*entry) for entry in entries[:most]]
    return [*lines, f"and {more:,} more entries"] if more > 0 else lines
