"""Says in one line for each step of a run how many paths it changed and by how many bytes, and how large trees are."""

from collections.abc import Iterator

from llbm_tools.debugging import shown_trees, worker_trees
from llbm_tools.debugging.last_event import Happened
from llbm_tools.debugging.tree_changes import Compared
from llbm_tools.sessions.session import Session, TooLarge

# No tree has as many paths: all changes are counted.
ALL_PATHS = 1 << 40


def size_of(node: shown_trees.Node | None) -> int:
    """Returns the length of a file's content; 0 for a directory and for nothing."""
    return len(node.content) // 2 if node else 0


def growth(compared: Compared) -> str:
    """Says how many paths of a tree changed, and by how many bytes its files grew."""
    if compared.left:
        return compared.left
    size = sum(size_of(change.after) - size_of(change.before) for change in compared.changes)
    changed = sum(compared.counts.values())
    return f"{compared.summary()}, {size:+,} bytes" if changed else compared.summary()


def step_line(happened: Happened) -> str:
    """Returns the line of a micro-step."""
    texts = [f"{compared.name}: {growth(compared)}" for compared in happened.compared]
    return f"  {happened.text}" + (f" ({'; '.join(texts)})" if texts else "")


def tree_size(session: Session, vertex: int, output: int) -> str:
    """Says how large an output of a vertex that is done is, or why its tree is not read."""
    try:
        heads = worker_trees.flat_by(session, f"tree {vertex} {output}").values()
    except TooLarge as cause:
        return str(cause)
    nodes = [shown_trees.node_of(head) for head in heads]
    directories = sum(node.is_directory() for node in nodes)
    counts = [
        shown_trees.counted(directories, "directory", "directories"),
        shown_trees.counted(len(nodes) - directories, "file", "files"),
        shown_trees.counted(sum(map(size_of, nodes)), "byte", "bytes"),
    ]
    return ", ".join(counts)


def output_lines(session: Session, vertex: int, outputs: int) -> Iterator[str]:
    """Yields a line for each output of a vertex that is done."""
    for output in range(outputs):
        yield f"  output {output}: {tree_size(session, vertex, output)}"
