"""Completes what a person types at the console of an editor: commands, numbers, and paths of trees."""

import re

from llbm_tools.debugging import shown_trees
from llbm_tools.debugging.request_arguments import Object
from llbm_tools.debugging.variables import Views

# The commands, each with what its words are.
COMMANDS = {
    "help": (), "status": (), "caches": (), "tree": ("vertex", "output"), "work": ("worker",), "cache": (),
    "claim": ("worker", "ready"), "step": ("worker",), "settle": ("worker",), "cancel": ("worker",), "try": (),
}  # fmt: skip
PATH = re.compile(r"((?:([0-9]{1,9})\.([0-9]{1,9})|(?:work|cache) [0-9]{1,9} [0-9]{1,9})):(/(?:.*/)?)?([^/]*)")
MOST = 100


def numbers_of(views: Views, what: str, words: list[str]) -> list[str]:
    """Returns the numbers that a word of a command can have."""
    session, graph = views.session, views.graph
    if what == "worker":
        return list(map(str, range(len(session.runs))))
    if what == "output":
        vertex = int(words[-1]) if words[-1].isdecimal() else len(graph.vertices)
        return list(map(str, range(graph.vertices[vertex].outputs))) if vertex < len(graph.vertices) else []
    wanted = "ready" if what == "ready" else "done"
    return [str(vertex) for vertex, status in enumerate(session.status()) if status == wanted]


def paths_of(views: Views, text: str) -> tuple[int, list[str]] | None:
    """Returns where the last name of an expression's path begins, and the names that can be there; None if it has none.

    A directory ends in a slash, so that the next names can be asked for.
    """
    match = PATH.fullmatch(text)
    if not match:
        return None
    command = f"tree {match[2]} {match[3]}" if match[2] else match[1]
    root = views.tree_by(command)
    start = text.index(":", match.end(1)) + 1
    if root is None or not match[4]:
        return start, ["/"] if root else []
    try:
        node = shown_trees.node_at(root, match[4])
    except shown_trees.NoPath:
        return start, []
    names = [name + "/" * below.is_directory() for name, below in node.entries.items()]
    return match.start(5), [name for name in names if name.startswith(match[5])]


def words_of(views: Views, text: str) -> tuple[int, list[str]]:
    """Returns where the last word of a text begins, and what it can be."""
    words = text.split(" ")
    start = len(text) - len(words[-1])
    if len(words) == 1:
        status = views.session.status()
        outputs = [f"{vertex}.0:/" for vertex, one in enumerate(status) if one == "done"]
        found = [*COMMANDS, *outputs]
    else:
        kinds = COMMANDS.get(words[0], ())
        found = numbers_of(views, kinds[len(words) - 2], words[:-1]) if len(words) - 2 < len(kinds) else []
    return start, [word for word in found if word.startswith(words[-1]) and word != words[-1]]


def targets_of(views: Views, text: str) -> list[Object]:
    """Returns the protocol's items for what can follow a text; each replaces the text from its start."""
    start, found = paths_of(views, text) or words_of(views, text)
    return [{"label": word, "start": start, "length": len(text) - start} for word in found[:MOST]]
