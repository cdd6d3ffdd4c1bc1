"""What two daemons build side by side, and how it ended."""

from typing import NamedTuple

from llbm_tools.trees import tree_maps
from llbm_tools.trees.tree_maps import Tree

Lines = list[bytes] | None

# What is counted of a case with an execution where BuildKit's daemon runs none.
NO_EXECUTION = "left out: an execution, which BuildKit's daemon does not run here"


class Case(NamedTuple):
    """A definition with the trees of its sources, and a name by which it can be made again."""

    name: str
    data: bytes
    sources: dict[str, Tree]
    is_dockerfile: bool = False
    is_modelled: bool = True


class Verdict(NamedTuple):
    """How a case ended: what is counted, and lines about what nothing announced."""

    counts: list[str]
    lines: list[str]


def lines_of(tree: Tree | None) -> Lines:
    """Returns the lines of a result without its root; None for none."""
    return None if tree is None else tree_maps.lines_of(tree)[1:]
