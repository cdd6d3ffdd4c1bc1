"""The least examples of the rules, which `llbm-rules` has."""

import base64
from typing import NamedTuple

from llbm_tools.rules import rules_program
from llbm_tools.trees import tree_maps
from llbm_tools.trees.tree_maps import Tree


# When an adopted example agrees.
ALWAYS, BY_TREES = "always", "trees"


class Example(NamedTuple):
    """An example: its rule, what it shows, its definition and trees, and the lines of what is made of them, without
    the root; None if that fails. Once it is adopted for BuildKit both agree ALWAYS, BY_TREES or never."""

    rule: str
    shows: str
    data: bytes
    sources: dict[str, Tree]
    buildkit: list[str] | None
    llbm: list[str] | None
    adopted: str


def examples() -> list[Example]:
    """Returns all examples, in order."""
    found = []
    for one in rules_program.answers("examples"):
        texts = {name: text.encode("utf-8").splitlines(keepends=True) for name, text in one["trees"].items()}
        sources = {name: tree_maps.tree_of(lines) for name, lines in texts.items()}
        data = base64.b64decode(one["definition"])
        found.append(Example(one["rule"], one["shows"], data, sources, one["buildkit"], one["llbm"], one["adopted"]))
    return found
