"""The filters of a definition's local sources, applied to directories as BuildKit's clients do: llbm-rules finds what
they select. All tools that give a directory ask this module for its paths."""

import argparse

from llbm_tools.inputs import is_pipe
from llbm_tools.llb import source_names
from llbm_tools.llb.source_names import name_of
from llbm_tools.rules import rules_program
from llbm_tools.streams import Refused

KEYS = ("local.includepattern", "local.excludepatterns", "local.followpaths")
# What the program prints alone where a source has no filters.
EVERYTHING = [b"."]
END = b"\0"
OPTION = "--no-filters"

# Paths in a directory, without a slash before them.
Paths = frozenset[bytes]


def add_option(parser: argparse.ArgumentParser, where: str = "") -> None:
    """Adds the option by which a tool gives all of a directory to its parser."""
    about = f"give all of each directory, whatever its source's filters leave out{where}"
    parser.add_argument(OPTION, action="store_true", help=about)


def filtered_names(data: bytes) -> set[str]:
    """Returns the names of the local sources of a definition that have filters, empty ones too."""
    if not any(key.encode() in data for key in KEYS):
        return set()
    ops = source_names.ops_of(data)
    rows = {local.vertex: local.name for local in source_names.locals_of(ops)}
    keys = {vertex: [one.key for one in op.source.attrs] for vertex, op in enumerate(ops) if op.source}
    return {name for vertex, name in rows.items() if any(key in KEYS for key in keys[vertex])}


def is_directory(place: str) -> bool:
    """Returns whether a place is a directory that is no image."""
    # Most definitions have no filters, and need not import what reads trees.
    from llbm_tools.trees import source_texts

    return not is_pipe(place) and source_texts.kind_of(place) == source_texts.DIRECTORY


class Filters:
    """The filters of the local sources of a definition; none of them is applied where `--no-filters` is given."""

    def __init__(self, data: bytes, *, are_applied: bool) -> None:
        self.data = data
        self.names = filtered_names(data) if are_applied else set()
        # The names of the sources to whose directories filters were applied.
        self.applied: set[str] = set()

    def selected(self, name: str, place: str) -> Paths | None:
        """Returns the paths that the filters of a source select of its place; None if all of it is given, as of one
        that is no directory."""
        if name_of(name) not in self.names or not is_directory(place):
            return None
        try:
            printed = rules_program.output_of("select", name, place, given=self.data).split(END)[:-1]
        except rules_program.Missing as fault:
            means = f"which llbm-rules applies; {OPTION} gives all of {place}"
            raise Refused(f"the local source {name} has filters, {means}: {fault}") from fault
        if printed == EVERYTHING:
            return None
        self.applied.add(name_of(name))
        return frozenset(printed)
