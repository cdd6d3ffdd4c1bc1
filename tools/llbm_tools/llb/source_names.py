"""Finds which names of local sources a definition has, and which of the names that are given fit none."""

import os
from typing import NamedTuple

from llbm_tools import commands
from llbm_tools.llb import definition
from llbm_tools.llb.local_names import can_be_given
from llbm_tools.llb.ops import LOCAL, Op
from llbm_tools.llb.wire import Unreadable


class Local(NamedTuple):
    """A local source of a definition: its vertex and its name."""

    vertex: int
    name: str


def ops_of(data: bytes | None) -> list[Op]:
    """Returns the ops of the vertices, by number; empty if the entries are not a graph."""
    try:
        entries = definition.entries_of(data or b"")
        return [definition.op_of(row, entries[row]) for row in definition.graph_of(entries).rows]
    except Unreadable:
        return []


def locals_of(ops: list[Op]) -> list[Local]:
    """Returns the local sources, by vertex."""
    named = [(vertex, op.source.identifier) for vertex, op in enumerate(ops) if op.source]
    return [Local(vertex, name[len(LOCAL) :]) for vertex, name in named if name.startswith(LOCAL)]


def name_of(word: str) -> str:
    """Returns a name of the command line as the program reads it, in UTF-8 whatever the locale."""
    return os.fsencode(word).decode("utf-8", "surrogateescape")


def missing_notes(data: bytes | None, given: list[str]) -> list[str]:
    """Returns a line with the local sources that no tree is given for, and one with those that no word can name."""
    given = [name_of(word) for word in given]
    missing = [local for local in locals_of(ops_of(data)) if local.name not in given]
    notes = []
    if missing:
        notes.append(f"without a tree: {', '.join(f'{name} (vertex {vertex})' for vertex, name in missing)}")
    odd = list(dict.fromkeys(local.name for local in missing if not can_be_given(local.name)))
    if odd:
        adopt = commands.shown("adopt")
        notes.append(f"no word NAME=FILE names it, and {adopt} gives it another name: {', '.join(odd)}")
    return notes


def word_notes(data: bytes | None, given: list[str]) -> list[str]:
    """Returns a line with the names that no local source has, and one with those that are given twice."""
    ops, given = ops_of(data), [name_of(word) for word in given]
    unknown = sorted(set(given) - {local.name for local in locals_of(ops)}) if ops else []
    twice = list(dict.fromkeys(name for name in given if given.count(name) > 1))
    notes = [f"no local source has the name: {', '.join(unknown)}"] if unknown else []
    if twice:
        notes.append(f"given twice, and the later one is used: {', '.join(twice)}")
    return notes
