"""The trees of local sources as the words NAME=FILE of a program, which reads texts of trees."""

import argparse
import contextlib
import os
from collections.abc import Callable, Mapping

from llbm_tools.inputs import opened_file
from llbm_tools.streams import Failed, Refused
from llbm_tools.trees import trees
from llbm_tools.trees.content_tokens import Table
from llbm_tools.trees.directory_texts import Values
from llbm_tools.trees.source_texts import TEXT, Reading, Source, kind_of

Say = Callable[[str], None]
Selected = frozenset[bytes] | None


def source_of(word: str) -> tuple[str, str]:
    """Parses NAME=PATH of a command line."""
    name, mark, path = word.partition("=")
    if not name or not mark:
        raise argparse.ArgumentTypeError(f"{word!r} is not NAME=PATH")
    return name, path


def whole(_name: str, _path: str) -> Selected:
    """Selects all of a directory."""
    return None


def source_file(name: str, path: str, place: str, say: Say, selected: Selected = None) -> str:
    """Returns the file with the tree text of a local source, which is written to `place` if it is no text; of a
    directory the paths that are selected, if some are.
    """
    def say_of(line: str) -> None:
        said.append(line)
        say(f"{line} (the local source {name})")

    said: list[str] = []
    try:
        if kind_of(path) == TEXT:
            trees.check_length(path)
            with opened_file(path):
                return path
        with open(place, "wb") as text, contextlib.ExitStack() as kept:
            is_whole = Source(Values(text, None), Table(), kept, Reading(say=say_of, quiet=True)).read(
                path, [], selected=selected
            )
    except (Refused, Failed) as fault:
        raise Refused(f"{fault} (the local source {name})") from fault
    if not is_whole:
        raise Refused(f"{said[0]} (the local source {name})")
    return place


def source_words(
    sources: Mapping[str, str], folder: str, say: Say, selected: Callable[[str, str], Selected] = whole
) -> list[str]:
    """Returns the words of local sources, given their paths by name; texts that are made are put into a folder. What
    is selected of a directory is asked for by the name of the source and the path."""
    words = []
    for number, (name, path) in enumerate(sources.items()):
        if not name or "=" in name or name.startswith("-"):
            raise Refused(f"this can't be the name of a local source on a command line: {name!r}")
        text = os.path.join(folder, f"{number}.tree")
        words.append(f"{name}={source_file(name, path, text, say, selected(name, path))}")
    return words
