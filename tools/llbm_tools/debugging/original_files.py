"""The files that a definition was made from, as its `Source` has them: their names, their texts, and the lines of each
entry.

`Source` has `locations` (1), a map from digests to places, and `infos` (2), the files: filename (1), data (2). A place
has the number of a file (1) and ranges (2), each with a start (1) and an end (2); of these the line (1) is read. What
can't be parsed is skipped, since nothing depends on it.
"""

import os
import pathlib
from typing import NamedTuple

from llbm_tools.common import MOST_BYTES
from llbm_tools.llb import definition, names


class Range(NamedTuple):
    """Lines of a file, by its number, counted from 1."""

    file: int
    first: int
    last: int


def ends_in(path: str, name: str) -> bool:
    """Returns whether a path ends in the parts of a name."""
    parts = pathlib.PurePath(name).parts
    return bool(parts) and pathlib.PurePath(path).parts[-len(parts) :] == parts


class File(NamedTuple):
    """A file that entries come from: its name, its text (empty if it is not stored), and its path if it is known."""

    name: str
    text: str
    path: str | None


class Origins(NamedTuple):
    """The files, and the ranges of each entry by its row."""

    files: list[File]
    ranges: list[list[Range]]

    def rows_at(self, file: int, line: int) -> list[int]:
        """Returns the entries that come from a line of a file."""
        return [
            row
            for row, ranges in enumerate(self.ranges)
            if any(one.file == file and one.first <= line <= one.last for one in ranges)
        ]

    def file_at(self, path: str) -> int | None:
        """Returns the file with a path: the one that is known by it, or else the first whose name ends it."""
        place = os.path.realpath(path)
        known = [file.path is not None and os.path.realpath(file.path) == place for file in self.files]
        named = [ends_in(path, file.name) for file in self.files]
        return known.index(True) if any(known) else named.index(True) if any(named) else None


def ranges_at(location: names.Fields) -> list[Range]:
    """Returns the ranges of a location; one without a first line is left out."""
    file, found = names.number_of(location, 1), []
    for one in map(names.fields_of, names.parts_of(location, 2)):
        first, last = (names.number_of(names.message_of(one, end), 1) for end in (1, 2))
        if first:
            found.append(Range(file, first, max(first, last)))
    return found


def ranges_of(locations: names.Fields) -> list[Range]:
    """Returns the ranges of an entry."""
    places = map(names.fields_of, names.parts_of(locations, 1))
    return [one for place in places for one in ranges_at(place)]


def regular_text(place: str) -> str | None:
    """Returns the text of a file that is not too large, or None where there is no such file."""
    if not os.path.isfile(place) or os.path.getsize(place) > MOST_BYTES:
        return None
    return pathlib.Path(place).read_bytes().decode("utf-8", "backslashreplace")


def path_of(name: str, text: str, given: dict[str, str], folder: str) -> str | None:
    """Returns the path of a file: the one that the launch gives, or one beside the definition with the same text."""
    if name in given:
        return os.path.abspath(given[name])
    place = os.path.join(folder, name)
    try:
        held = regular_text(place) if name else None
    except (OSError, ValueError):
        return None
    return os.path.abspath(place) if held is not None and text in ("", held) else None


def origins_of(data: bytes, given: dict[str, str], folder: str) -> Origins:
    """Returns the files that a definition was made from, given paths of some, and the folder of the definition."""
    source = names.message_of(names.fields_of(data), 3)
    files = []
    for info in map(names.fields_of, names.parts_of(source, 2)):
        name, text = names.text_of(info, 1), names.text_of(info, 2)
        files.append(File(name, text, path_of(name, text, given, folder)))
    locations = names.map_of(source, 1)
    digests = map(definition.digest_of, definition.entries_of(data))
    ranges = [ranges_of(names.message_of(locations.get(digest, {}), 2)) for digest in digests]
    return Origins(files, [[one for one in found if one.file < len(files)] for found in ranges])
