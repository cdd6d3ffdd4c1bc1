"""The words of the program's command line, with texts of trees in the place of directories, which it can't read.

Of a directory only what the filters of its local source select is in the text, as BuildKit's clients do.
"""

import contextlib
import os
import tempfile
from collections.abc import Iterator
from typing import NamedTuple

from llbm_tools.common import say
from llbm_tools.rules.filters import Filters
from llbm_tools.running.program_words import Words, read_words
from llbm_tools.trees.source_files import source_file


class Given(NamedTuple):
    """The words for the program, as they are and as they are read, and the names of sources with applied filters."""

    words: list[str]
    read: Words
    filtered: set[str]


class Texts:
    """The texts of directories in a folder, made for the words of a command line and a definition."""

    def __init__(self, read: Words, data: bytes, folder: str, *, has_filters: bool) -> None:
        self.read = read
        self.folder = folder
        self.filters = Filters(data, are_applied=has_filters)
        self.made = 0

    def word(self, word: str) -> str:
        """Returns a word of a source, with a text in the place of a directory."""
        name, _, place = word.partition("=")
        if not os.path.isdir(place):
            return word
        self.made += 1
        text = os.path.join(self.folder, f"{self.made}.tree")
        return f"{name}={source_file(name, place, text, say, self.filters.selected(name, place))}"

    def words(self, words: list[str]) -> list[str]:
        """Returns all words; the file of a session's definition is no source, whatever its name is."""
        sources = {f"{source.name}={source.file}" for source in self.read.sources}
        places = [number for number, word in enumerate(words) if word in sources]
        if self.read.file in sources:
            places = places[1:]
        return [self.word(word) if number in places else word for number, word in enumerate(words)]


@contextlib.contextmanager
def given(words: list[str], read: Words, data: bytes | None, *, has_filters: bool) -> Iterator[Given]:
    """Yields the words for the program; texts of directories are in a temporary folder for that long."""
    if read.refused or not any(os.path.isdir(source.file) for source in read.sources):
        yield Given(words, read, set())
        return
    with tempfile.TemporaryDirectory(prefix="llbm-run-") as folder:
        texts = Texts(read, data or b"", folder, has_filters=has_filters)
        made = texts.words(words)
        yield Given(made, read_words(made), texts.filters.applied)
