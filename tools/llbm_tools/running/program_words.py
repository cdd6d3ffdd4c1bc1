"""Reads the words of the program's command line, and says which of them is refused and why.

The forms are those of docs/FORMATS.md, under "The command line".
"""

import re
from typing import NamedTuple

COMMANDS = ("run", "show", "step", "asm", "dis")
WITH_SOURCES = ("run", "step")
FLAGS = {"show": ("--findings", "--plan", "--ops"), "step": ("--looks", "--ends")}
VALUES = {"run": ("--workers",), "step": ("--workers",), "show": ("--matches", "--agrees", "--older")}
# Options that can be given several times, each with a local source.
REPEATED = ("--older",)
MOST_OF_A_NUMBER = 1 << 32
HELP = ("-h", "--help")
PAGES = (*HELP, "-V", "--version")


class Source(NamedTuple):
    """A local source on the command line."""

    name: str
    file: str


class Words(NamedTuple):
    """The words: the command, the file of a session's definition, and the sources in order.

    `refused` says which word is refused and why; it is empty if none is. `asks` is whether a page is asked for instead.
    """

    command: str
    file: str | None = None
    sources: tuple[Source, ...] = ()
    refused: str = ""
    asks: bool = False

    def names(self) -> list[str]:
        """Returns the names of the sources, in order."""
        return [source.name for source in self.sources]


def number_fault(word: str | None) -> str:
    """Returns why a word is not the number after --workers; empty if it is."""
    if word is None:
        return "--workers has no number after it"
    is_number = re.fullmatch(r"\+?[0-9]+", word) and int(word) < MOST_OF_A_NUMBER
    return "" if is_number else f"{word!r} after --workers is not a number below 2^32"


class Reader:
    """The words after a command while they are read."""

    def __init__(self, command: str, words: list[str]) -> None:
        self.command = command
        self.words = words
        self.file: str | None = None
        self.sources: list[Source] = []
        self.given: set[str] = set()

    def value(self, name: str, given: str | None) -> str:
        """Reads the value of an option, and returns why it is refused; empty if it is not."""
        word = given if given is not None else self.words.pop(0) if self.words else None
        if name == "--workers":
            return number_fault(word)
        if not word or (not given and word.startswith("-")):
            return f"{name} has no file after it"
        return self.source(word) if name in REPEATED else ""

    def option(self, word: str) -> str:
        """Reads an option, and returns why it is refused; empty if it is not."""
        name, equals, value = word.partition("=")
        flags = FLAGS.get(self.command, ())
        if name not in flags + VALUES.get(self.command, ()):
            return f"{word!r} is no option of {self.command}"
        if name in self.given and name not in REPEATED:
            return f"{name} is given twice"
        self.given.add(name)
        if name in flags:
            return f"{name} takes no value" if equals else ""
        return self.value(name, value if equals else None)

    def argument(self, word: str) -> str:
        """Reads a word that is no option, and returns why it is refused; empty if it is not."""
        if self.command not in WITH_SOURCES:
            return f"{word!r} is one word too many: {self.command} takes none"
        if self.command == "step" and self.file is None:
            self.file = word
            return ""
        return self.source(word)

    def source(self, word: str) -> str:
        """Reads a local source, and returns why it is refused; empty if it is not."""
        name, equals, file = word.partition("=")
        if not equals:
            return f"{word!r} has no `=`: a local source is given as NAME=FILE"
        self.sources.append(Source(name, file))
        return ""

    def refusal(self) -> str:
        """Reads all words, and returns why the first wrong one is refused; empty if none is."""
        while self.words:
            word = self.words.pop(0)
            cause = self.option(word) if word.startswith("-") and word != "-" else self.argument(word)
            if cause:
                return cause
        asked = self.given - set(REPEATED)
        if self.command == "show" and len(asked) > 1:
            return f"show takes one option: {' or '.join(sorted(asked))}"
        if self.command == "show" and bool(self.sources) != ("--agrees" in self.given):
            return "show takes --agrees and --older together"
        return "step needs the FILE of a definition" if self.command == "step" and self.file is None else ""


def read_words(words: list[str]) -> Words:
    """Reads all words of a command line."""
    if not words:
        return Words("run")
    command, *rest = words
    if command in PAGES:
        return Words("", asks=True)
    if command not in COMMANDS:
        known = f"{', '.join(COMMANDS[:-1])} or {COMMANDS[-1]}"
        return Words("", refused=f"the first word {command!r} is no command: {known}")
    if command in COMMANDS and any(word in HELP for word in rest):
        return Words(command, asks=True)
    reader = Reader(command, rest)
    refused = reader.refusal()
    return Words(command, reader.file, tuple(reader.sources), refused)
