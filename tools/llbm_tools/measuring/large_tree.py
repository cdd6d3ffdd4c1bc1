"""Writes the text of a large tree, for measuring growth.

In: FILES files of BYTES bytes each (16 by default), spread over DIRECTORIES directories, which are two levels deep. The
names of the upper directories begin with PREFIX (`d` by default), so that two trees can share them or not; those of
files end in SUFFIX (empty by default), so that the names of two trees can come in turn.

Out: the text on standard output. The same arguments always write the same text.

Exit status: 0 the text is written; 2 the command line is refused; 3 a write failed.
"""

import argparse
import math
import os
import sys
from collections.abc import Callable, Iterator

from llbm_tools.command_line import Parser
from llbm_tools.common import check_open, is_name
from llbm_tools.streams import exit_status

MOST_FILES = 100_000_000
MOST_SIZE = 1 << 30
WIDEST_NUMBER = 8


def content(number: int, size: int) -> str:
    """Returns the content of a numbered file in hexadecimal, or `-` if it is empty."""
    return (f"{number:08x}" * (size // 4 + 1))[: 2 * size] or "-"


def directories(count: int, prefix: str) -> list[tuple[str, str]]:
    """Returns each directory by its two names, with about as many upper directories as each has lower ones."""
    wide = max(1, math.isqrt(count))
    return [(f"{prefix}{number // wide:03d}", f"s{number:05d}") for number in range(count)]


def lines(files: int, places: list[tuple[str, str]], size: int, suffix: str) -> Iterator[str]:
    """Yields the lines of the tree, in path order."""
    texts: dict[tuple[str, ...], str | None] = {(): None}
    for upper, lower in places:
        texts[upper,] = texts[upper, lower] = None
    for number in range(files):
        texts[*places[number % len(places)], f"f{number:06d}{suffix}"] = content(number, size)
    for path in sorted(texts, key=lambda path: [name.encode() for name in path]):
        text = texts[path]
        kind = "d 0755 0 0" if text is None else f"f 0644 0 0 {text}"
        yield f"{kind} /{'/'.join(path)}\n"


def number_to(most: int) -> Callable[[str], int]:
    """Returns a parser of numbers up to a limit."""

    def read(word: str) -> int:
        if not word.isdecimal() or not word.isascii() or int(word) > most:
            raise argparse.ArgumentTypeError(f"{word!r} is not a number up to {most}")
        return int(word)

    return read


def part_of_name(word: str) -> str:
    """Parses PREFIX or SUFFIX, a part of a name that also has a number."""
    if word and not is_name(os.fsencode(word)[: 255 - WIDEST_NUMBER]) or len(os.fsencode(word)) > 255 - WIDEST_NUMBER:
        raise argparse.ArgumentTypeError(f"{word!r} cannot be part of a name")
    return word


def parse_options() -> argparse.Namespace:
    """Parses the command line."""
    parser = Parser(description="Writes the text of a large tree.")
    add = parser.add_argument
    add("files", metavar="FILES", type=number_to(MOST_FILES), help="the number of files")
    add("directories", metavar="DIRECTORIES", type=number_to(MOST_FILES), help="the number of directories")
    add("bytes", metavar="BYTES", nargs="?", type=number_to(MOST_SIZE), default=16, help="the size of each file (16)")
    add("prefix", metavar="PREFIX", nargs="?", type=part_of_name, default="d", help="starts names of directories (d)")
    add("suffix", metavar="SUFFIX", nargs="?", type=part_of_name, default="", help="ends names of files")
    options = parser.parse_args()
    if options.files and not options.directories:
        parser.error("files need a directory")
    return options


def write(options: argparse.Namespace) -> None:
    """Writes the text."""
    check_open(sys.stdout, "standard output")
    places = directories(options.directories, options.prefix)
    sys.stdout.buffer.write("".join(lines(options.files, places, options.bytes, options.suffix)).encode())
    sys.stdout.flush()


def main() -> int:
    """Runs the tool, and returns its exit status."""
    options = parse_options()
    return exit_status(lambda: write(options))
