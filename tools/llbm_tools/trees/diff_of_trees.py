"""Prints the differences between two trees.

In: FIRST and SECOND, each a directory, an archive (a path that is not a directory and ends in .tar, .tar.gz, .tgz,
.tar.bz2, .tar.xz or .tar.zst), or else a file with the text of a tree; `-` is a text on standard input. Directories and
archives are read by `tree from directory` and `tree from tar`, or by `tree from image` if they are an image; these name
on standard error what cannot be in a tree, and with --strict that is refused. With --owner every entry of a directory
or an archive gets that owner.

Out: on standard output a line for each path that differs, in path order, once both trees are read:

    removed KIND mode MODE owner UID:GID contents SIZE DIGEST PATH
    added KIND mode MODE owner UID:GID contents SIZE DIGEST PATH
    changed kind KIND -> KIND mode MODE -> MODE owner UID:GID -> UID:GID contents SIZE DIGEST -> SIZE DIGEST PATH

A path is removed if only FIRST has it, and added if only SECOND has it. The line of a changed path has only the
properties that differ. KIND is `directory` or `file`. SIZE is the size of a file in bytes and DIGEST its `sha256:..`; a
directory has no contents, which a changed kind shows as `none`. --json prints one object in place of the lines
(docs/FORMATS.md, "Objects of tools").

Exit status: 0 the trees are equal; 1 they differ; 2 the command line or a tree is refused, or a tree does not exist:
standard error says why, and nothing is written; 3 a read or a write failed; 130 interrupted.
"""

import argparse
import binascii
import hashlib
import io
from collections.abc import Iterator
from typing import BinaryIO

from llbm_tools import inputs, objects
from llbm_tools.command_line import Parser
from llbm_tools.streams import exit_status, write_output
from llbm_tools.trees.source_texts import Reading, text_at
from llbm_tools.trees.trees import Entry, checked_at, owner_word, path_of

EQUAL, DIFFERENT = 0, 1

Traits = dict[str, str]


def entries_of(place: str, text: BinaryIO) -> Iterator[Entry]:
    """Yields the entries of the text of the tree at a place."""
    for _, entry in checked_at(inputs.shown(place), text):
        yield entry


def pairs_of(first: Iterator[Entry], second: Iterator[Entry]) -> Iterator[tuple[Entry | None, Entry | None]]:
    """Yields the entries of both trees at each path, in path order."""
    one, two = next(first, None), next(second, None)
    while one or two:
        if two is None or one and one.names < two.names:
            yield one, None
            one = next(first, None)
        elif one is None or two.names < one.names:
            yield None, two
            two = next(second, None)
        else:
            yield one, two
            one, two = next(first, None), next(second, None)


def contents_of(entry: Entry) -> str:
    """Returns the size and the digest of a file."""
    if entry.content is None:
        return "none"
    content = binascii.unhexlify(entry.content)
    return f"{len(content)} sha256:{hashlib.sha256(content).hexdigest()}"


def traits_of(entry: Entry) -> Traits:
    """Returns the properties of an entry that are printed."""
    return {
        "kind": "directory" if entry.content is None else "file",
        "mode": f"{entry.mode:04o}",
        "owner": f"{entry.user}:{entry.group}",
        "contents": contents_of(entry),
    }


def whole(entry: Entry) -> str:
    """Describes an entry that only one tree has."""
    traits = traits_of(entry)
    kind = traits.pop("kind")
    if entry.content is None:
        traits.pop("contents")
    return " ".join([kind, *(f"{name} {trait}" for name, trait in traits.items())])


def changes(one: Entry, two: Entry) -> str:
    """Describes the properties in which two entries with one path differ."""
    before, after = traits_of(one), traits_of(two)
    return " ".join(f"{name} {before[name]} -> {after[name]}" for name in before if before[name] != after[name])


def difference(one: Entry | None, two: Entry | None) -> str:
    """Returns the line for a path without the path, or an empty text if both entries are equal."""
    if one == two:
        return ""
    if one and two:
        return f"changed {changes(one, two)}"
    return f"removed {whole(one)}" if one else f"added {whole(two)}" if two else ""


def difference_lines(first: Iterator[Entry], second: Iterator[Entry]) -> Iterator[bytes]:
    """Yields the line of each path at which two trees differ, in path order."""
    for one, two in pairs_of(first, second):
        text, shown = difference(one, two), one or two
        if text and shown:
            yield text.encode() + b" " + path_of(shown.names) + b"\n"


def difference_objects(first: Iterator[Entry], second: Iterator[Entry]) -> Iterator[dict[str, object]]:
    """Yields the object of each path at which two trees differ, in path order."""
    for one, two in pairs_of(first, second):
        shown = one or two
        if one != two and shown:
            path = path_of(shown.names).decode("utf-8", "surrogateescape")
            before, after = (traits_of(entry) if entry else None for entry in (one, two))
            yield {"path": path, "change": change_of(before, after), "before": before, "after": after}


def change_of(before: Traits | None, after: Traits | None) -> str:
    """Returns the word for what became of a path."""
    return "added" if before is None else "removed" if after is None else "changed"


def members_of(found: list[dict[str, object]]) -> dict[str, object]:
    """Returns the members of the object of all differences."""
    words = [one["change"] for one in found]
    return {"differences": found, **{word: words.count(word) for word in ("removed", "added", "changed")}}


def compare(options: argparse.Namespace) -> int:
    """Prints all differences, and returns the exit status."""
    inputs.check_inputs(options.first, options.second)
    lines, reading = io.BytesIO(), Reading(options.owner, options.strict, quiet=True)
    with text_at(options.first, reading) as first, text_at(options.second, reading) as second:
        both = entries_of(options.first, first), entries_of(options.second, second)
        if options.json:
            found = list(difference_objects(*both))
        else:
            lines.writelines(difference_lines(*both))
    if options.json:
        objects.write(members_of(found))
        return DIFFERENT if found else EQUAL
    different = lines.tell() > 0
    write_output(lines, "the differences")
    return DIFFERENT if different else EQUAL


def parse_options() -> argparse.Namespace:
    """Parses the command line."""
    parser = Parser(description="Prints the differences between two trees.")
    parser.add_argument("first", metavar="FIRST", help="a text of a tree, a directory or an archive")
    parser.add_argument("second", metavar="SECOND", help="the same; at most one of them is -, standard input")
    parser.add_argument(
        "--owner", metavar="UID:GID", type=owner_word, help="the owner of every entry of a directory or an archive"
    )
    parser.add_argument("--strict", action="store_true", help="refuse a tree if something is left out")
    parser.add_argument("--json", action="store_true", help="print one object")
    return parser.parse_args()


def main() -> int:
    """Runs the tool, and returns its exit status."""
    options = parse_options()
    return exit_status(lambda: compare(options))
