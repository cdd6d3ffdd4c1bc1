"""Writes the tree text of a tar archive to standard output.

In: the archive that the command line names, or standard input; plain, or packed by gzip, bzip2, xz or zstd (by the
program `zstd` if this Python cannot). Empty parts and `.` in an entry's path are dropped, so that `a`, `./a` and `/a`
are the same; of several entries with one path the last one is used. A hard link is a file with the content, the mode
and the owner of the entry that its target's path has at that point of the archive. A directory without an entry is 0755
0:0, also the root. Times, user names and holes are not in the text. With --owner every entry gets that owner.

Out: a line for each entry in path order, `d MODE UID GID PATH` or `f MODE UID GID CONTENT PATH`, once the whole archive
is read. What cannot be in a tree is named on standard error and left out with everything below it: symbolic links,
hard links to no entry, devices, pipes, entries of other kinds, paths with `..` or with a name that is not UTF-8 or
contains a control character, paths of more than 128 names, and owners of 2^32 and more. Extended attributes are named,
and their entries are written without them. An incremental archive of GNU tar lists what is in a directory; what has no
entry, since an earlier archive has it, is named too. The last line there counts what was left out by cause, or is `left
out: nothing`. There is a warning for a text of more than 67,108,864 bytes, which the program refuses. With --links a
symbolic link is taken: a file of mode 0777 whose content is the byte 255, `-> ` and the target; a file whose content
begins so and that is no link is refused.

Exit status: 0 the text is written; 2 the command line or the archive is refused, or the archive does not exist, or,
with --strict, something was left out: standard error says why, and nothing is written; 3 a read or a write failed; 130
interrupted.
"""

import argparse
from typing import BinaryIO

from llbm_tools.command_line import Parser
from llbm_tools.images import archives, packing
from llbm_tools.images.archive_entries import entries_of
from llbm_tools.inputs import named, opened
from llbm_tools.streams import exit_status, temporary_file
from llbm_tools.trees import archive_texts
from llbm_tools.trees.trees import owner_word


def write_text(given: BinaryIO, options: argparse.Namespace) -> None:
    """Writes the text of an archive."""
    with temporary_file("the archive") as first, temporary_file("the archive") as second:
        archive = archives.open_archive(packing.open_unpacked(given, first, second))
        archive_texts.write_text(entries_of(archive), options.owner, options.strict, options.links)


def read_archive(options: argparse.Namespace) -> None:
    """Reads the archive that the command line names, and writes its text."""
    with named(options.archive), opened(options.archive) as file:
        write_text(file, options)


def parse_options() -> argparse.Namespace:
    """Parses the command line."""
    parser = Parser(description="Writes the tree text of a tar archive to standard output.")
    parser.add_argument("archive", metavar="ARCHIVE", nargs="?", help="the archive (default: standard input)")
    parser.add_argument("--owner", metavar="UID:GID", type=owner_word, help="the owner of every entry")
    parser.add_argument("--links", action="store_true", help="take symbolic links")
    parser.add_argument("--strict", action="store_true", help="refuse an archive if something is left out")
    return parser.parse_args()


def main() -> int:
    """Runs the tool, and returns its exit status."""
    options = parse_options()
    return exit_status(lambda: read_archive(options))
