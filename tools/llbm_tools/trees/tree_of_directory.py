"""Writes the tree text of a directory to standard output.

In: the directory that the command line names. A file with two names is written as two files; times and holes are not in
the text. With --owner every entry gets that owner.

Out: a line for each entry in path order, `d MODE UID GID PATH` or `f MODE UID GID CONTENT PATH`, the first of them for
the directory itself as `/`. What cannot be in a tree is named on standard error and left out with everything below it:
symbolic links, devices, pipes, sockets, names that are not UTF-8 or contain a control character, paths of more than 128
names, and the output file itself. Extended attributes are named, and their entries are written without them; only the
label `security.selinux` is passed over, which a system puts on every file. The last line there counts what was left out
by cause, or is `left out: nothing`. There is a warning for a text of more than 67,108,864 bytes, which the program
refuses. With --strict the text is written only once all of the directory is read and nothing was left out. With --links
symbolic links are taken, as `tree from tar` takes them.

Exit status: 0 the text is written; 1 something could not be read: it is named on standard error, and left out with
everything below it; with --strict nothing is written; 2 the command line or the directory is refused, or, with
--strict, something was left out; 3 the text could not be written, or a file failed after its first bytes, and the text
ends in the middle of its line; 130 interrupted.
"""

import argparse
import os
import sys
from typing import BinaryIO

from llbm_tools.command_line import Parser
from llbm_tools.streams import Failed, Refused, exit_status, temporary_file, write_output
from llbm_tools.trees import links
from llbm_tools.trees.directory_texts import DirectoryText, Values
from llbm_tools.trees.trees import owner_word, warn_of_length


def parse_options() -> argparse.Namespace:
    """Parses the command line."""
    parser = Parser(description="Writes the tree text of a directory to standard output.")
    parser.add_argument("directory", metavar="DIRECTORY", help="the directory")
    parser.add_argument("--owner", metavar="UID:GID", type=owner_word, help="the owner of every entry")
    parser.add_argument("--links", action="store_true", help="take symbolic links")
    parser.add_argument("--strict", action="store_true", help="refuse a directory if something is left out")
    return parser.parse_args()


def walked(options: argparse.Namespace, output: BinaryIO) -> DirectoryText:
    """Writes the text to a file, and returns what was found on the way."""
    values = Values(output, None)
    contents = links.content_of if options.links else None
    walk = DirectoryText(values, owner=options.owner, itself=os.fstat(sys.stdout.fileno()), contents=contents)
    walk.walk(options.directory)
    try:
        output.flush()
    except BrokenPipeError:
        raise
    except OSError as fault:
        raise Failed(f"the text could not be written: {fault.strerror}") from fault
    walk.left_out.print_counts()
    warn_of_length(values.count)
    return walk


def write_strict(options: argparse.Namespace) -> int:
    """Writes the text if all of the directory is in it, and returns the exit status."""
    with temporary_file("the text") as stored:
        walk = walked(options, stored)
        if walk.left_out.counts:
            raise Refused("refused: something was left out")
        if walk.is_whole:
            write_output(stored, "the text")
    return int(not walk.is_whole)


def write_text(options: argparse.Namespace) -> int:
    """Writes the text, and returns the exit status."""
    if sys.stdout is None:
        raise Failed("the text could not be written: standard output is closed")
    if options.strict:
        return write_strict(options)
    return int(not walked(options, sys.stdout.buffer).is_whole)


def main() -> int:
    """Runs the tool, and returns its exit status."""
    options = parse_options()
    return exit_status(lambda: write_text(options))
