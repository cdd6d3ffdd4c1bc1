"""Finds lines in the repository that have more than 160 columns.

In: the files that `git ls-files` lists in the repository around this folder, or around --repository DIRECTORY, as they
are in the working tree. It skips files that are not UTF-8 text, and crates.txt.

Out: on standard output `PATH:LINE: N columns` for each line that is too long; a column is a character.

Exit status: 0 there is none; 1 there is one; 2 the command line is refused, or there is no repository; 3 a read or a
write failed.
"""

import argparse
import os
import pathlib
import subprocess
import sys
from collections.abc import Iterator

from llbm_tools.command_line import Parser
from llbm_tools.common import check_open
from llbm_tools.paths import ROOT
from llbm_tools.streams import Refused, exit_status

MOST_COLUMNS = 160
PASSED_OVER = "crates.txt"


def files_in(repository: pathlib.Path) -> Iterator[str]:
    """Yields the paths of the repository's files that are checked."""
    try:
        listed = subprocess.run(
            ["git", "-C", repository, "ls-files", "-z"], stdout=subprocess.PIPE, check=True
        ).stdout
    except (OSError, subprocess.CalledProcessError) as fault:
        raise Refused(f"the files of {repository} cannot be listed: {fault}") from fault
    for path in map(os.fsdecode, listed.split(b"\0")):
        if path and path != PASSED_OVER:
            yield path


def long_lines(file: pathlib.Path) -> list[tuple[int, int]]:
    """Returns the number and the columns of each line that is too long; none if the file is not text."""
    try:
        lines = file.read_bytes().decode("utf-8").split("\n")
    except UnicodeDecodeError:
        return []
    return [(number, len(line)) for number, line in enumerate(lines, 1) if len(line) > MOST_COLUMNS]


def check_files(repository: pathlib.Path) -> int:
    """Prints the lines that are too long, and returns the exit status."""
    check_open(sys.stdout, "standard output")
    status = 0
    for path in files_in(repository):
        if not (repository / path).is_file():
            continue
        for number, columns in long_lines(repository / path):
            print(f"{path}:{number}: {columns} columns")
            status = 1
    sys.stdout.flush()
    return status


def parse_options() -> argparse.Namespace:
    """Parses the command line."""
    parser = Parser(
        description="Finds the lines of the repository that have more than 160 columns."
    )
    parser.add_argument(
        "--repository", metavar="DIRECTORY", type=pathlib.Path, default=ROOT, help="default: that of this folder"
    )
    return parser.parse_args()


def main() -> int:
    """Runs the tool, and returns its exit status."""
    repository = parse_options().repository
    return exit_status(lambda: check_files(repository))
