"""Measures builds that are repeated with `--replace --keep`, beside `git status` on the same files, for `measure`.

The definition copies a local source, whose files are a hundred to a directory, into the result. All is below one
folder, with the repository of git beside the files and not among them; TMPDIR decides on which file system that is.
"""

import os
import pathlib
import subprocess
from collections.abc import Callable, Iterator

from llbm_tools.commands import line_of
from llbm_tools.common import say

FILES = 100_000
FILES_OF_DIRECTORY = 100
DEFINITION = "source 1"
NOTHING, ONE_FILE = "nothing", "the content of one file"
HEAD = ("What has changed", "Clock: build", "`git status`", "Ratio", "Processor: build", "`git status`", "Ratio")

# The seconds of a run on the clock and of the processor, and its megabytes.
Cost = tuple[float, float, float]
# Runs a command with a file as its standard input, and returns its cost.
Run = Callable[[list[str], pathlib.Path], Cost]


def make_files(tree: pathlib.Path, count: int) -> None:
    """Makes a directory with this many small files."""
    for number in range(count):
        if number % FILES_OF_DIRECTORY == 0:
            folder = tree / f"d{number // FILES_OF_DIRECTORY:04}"
            folder.mkdir(parents=True)
        (folder / f"f{number % FILES_OF_DIRECTORY:02}").write_text(f"content {number}\n", "utf-8")


class Trial:
    """Files, the repository that has them, and the result of a build of them, below a folder."""

    def __init__(self, folder: pathlib.Path, llbm: str, definition: pathlib.Path, count: int) -> None:
        self.tree = folder / "tree"
        make_files(self.tree, count)
        # The user's settings of git, as hooks and signatures, have no part in it.
        self.git = ["git", "-c", "gc.auto=0", "-C", str(self.tree), f"--git-dir={folder / 'git'}", "--work-tree=."]
        options = ["--llbm", llbm, "--replace", "--keep", str(folder / "kept")]
        self.build = line_of("build", *options, str(definition), str(folder / "result"), f"p={self.tree}")
        self.count = 0
        self.call(["git", "init", "--quiet", "--bare", str(folder / "git")])
        self.call([*self.git, "config", "core.bare", "false"])
        for command in (self.add(), self.build, self.build):
            self.call(command)

    def call(self, command: list[str]) -> None:
        """Runs a command that has to end well."""
        known = {**os.environ, "GIT_CONFIG_NOSYSTEM": "1", "GIT_CONFIG_GLOBAL": os.devnull}
        subprocess.run(command, env=known, stdin=subprocess.DEVNULL, stderr=subprocess.DEVNULL, check=True)

    def add(self) -> list[str]:
        """Returns the command that makes git's index fresh."""
        return [*self.git, "add", "--all", "."]

    def change(self) -> None:
        """Writes another content into a file."""
        self.count += 1
        (self.tree / "d0000" / "f00").write_text(f"changed {self.count}\n", "utf-8")

    def costs(self, what: str, runs: int, run: Run) -> tuple[list[Cost], list[Cost]]:
        """Returns what the builds cost, and what git costs; they run in turn."""
        builds, others = [], []
        for _ in range(runs):
            if what == ONE_FILE:
                self.change()
            others.append(run([*self.git, "status", "--porcelain"], pathlib.Path(os.devnull)))
            builds.append(run(self.build, pathlib.Path(os.devnull)))
            self.call(self.add())
        return builds, others


def cells_of(builds: list[Cost], others: list[Cost]) -> Iterator[str]:
    """Yields the cells of a row: the least of each, on the clock and of the processor, and the ratios of these."""
    for column in (0, 1):
        build, other = (min(cost[column] for cost in costs) for costs in (builds, others))
        yield from (f"{build:.3f} s", f"{other:.3f} s", f"{build / max(other, 0.001):.1f}")


def rows_of(folder: pathlib.Path, llbm: str, definition: pathlib.Path, part: int, runs: int, run: Run) -> list[str]:
    """Returns the rows of a table: what a repeated build costs beside `git status`."""
    say("making files")
    trial = Trial(folder, llbm, definition, max(1, FILES // part))
    rows: list[tuple[str, ...]] = [HEAD, ("---",) * len(HEAD)]
    for what in (NOTHING, ONE_FILE):
        say(f"measuring {what}")
        rows.append((what, *cells_of(*trial.costs(what, runs, run))))
    return ["| " + " | ".join(row) + " |" for row in rows]
