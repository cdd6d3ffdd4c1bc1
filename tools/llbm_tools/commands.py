"""The commands of the two doors in one table: `llbm-tools` is the users' door, `dev/dev` that of the maintainers.

Each command has its words, the module whose `main` it starts, and a line of help; and, for one release, the name that
its file in tools/ has. `llbm-tools --help` prints the users' table, and an installation has a link for each row of it.
"""

import os
import shutil
import sys
from typing import NamedTuple

from llbm_tools import paths

USERS_DOOR, MAINTAINERS_DOOR, LINK = "llbm-tools", "dev/dev", "llbm-"


class Command(NamedTuple):
    """A command: its words, its module without the package of all, what it does, and its name in tools/."""

    words: str
    module: str
    about: str
    old: str

    def is_here(self) -> bool:
        """Returns whether the command's module is here; installations leave out what needs the sources."""
        return (paths.TOOLS / "llbm_tools" / f"{self.module.replace('.', '/')}.py").is_file()

    def link(self) -> str:
        """Returns the name that an installation has for the command."""
        return LINK + self.words.replace(" ", "-")


USERS = {
    "Build and run a definition": [
        Command("build", "building.build", "write the result as a directory, an archive or an image", "build"),
        Command("run", "running.run", "run the program llbm, and explain what it refuses", "run"),
        Command("check", "running.check", "run a folder of cases, each with the result that it has to have", "check"),
    ],
    "Look at a definition": [
        Command("lint", "definitions.lint", "print all that is refused in it, and what has no effect", "lint"),
        Command("adopt", "definitions.adopt", "change one of another frontend into one that llbm takes", "adopt"),
        Command("impact", "definitions.impact", "print which vertices an edit of it, or of a tree, changes", "impact"),
        Command("show json", "definitions.json_of_show", "write its graph as JSON", "json-of-show"),
        Command("show dot", "definitions.graph_of_show", "write its graph as a picture for Graphviz", "graph-of-show"),
        Command("show dump", "definitions.dump", "write its messages with all their fields", "dump"),
    ],
    "Understand a run": [
        Command("explain", "definitions.explain", "say what a line of llbm means, and what to do about it", "explain"),
        Command("explain run", "running.explain_run", "print what each step of a run changes", "explain-run"),
        Command("explain buildkit", "running.as_buildkit", "print where BuildKit ends otherwise", "as-buildkit"),
        Command("debug", "debugging.debug", "step through a run, forwards and back, at a prompt", "debug"),
        Command("debug adapter", "debugging.debug_adapter", "let an editor step through a run", "debug-adapter"),
        Command("page", "page.page", "open a run in a browser", "page"),
        Command("record json", "sessions.json_of_record", "write the lines of a session as JSON", "json-of-record"),
        Command("record trace", "sessions.trace_of_record", "write a record for viewers of traces", "trace-of-record"),
    ],
    "Make and compare trees": [
        Command("tree from directory", "trees.tree_of_directory", "write a directory as a text", "tree-of-directory"),
        Command("tree from tar", "trees.tree_of_tar", "write an archive as a text", "tree-of-tar"),
        Command("tree from image", "trees.tree_of_image", "write an image, or any tree, as a text", "tree-of-image"),
        Command("tree to directory", "trees.directory_of_tree", "make a directory of a text", "directory-of-tree"),
        Command("tree to tar", "trees.tar_of_tree", "make an archive of a text", "tar-of-tree"),
        Command("diff", "trees.diff_of_trees", "print in which paths two trees differ", "diff-of-trees"),
    ],
    "Call it from your own program": [
        Command("library", "compiling.library", "make the library for C, Go, Rust and Python", "library"),
    ],
}  # fmt: skip

MAINTAINERS = {
    "Test all": [
        Command("gate", "repository.gate", "run all tests of the repository, as ./gate does", "gate"),
    ],
    "Test a part": [
        Command("test", "repository.test", "test the tools", "test"),
        Command("transcripts", "repository.transcripts", "run the commands of pages and of tests/", "transcripts"),
        Command("fuzz", "fuzzing.fuzz", "run the program on random inputs", "fuzz"),
        Command("refuse", "repository.refuse", "run tests with memory and threads that fail on demand", "refuse"),
        Command("bindings", "compiling.bindings", "try the bindings of the library", "bindings"),
        Command("daemon tests", "daemon.daemon_tests", "build the daemon, and test it", "daemon-tests"),
        Command("daemon suite", "daemon.daemon_suite", "run BuildKit's own tests against the daemon", "daemon-suite"),
        Command("against-buildkit", "daemon.against_buildkit", "compare BuildKit's daemon with llbm",
                "against-buildkit"),
        Command("page tests", "page.page_tests", "test the page in Node and in a browser", "page-tests"),
    ],
    "Check the sources": [
        Command("style", "repository.style", "check types and style", "style"),
        Command("lines", "repository.long_lines", "print lines and files that are too long", "lines"),
        Command("claims", "repository.claims", "print or check the tables of docs/CLAIMS.md", "claims"),
        Command("proved", "repository.proved", "print the public calls of a crate, with their clauses", "proved"),
        Command("floors", "repository.floors", "check on which crates each crate is built", "floors"),
        Command("plants", "repository.plants", "try wrong bodies on the contracts of a crate", "plants"),
    ],
    "Make programs": [
        Command("unproved-program", "compiling.unproved_program", "compile the program without proof",
                "unproved-program"),
        Command("daemon", "daemon.daemon", "build the daemon, and the program with BuildKit's rules", "daemon"),
        Command("wasm", "page.wasm", "make the page and its module", "wasm"),
        Command("install", "installing.install", "install program, tools and pages below a folder", "install"),
        Command("dist", "installing.dist", "pack an installation as an archive", "dist"),
    ],
    "Measure": [
        Command("measure", "measuring.measure", "measure pairs of commands", "measure"),
        Command("measure daemons", "measuring.measure_daemons", "measure both daemons", "measure-daemons"),
        Command("minutes", "repository.minutes", "print the processor minutes of each crate's proof", "minutes"),
        Command("large definition", "measuring.large_definition", "write a large definition", "bigdef"),
        Command("large tree", "measuring.large_tree", "write the text of a large tree", "bigtree"),
    ],
}  # fmt: skip

# By what this process was started: the path of a door, or of a link of an installation, or nothing.
started_as = ""


def of_users() -> list[Command]:
    """Returns the users' commands."""
    return [command for commands in USERS.values() for command in commands]


def of_maintainers() -> list[Command]:
    """Returns the maintainers' commands."""
    return [command for commands in MAINTAINERS.values() for command in commands]


def of_all() -> list[Command]:
    """Returns the commands of both doors."""
    return [*of_users(), *of_maintainers()]


def old_name(name: str) -> Command | None:
    """Returns the command whose file in tools/ has this name, if there is one."""
    return next((one for one in of_all() if one.old == name), None)


def door_of(command: Command) -> str:
    """Returns the name of the door at which a command is."""
    return USERS_DOOR if command in of_users() else MAINTAINERS_DOOR


def line_of(name: str, *words: str) -> list[str]:
    """Returns the words that start a command of either door; one that neither has goes to the maintainers' door."""
    is_users = any(one.words == name for one in of_users())
    door = paths.ROOT / (USERS_DOOR if is_users else MAINTAINERS_DOOR)
    return [sys.executable, str(door), *name.split(" "), *words]


def name_of(called: str) -> str:
    """Returns the name of a command that was called so: that of a file, or that of the maintainers' door with words."""
    return called if called.startswith(MAINTAINERS_DOOR) else os.path.basename(called)


def as_typed(path: str) -> str:
    """Returns a program as a person types it: its name if it is on PATH, else its path from here, or its whole path."""
    name = os.path.basename(path)
    found = shutil.which(name)
    if found and os.path.exists(path) and os.path.samefile(found, path):
        return name
    near = os.path.relpath(path)
    if near.startswith(os.pardir):
        return os.path.abspath(path)
    return near if "/" in near else f"./{near}"


def shown(words: str) -> str:
    """Returns a users' command as a person here types it: by a link of an installation, or else by the users' door."""
    place = started_as or str(paths.ROOT / USERS_DOOR)
    folder, name = os.path.split(place)
    if name.startswith(LINK) and name != USERS_DOOR:
        return as_typed(os.path.join(folder, LINK + words.replace(" ", "-")))
    return f"{as_typed(place if name == USERS_DOOR else str(paths.ROOT / USERS_DOOR))} {words}"
