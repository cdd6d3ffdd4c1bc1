"""Installs the program, the tools, the pages, completions for shells and a page of the manual below a folder.

In: PREFIX, the folder; the repository; and the program, which is --llbm PROGRAM, or else crates/llbm/out/llbm of the
repository, or else its out/llbm-unproved.

Out: PREFIX/bin has the program and a command for each tool, `llbm-build`, `llbm-lint` and so on, and, if dev/dev daemon
has built them, llbm-rules, which has BuildKit's rules for these, and the daemon llbmd; PREFIX/lib/llbm has what they
need, with the pages and examples, the page in a browser if dev/dev wasm has made it, and in
`tools/llbm_tools/debugging` the extension for editors; PREFIX/share has completions for bash, zsh and fish, and pages
of the manual. If llbm-tools library has made a library, the proved one or else the other is in PREFIX/lib, with its
header in PREFIX/include, `lib/pkgconfig/llbm.pc`, which says whether it is proved, and the bindings in lib/llbm.
PREFIX/lib/llbm/program says whether the program is proved: only one on which `./gate` passed is.
PREFIX/lib/llbm/installed lists all files. Nothing is written outside PREFIX. Files of an earlier installation are
replaced; any other file that is in the way is refused before anything is written. --dry-run prints the paths, and
writes nothing. --uninstall removes the files that are listed, and then the folders that are empty.

Exit status: 0 it is done; 2 the command line is refused, there is no program, or a file is in the way; 3 a read or a
write failed.
"""

import argparse
import contextlib
import os
import pathlib
import shutil
import sys

from llbm_tools import common, os_errors, streams
from llbm_tools.command_line import Parser
from llbm_tools.installing import installation
from llbm_tools.installing.installation import Item, NotInstalled


def listed(prefix: pathlib.Path) -> list[str]:
    """Returns the paths of the installation that is there, or none; a path that leads out of PREFIX is refused."""
    try:
        paths = (prefix / installation.LISTED).read_text("utf-8").splitlines()
    except FileNotFoundError:
        return []
    for path in paths:
        if path.startswith("/") or ".." in path.split("/"):
            raise NotInstalled(f"not below {prefix}: {path}, in {prefix / installation.LISTED}")
    return paths


def check_free(prefix: pathlib.Path, items: list[Item], before: set[str]) -> None:
    """Refuses files that are in the way and that no installation has listed."""
    for item in items:
        if item.path not in before and os.path.lexists(prefix / item.path):
            raise NotInstalled(f"this is in the way: {prefix / item.path}")


def write(place: pathlib.Path, item: Item) -> None:
    """Writes one item, in place of what is there."""
    place.parent.mkdir(parents=True, exist_ok=True)
    new = place.with_name(f".{place.name}.new")
    new.unlink(missing_ok=True)
    if item.link:
        os.symlink(item.link, new)
    else:
        new.write_bytes(item.content)
        os.chmod(new, item.mode)
    os.replace(new, place)


def remove(prefix: pathlib.Path, paths: list[str]) -> None:
    """Removes these files, what Python keeps beside them, and the folders of them that are then empty."""
    for path in paths:
        (prefix / path).unlink(missing_ok=True)
    folders = {parent for path in paths for parent in pathlib.PurePosixPath(path).parents if str(parent) != "."}
    for folder in sorted(folders, key=lambda folder: len(folder.parts), reverse=True):
        if not any((prefix / folder).glob("*.py")):
            shutil.rmtree(prefix / folder / "__pycache__", ignore_errors=True)
        with contextlib.suppress(OSError):
            (prefix / folder).rmdir()


def install(options: argparse.Namespace) -> None:
    """Writes all files, or prints their paths."""
    program = installation.program_at(common.program_named(options.llbm))
    items = installation.items_of(program)
    before = listed(options.prefix)
    check_free(options.prefix, items, set(before))
    for item in items:
        if options.dry_run:
            print(options.prefix / item.path)
        else:
            write(options.prefix / item.path, item)
    if not options.dry_run:
        remove(options.prefix, sorted({*before} - {item.path for item in items}))
        kind = "proved" if program.is_proved else "not proved"
        print(f"{len(items)} files are in {options.prefix}; the program is {kind}")


def uninstall(options: argparse.Namespace) -> None:
    """Removes the files that are listed, or prints their paths."""
    paths = listed(options.prefix)
    if not paths:
        raise NotInstalled(f"there is no installation: {options.prefix / installation.LISTED}")
    if options.dry_run:
        print("\n".join(str(options.prefix / path) for path in paths))
    else:
        remove(options.prefix, paths)


def parse_options() -> argparse.Namespace:
    """Parses the command line."""
    parser = Parser(description="Installs the program and its tools below a folder.")
    parser.add_argument("--llbm", metavar="PROGRAM", help="the program llbm")
    parser.add_argument("--dry-run", action="store_true", help="print the paths, and write nothing")
    parser.add_argument("--uninstall", action="store_true", help="remove what is installed")
    parser.add_argument("prefix", metavar="PREFIX", type=pathlib.Path, help="the folder, as /usr/local")
    return parser.parse_args()


def main() -> int:
    """Runs the tool, and returns its exit status."""
    options = parse_options()
    try:
        common.check_open(sys.stdout, "standard output")
        (uninstall if options.uninstall else install)(options)
        sys.stdout.flush()
    except BrokenPipeError:
        common.discard_output()
        return streams.FAILED
    except NotInstalled as fault:
        common.say(str(fault))
        return 2
    except OSError as fault:
        common.say(os_errors.os_error_text(fault))
        common.discard_output()
        return streams.status_of(fault)
    return 0
