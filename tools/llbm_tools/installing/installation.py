"""What an installation has: the program, the tools, the pages, the examples, completions and a page of the manual; and
what has been built: the programs llbm-rules and llbmd, the page, and the library for C with the bindings.

`lib/llbm` is like the repository: it has `tools`, `docs` and `examples`, so that the tools find what they read. The
tools' commands in `bin` are links into it. `share` has what shells and `man` look for.
"""

import hashlib
import pathlib
import re
import shutil
import stat
import subprocess
from collections.abc import Iterator
from typing import NamedTuple

from llbm_tools import commands, common, paths
from llbm_tools.commands import Command
from llbm_tools.compiling import library_files
from llbm_tools.installing import editor_extension, tool_pages, tool_parsers
from llbm_tools.os_errors import in_words
from llbm_tools.running import command_words
from llbm_tools.streams import why_not

# The packages that need the sources, or make or test what is installed; no command of an installation imports them.
MAINTENANCE = {"compiling", "daemon", "fuzzing", "installing", "measuring", "repository"}
LIBRARY = "lib/llbm"
PACKAGES = "llbm_tools"
PAGES = ("README.md", "CHANGELOG.md")
PACKAGE = "tools/llbm_tools/debugging/package.json"
EXAMPLES = (
    "*.definition", "*.text", "*.tree", "*.commands", "*.answers", "*.llb", "*.rules", "launch.json", "nvim-dap.lua",
    "dape.el",
)
HEADER = paths.ROOT / "bindings" / "llbm.h"
# What tests or measures the bindings: these parts of paths, and these names of files.
OF_TESTS = {"target", "tests", "show"}
TESTS = ("*_test.go", "test_*.py", "misuse.c")
# What `pkg-config` reads of the library; the folder may be moved.
PACKAGE_OF_LIBRARY = """prefix=${{pcfiledir}}/../..
Name: llbm
Description: {version}
Version: {number}
Libs: -L${{prefix}}/lib -lllbm
Cflags: -I${{prefix}}/include
"""
RECEIPT = paths.ROOT / "out" / "gate-passed"
STATE = f"{LIBRARY}/program"
LISTED = f"{LIBRARY}/{paths.INSTALLED.name}"

VERSION = re.compile(r"^llbm (([\w.]+), .*)$", re.M)


class NotInstalled(Exception):
    """There is no program, or something that is needed is missing."""


class Item(NamedTuple):
    """A file of an installation, by its path below PREFIX: its content and mode, or what it links to."""

    path: str
    content: bytes = b""
    mode: int = 0o644
    link: str = ""


class Program(NamedTuple):
    """A program: its bytes, its version, and whether the gate left it."""

    content: bytes
    version: str
    is_proved: bool

    def number(self) -> str:
        """Returns the number of the version."""
        return self.version.partition(",")[0]

    def state(self) -> str:
        """Returns the lines that say what the program is."""
        proved = "left by ./gate, which passed" if self.is_proved else "not proved, or not known to be"
        return f"llbm {self.version}\nproof: {proved}\nsha256: {digest(self.content)}\n"


def digest(content: bytes) -> str:
    """Returns the SHA-256 of a content, in hexadecimal."""
    return hashlib.sha256(content).hexdigest()


def receipt_of(program: bytes) -> str:
    """Returns what the gate writes when it passed on a program."""
    return f"{digest(program)}  llbm\n{common.PROVER}\n"


def program_at(place: str) -> Program:
    """Returns the program in a file; it is proved only if the gate has passed on these bytes."""
    cause = why_not(place)
    if cause:
        raise NotInstalled(f"{cause}: {place}; dev/dev unproved-program makes a program")
    try:
        content = pathlib.Path(shutil.which(place) or place).read_bytes()
        said = subprocess.run([place, "--version"], stdin=subprocess.DEVNULL, capture_output=True, text=True).stderr
    except OSError as fault:
        raise NotInstalled(f"{in_words(fault)}: {place}; dev/dev unproved-program makes a program") from fault
    found = VERSION.search(said)
    if not found:
        raise NotInstalled(f"this is not the program llbm: {place}")
    passed = RECEIPT.is_file() and RECEIPT.read_text("utf-8") == receipt_of(content)
    return Program(content, found[1], passed and common.NOT_PROVED not in found[1])


def file_item(path: str, place: pathlib.Path) -> Item:
    """Returns a file of the repository as an item; it can be run if its owner can run it."""
    return Item(path, place.read_bytes(), 0o755 if place.stat().st_mode & stat.S_IXUSR else 0o644)


def files_below(place: pathlib.Path) -> Iterator[pathlib.Path]:
    """Yields the files below a folder in order, without what Python and other programs keep there."""
    for file in sorted(place.rglob("*")):
        is_left_out = any(part == "__pycache__" or part.startswith(".") for part in file.relative_to(place).parts)
        if file.is_file() and not is_left_out:
            yield file


def program_items() -> Iterator[Item]:
    """Yields the program with BuildKit's rules, which the tools find beside llbm, and the daemon, if they are built."""
    for place in (paths.RULES, paths.DAEMON):
        if place.is_file():
            yield Item(f"bin/{place.name}", place.read_bytes(), 0o755)


def built_items() -> Iterator[Item]:
    """Yields the page in a browser, if it is built."""
    for file in files_below(paths.PAGE):
        yield file_item(f"{LIBRARY}/page/{file.relative_to(paths.PAGE)}", file)


def library_items() -> Iterator[Item]:
    """Yields the library for C, if one is built, with its header, what `pkg-config` reads, and the bindings."""
    archive = next((place for place in paths.LIBRARIES if place.is_file()), None)
    if archive is None:
        return
    version = library_files.version_of(paths.ROOT, is_proved=archive == paths.LIBRARIES[0])
    number = version.split()[1].removesuffix(",")
    yield Item("lib/libllbm.a", archive.read_bytes())
    shared = archive.with_suffix(library_files.SHARED)
    if shared.is_file():
        yield Item("lib/libllbm.so", shared.read_bytes(), 0o755)
    yield Item("lib/pkgconfig/llbm.pc", PACKAGE_OF_LIBRARY.format(version=version, number=number).encode())
    yield file_item(f"include/{HEADER.name}", HEADER)
    for file in files_below(HEADER.parent):
        path = file.relative_to(HEADER.parent)
        if not OF_TESTS & {*path.parts} and not any(path.match(name) for name in TESTS):
            yield file_item(f"{LIBRARY}/bindings/{path}", file)


def tool_items() -> Iterator[Item]:
    """Yields the users' door with its modules, and a link for each of its commands, also by its old name."""
    door = paths.ROOT / commands.USERS_DOOR
    yield file_item(f"{LIBRARY}/{door.name}", door)
    for file in files_below(paths.TOOLS / PACKAGES):
        path = file.relative_to(paths.TOOLS)
        if path.parts[1] not in MAINTENANCE:
            yield file_item(f"{LIBRARY}/tools/{path}", file)
    known = installed_commands()
    for name in sorted({door.name, *(one.link() for one in known), *(f"{commands.LINK}{one.old}" for one in known)}):
        yield Item(f"bin/{name}", link=f"../{LIBRARY}/{door.name}")


def installed_tables() -> dict[str, list[Command]]:
    """Returns the users' commands that an installation can serve, by task."""
    found = {
        about: [command for command in known if command.module.partition(".")[0] not in MAINTENANCE]
        for about, known in commands.USERS.items()
    }
    return {about: known for about, known in found.items() if known}


def installed_commands() -> list[Command]:
    """Returns the users' commands that an installation can serve."""
    return [command for known in installed_tables().values() for command in known]


def extension_item(version: str, tools: list[Item]) -> Item:
    """Returns the extension for VS Code, which has the tools and the page that explains faults inside of it."""
    files = {item.path.removeprefix(f"{LIBRARY}/"): item.content for item in tools if not item.link}
    page = paths.ROOT / "docs" / "FAULTS.md"
    files[f"docs/{page.name}"] = page.read_bytes()
    package = files[PACKAGE].decode("utf-8")
    return Item(f"{LIBRARY}/llbm.vsix", editor_extension.packed(package, version, files))


def page_items() -> Iterator[Item]:
    """Yields the pages and the examples, which are beside the tools as in the repository."""
    for name in PAGES:
        yield file_item(f"{LIBRARY}/{name}", paths.ROOT / name)
    for page in sorted((paths.ROOT / "docs").glob("*.md")):
        yield file_item(f"{LIBRARY}/docs/{page.name}", page)
    for pattern in EXAMPLES:
        for file in sorted((paths.ROOT / "examples").glob(pattern)):
            yield file_item(f"{LIBRARY}/examples/{file.name}", file)
    yield Item("share/doc/llbm", link=f"../../{LIBRARY}/docs")


def texts_for_shells(command: str, bash: str, zsh: str, fish: str, manual: str) -> Iterator[Item]:
    """Yields the completions and the page of the manual of a command."""
    yield Item(f"share/bash-completion/completions/{command}", bash.encode())
    yield Item(f"share/zsh/site-functions/_{command}", zsh.encode())
    yield Item(f"share/fish/vendor_completions.d/{command}.fish", fish.encode())
    yield Item(f"share/man/man1/{command}.1", manual.encode())


def shell_items(version: str) -> Iterator[Item]:
    """Yields the completions and the pages of the manual: of the program, and of each tool as its parser has it."""
    table = command_words
    yield from texts_for_shells("llbm", table.for_bash(), table.for_zsh(), table.for_fish(), table.manual(version))
    known = installed_commands()
    yield from texts_for_shells(
        commands.USERS_DOOR, tool_pages.door_for_bash(known), tool_pages.door_for_zsh(known),
        tool_pages.door_for_fish(known), tool_pages.door_manual(installed_tables(), version),
    )  # fmt: skip
    for tool in map(tool_parsers.tool_of, known):
        yield from texts_for_shells(
            tool.name, tool_pages.for_bash(tool), tool_pages.for_zsh(tool), tool_pages.for_fish(tool),
            tool_pages.manual(tool, version),
        )  # fmt: skip


def items_of(program: Program) -> list[Item]:
    """Returns the files of an installation in the order of their paths, with the list of them all."""
    tools, version = list(tool_items()), program.number()
    items = [
        Item("bin/llbm", program.content, 0o755), Item(STATE, program.state().encode()), *program_items(), *tools,
        *page_items(), *built_items(), *library_items(), extension_item(version, tools), *shell_items(version),
    ]
    listed = sorted([*(item.path for item in items), LISTED])
    items.append(Item(LISTED, "".join(f"{path}\n" for path in listed).encode()))
    return sorted(items)
