"""Measures the largest graphs that the limits allow, by all commands and several numbers of workers, for `measure`."""

import pathlib
import subprocess
from collections.abc import Callable

from llbm_tools.common import say

# The kinds of `large definition`, with the most that one can have: 65,536 entries, 67,108,864 bytes, 1,024 records.
LARGEST = ("chain {65535}", "pairs {65535}", "fan {65470}", "versions {65535}", "files {16160}", "mounts {1024}")
WORKERS = (1, 2, 4, 8, 16, 32, 64)
TO_THE_END = b"go\n"
# The most bytes of a text that `asm` takes; the text of a definition can have more.
MOST_OF_TEXT = 1 << 26

File = Callable[[str], tuple[str, pathlib.Path]]
Measured = Callable[[list[str], pathlib.Path], str]


def kinds() -> set[str]:
    """Returns the kinds of definitions that are measured."""
    return {definition.partition(" ")[0] for definition in LARGEST}


def commands_of(llbm: str, definition: pathlib.Path, folder: pathlib.Path) -> dict[str, tuple[list[str], pathlib.Path]]:
    """Returns the commands on a definition by their names, each with the file that it reads on standard input."""
    text, session = folder / "text", folder / "session"
    with open(definition, "rb") as given, open(text, "wb") as printed:
        subprocess.run([llbm, "dis"], stdin=given, stdout=printed, check=True)
    session.write_bytes(TO_THE_END)
    found = {"show": ([llbm, "show"], definition), "dis": ([llbm, "dis"], definition), "asm": ([llbm, "asm"], text)}
    found["step, `go`"] = [llbm, "step", str(definition)], session
    for workers in WORKERS:
        found[f"run, {workers}"] = [llbm, "run", "--workers", str(workers)], definition
    return found


def cost(measured: Measured, words: list[str], given: pathlib.Path) -> str:
    """Returns what a command costs, or that its input is over the program's limit."""
    return "over the limit" if given.stat().st_size > MOST_OF_TEXT else measured(words, given)


def table_of(columns: list[list[str]]) -> list[str]:
    """Returns the rows of a table with these columns, the first row of which is its head."""
    head, *rows = ["| " + " | ".join(cells) + " |" for cells in zip(*columns)]
    return [head, "|---" * len(columns) + "|", *rows]


def scale(llbm: str, named: str, folder: pathlib.Path, file: File, measured: Measured) -> list[str]:
    """Returns the rows of a table: for each command on each definition what it costs; `named` picks one definition."""
    columns: list[list[str]] = []
    for definition in LARGEST:
        kind = definition.partition(" ")[0]
        if named not in ("", kind):
            continue
        say(f"measuring {kind}")
        shown, place = file(definition)
        commands = commands_of(llbm, place, folder)
        columns = columns or [["Command", "bytes of the definition", *commands]]
        cells = [cost(measured, words, given) for words, given in commands.values()]
        columns.append([f"`{shown}`", f"{place.stat().st_size:,}", *cells])
    return table_of(columns)
