"""Starts a command by the words that follow a door, by the link of an installation, or by its old name in tools/.

`llbm-tools COMMAND ..`, or `llbm-COMMAND ..` in an installation, starts a users' command, and `dev/dev COMMAND ..` one
of the maintainers. `--help`, `help` and `--version` go to standard output; what can't be read is refused with a usage.
"""

import difflib
import importlib
import os
import sys
from collections.abc import Iterator

from llbm_tools import commands
from llbm_tools.command_line import print_all, version_line
from llbm_tools.commands import Command
from llbm_tools.common import say
from llbm_tools.streams import REFUSED

HELP, VERSION, OLD = ("help", "-h", "--help"), "--version", "--old"


def start(command: Command, called: str, words: list[str]) -> int:
    """Starts a command that was called so, with the words behind it, and returns its exit status."""
    sys.argv = [called, *words]
    status = importlib.import_module(f"llbm_tools.{command.module}").main()
    return int(status or 0)


def found(known: list[Command], words: list[str]) -> tuple[Command, int] | None:
    """Returns the command with which words begin, the longest one, and how many words it has."""
    for count in range(len(words), 0, -1):
        name = " ".join(words[:count])
        for command in known:
            if command.words == name:
                return command, count
    return None


def begun(known: list[Command], words: list[str]) -> list[str]:
    """Returns the words with which some command begins, but none ends."""
    count = 0
    while count < len(words) and any(f"{one.words} ".startswith(" ".join(words[: count + 1]) + " ") for one in known):
        count += 1
    return words[:count]


def help_lines(name: str, tables: dict[str, list[Command]], begin: str) -> Iterator[str]:
    """Yields the lines of the help of a door, or of its commands that begin with a word."""
    yield f"usage: {name} COMMAND [WORD ..]"
    yield f"       {name} COMMAND --help"
    for about, known in tables.items():
        rows = [one for one in known if f"{one.words} ".startswith(begin)]
        if rows:
            yield ""
            yield f"{about}:"
        for one in rows:
            yield f"  {one.words:<22}{one.about}"


def unknown(known: list[Command], words: list[str]) -> str:
    """Returns the line about words that begin no command, with the command that they may mean."""
    one, other = commands.old_name(words[0]), found(commands.of_all(), words)
    near = difflib.get_close_matches(" ".join(words), [command.words for command in known], 1, 0.75)
    if one and one in known:
        hint = f"; it is now: {one.words}"
    elif other and other[0].is_here():
        hint = f"; it is one of {commands.door_of(other[0])}"
    else:
        hint = f"; there is: {near[0]}" if near else ""
    return f"there is no such command: {' '.join(words)}{hint}"


def at_a_door(name: str, tables: dict[str, list[Command]], words: list[str]) -> int:
    """Starts the command that words name at a door, or prints the help, and returns the exit status."""
    tables = {about: [one for one in known if one.is_here()] for about, known in tables.items()}
    known = [command for listed in tables.values() for command in listed]
    if words[:1] == ["help"] and words[1:]:
        words = [*words[1:], "--help"]
    one = found(known, words)
    if one:
        command, count = one
        return start(command, f"{name} {command.words}", words[count:])
    first = begun(known, words)
    begin = " ".join([*first, ""]) if first else ""
    after = words[len(first) :]
    if after and after[0] in HELP:
        print_all("\n".join(help_lines(name, tables, begin)) + "\n", "the help")
        return 0
    if words and words[0] == VERSION:
        print_all(version_line(name), "the version")
        return 0
    say(f"usage: {name} COMMAND [WORD ..]; {name} --help prints the commands")
    say(unknown(known, [*first, after[0]]) if after else f"a command is missing: {' '.join([name, *first])} ..")
    return REFUSED


def main() -> int:
    """Starts a command, and returns its exit status."""
    called, words = sys.argv[0], sys.argv[1:]
    commands.started_as = called
    name = os.path.basename(called)
    if words[:1] == [OLD] and words[1:] and (old := commands.old_name(words[1])):
        return start(old, old.old, words[2:])
    for command in commands.of_users():
        if name in (command.link(), commands.LINK + command.old):
            return start(command, name, words)
    if name == os.path.basename(commands.MAINTAINERS_DOOR):
        return at_a_door(commands.MAINTAINERS_DOOR, commands.MAINTAINERS, words)
    return at_a_door(name, commands.USERS, words)
