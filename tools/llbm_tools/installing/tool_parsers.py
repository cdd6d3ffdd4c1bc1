"""The command lines of the tools, as their own parsers have them: options and arguments, each with what it takes.

A tool hands its words to the parser that it makes as the first thing that it does; here this parser is taken from it.
"""

import argparse
import importlib
import sys
from typing import NamedTuple, NoReturn

from llbm_tools.commands import Command

# What the values of options and arguments are called that are no files; all others can be files.
NO_FILES = {
    "BYTES", "COUNT", "DIRECTORIES", "FILES", "FORM", "KIND", "N", "NAME", "OS/ARCH", "PREFIX", "SECONDS", "SUFFIX",
    "UID:GID", "V", "W", "WORD",
}  # fmt: skip


class Taken(Exception):
    """A parser was asked to parse."""

    def __init__(self, parser: argparse.ArgumentParser) -> None:
        super().__init__()
        self.parser = parser


class Value(NamedTuple):
    """What an option or an argument takes: what it is called, and the words that it can be, if these are few.

    `is_named` is whether it is NAME=FILE.
    """

    shown: str
    choices: tuple[str, ...]

    def is_named(self) -> bool:
        """Returns whether the value is a name, `=` and a file."""
        return "=" in self.shown

    def is_file(self) -> bool:
        """Returns whether the value can be a file."""
        return not self.choices and self.shown not in NO_FILES


class Option(NamedTuple):
    """An option: its words, its values, and its help."""

    words: tuple[str, ...]
    values: tuple[Value, ...]
    about: str


class Argument(NamedTuple):
    """An argument: its value, whether there can be several, and its help."""

    value: Value
    is_repeated: bool
    about: str


class Tool(NamedTuple):
    """A tool: its command, its usage, what it does in a sentence and in full, its options and its arguments."""

    name: str
    usage: str
    about: str
    text: str
    options: tuple[Option, ...]
    arguments: tuple[Argument, ...]


def parser_of(command: Command) -> tuple[argparse.ArgumentParser, str]:
    """Returns the parser of a command, and the head of its module."""
    module = importlib.import_module(f"llbm_tools.{command.module}")

    def take(parser: argparse.ArgumentParser, *_: object) -> NoReturn:
        raise Taken(parser)

    before = argparse.ArgumentParser.parse_args, sys.argv
    setattr(argparse.ArgumentParser, "parse_args", take)
    sys.argv = [command.link(), "--help"]
    try:
        module.main()
    except Taken as taken:
        return taken.parser, module.__doc__ or ""
    finally:
        setattr(argparse.ArgumentParser, "parse_args", before[0])
        sys.argv = before[1]
    raise ValueError(f"the command has no parser: {command.words}")


def values_of(action: argparse.Action) -> tuple[Value, ...]:
    """Returns what an option or an argument takes."""
    if action.nargs == 0:
        return ()
    shown = action.metavar or action.dest.upper()
    choices = tuple(map(str, action.choices or ()))
    return tuple(Value(one, choices) for one in ([shown] if isinstance(shown, str) else shown))


def help_of(action: argparse.Action, parser: argparse.ArgumentParser) -> str:
    """Returns the help of an option or an argument."""
    values = {**vars(action), "prog": parser.prog}
    return (action.help or "") % values


def tool_of(command: Command) -> Tool:
    """Returns what the parser of a command has."""
    parser, text = parser_of(command)
    options, arguments = [], []
    for action in parser._actions:
        about = help_of(action, parser)
        if action.option_strings:
            options.append(Option(tuple(action.option_strings), values_of(action), about))
        else:
            (value,) = values_of(action)
            arguments.append(Argument(value, action.nargs not in (None, "?"), about))
    usage = " ".join(parser.format_usage().removeprefix("usage: ").split())
    return Tool(parser.prog, usage, parser.description or "", text, tuple(options), tuple(arguments))
