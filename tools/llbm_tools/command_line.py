"""The parser of a tool's command line: help and version go to standard output, and a failed write is a failure."""

import argparse
import sys
from collections.abc import Sequence
from typing import Any

from llbm_tools.commands import name_of
from llbm_tools.common import PROVER, discard_output, say
from llbm_tools.streams import FAILED

# The release of which the tools are, which is that of the program.
RELEASE = "1.0"


def print_all(text: str, what: str) -> None:
    """Writes a text to standard output; if that fails, the tool ends with the status of a failure."""
    if sys.stdout is None:
        say(f"{what} could not be written: standard output is closed")
        raise SystemExit(FAILED)
    try:
        sys.stdout.write(text)
        sys.stdout.flush()
    except BrokenPipeError:
        discard_output()
        raise SystemExit(FAILED) from None
    except OSError as fault:
        say(f"{what} could not be written: {fault.strerror}")
        discard_output()
        raise SystemExit(FAILED) from fault


def version_line(name: str) -> str:
    """Returns the line that says of which release a command is."""
    return f"{name}, of llbm {RELEASE}, for {PROVER}\n"


class Version(argparse.Action):
    """The option that prints the version."""

    def __init__(self, option_strings: Sequence[str], dest: str, **rest: Any) -> None:
        super().__init__(option_strings, argparse.SUPPRESS, nargs=0, help="print the version")

    def __call__(self, parser: argparse.ArgumentParser, *_: object) -> None:
        """Prints the version, and ends the tool."""
        print_all(version_line(parser.prog), "the version")
        parser.exit()


class Parser(argparse.ArgumentParser):
    """A parser that takes no abbreviated options, and knows --help and --version."""

    def __init__(self, prog: str | None = None, **settings: Any) -> None:
        # (argparse would take what follows the last `/` of dev/dev)
        super().__init__(prog or name_of(sys.argv[0]), allow_abbrev=False, **settings)
        self.add_argument("--version", action=Version)

    def add_argument(self, *names: str, **settings: Any) -> argparse.Action:
        """Adds an argument. Words that may be missing have a default, so no refusal says that they are required."""
        if settings.get("nargs") == "*" and not names[0].startswith("-"):
            settings.setdefault("default", [])
        return super().add_argument(*names, **settings)

    def print_help(self, file: object = None) -> None:
        """Prints the help."""
        print_all(self.format_help(), "the help")
