"""The two streams of a session of `llbm step`, run with `--looks` and `--ends`: an empty line ends each answer.

The commands and their answers are those of docs/FORMATS.md, under "A stepping session" and "The lines of a record".
"""

import contextlib
import re
import subprocess
from collections.abc import Iterator
from typing import BinaryIO, cast

# The line of an event: its number, kind, worker, the vertex of a claim, and its reply.
EVENT = re.compile(r"([0-9]+) (claim|step|settle|cancel) ([0-9]+)(?: ([0-9]+))? -> (.+)")


class Closed(Exception):
    """The session has ended before the end of an answer."""


class Dialog:
    """The streams of a program that was started with pipes for both."""

    def __init__(self, child: subprocess.Popen[bytes]) -> None:
        self.commands = cast(BinaryIO, child.stdin)
        self.answers = cast(BinaryIO, child.stdout)

    def send(self, *commands: str) -> None:
        """Sends commands; if the session has ended, reading an answer says so."""
        if self.commands.closed:
            return
        try:
            self.commands.write("".join(f"{command}\n" for command in commands).encode())
            self.commands.flush()
        except OSError:
            self.close()

    def close(self) -> None:
        """Ends the commands."""
        with contextlib.suppress(OSError):
            self.commands.close()

    def line(self) -> bytes:
        """Returns the next line without its line end; an empty one ends an answer."""
        line = self.answers.readline()
        if not line.endswith(b"\n"):
            raise Closed
        return line[:-1]

    def lines(self) -> Iterator[bytes]:
        """Yields the lines of the next answer."""
        while line := self.line():
            yield line

    def texts(self) -> list[str]:
        """Returns the lines of the next answer as texts."""
        return [line.decode("utf-8", "backslashreplace") for line in self.lines()]
