"""Runs the program for a build, and prints its messages with what they mean."""

import os
import subprocess
from collections.abc import Iterable

from llbm_tools.building import child_processes
from llbm_tools.building.build_requests import Ended
from llbm_tools.building.child_processes import ended


class Program:
    """The program with a stored definition and the texts of its local sources, and the folder for what it prints."""

    def __init__(self, place: str, definition: str, sources: list[tuple[str, str]], folder: str) -> None:
        self.place = place
        self.definition = definition
        self.sources = sources
        self.folder = folder
        self.child: subprocess.Popen[bytes] | None = None

    def words(self, *words: str, workers: str | None) -> list[str]:
        """Returns a command of the program with the texts of all sources."""
        command = [self.place, *words]
        command += ["--workers", workers] if workers else []
        return command + [f"{name}={text}" for name, text in self.sources]

    def start(self, command: list[str], **streams: child_processes.Stream) -> subprocess.Popen[bytes]:
        """Starts the program, which is stopped by `end`."""
        with child_processes.held_back():
            self.child = child_processes.start(command, **streams)
        return self.child

    def end(self) -> None:
        """Stops the program if it still runs."""
        if self.child:
            child_processes.end(self.child)

    def run(self, workers: str | None) -> str:
        """Runs the definition at once, and returns the path of the result's text."""
        result = os.path.join(self.folder, "result")
        with open(self.definition, "rb") as given, open(result, "wb") as text:
            child = self.start(self.words("run", workers=workers), stdin=given, stdout=text, stderr=subprocess.PIPE)
            self.pass_on(child.stderr or [])
            status = ended(child)
        if status:
            raise Ended(status)
        return result

    def pass_on(self, lines: Iterable[bytes]) -> None:
        """Prints the program's messages, with what they mean below each, and why a vertex failed."""
        messages = None
        for line in lines:
            # Most runs have no message, and need not import what explains one.
            from llbm_tools.building.program_messages import Messages

            messages = messages or Messages(self.place, self.definition, self.sources)
            messages.print(line)
