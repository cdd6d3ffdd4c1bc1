"""Prints the messages of the program for a build, with what they mean below each, and why a vertex failed."""

import contextlib
import pathlib

from llbm_tools.common import say
from llbm_tools.definitions import faults, next_commands
from llbm_tools.llb import source_names
from llbm_tools.running.failure_reasons import Reasons

UNNAMED = "fault 121 "


class Messages:
    """What the messages of a program about a stored definition, with texts of local sources, are explained with."""

    def __init__(self, program: str, definition: str, sources: list[tuple[str, str]]) -> None:
        self.program = program
        self.definition = definition
        self.names = [name for name, _ in sources]
        self.reasons = Reasons(program, definition, sources)
        self.explainer: faults.Explainer | None = None

    def print(self, line: bytes) -> None:
        """Prints a line with what it means."""
        text = line.decode("utf-8", "backslashreplace").rstrip("\n")
        say(text)
        for why in self.reasons.of_line(text):
            say(f"  {why}")
        with contextlib.suppress(faults.NoLine, faults.NoPage, OSError):
            if self.explainer is None:
                self.explainer = faults.Explainer(faults.read_page(), self.definition, lambda: self.program)
            for meaning in self.explainer.lines(text):
                say(f"  {meaning}")
        if hint := next_commands.hint_of(text):
            say(f"  {hint}")
        if text.startswith(UNNAMED):
            for note in source_names.missing_notes(pathlib.Path(self.definition).read_bytes(), self.names):
                say(f"  {note}")
