"""Says in words why vertices of a run failed: the command with its words, or the action, and what was missing.

A run prints only numbers. So the definition is run again, by one worker in a session, which is asked at each failure
why the command or the action failed. A run that takes longer than a minute has no reasons.
"""

import contextlib
import os
import re
import threading
from typing import NamedTuple

from llbm_tools.debugging import vertex_failures
from llbm_tools.inputs import data_at
from llbm_tools.llb import source_names
from llbm_tools.llb.ops import Op
from llbm_tools.sessions.session import Refusal, Session, SessionFailed
from llbm_tools.streams import Failed, Refused

MOST_SECONDS = 60
FAILED = re.compile(r"failed ([0-9]+) (?:action|command) ")


class Vertex(NamedTuple):
    """A vertex."""

    op: Op


class Reasons:
    """Why the vertices of a run failed; the run is repeated when it is first asked for."""

    def __init__(self, program: str, definition: str, sources: list[tuple[str, str]]) -> None:
        self.definition = definition
        given = (f"{name}={file}" for name, file in sources)
        self.command = [program, "step", "--looks", "--ends", definition, "--workers", "1", *given]
        self.found: dict[int, str] | None = None

    def of_line(self, line: str) -> list[str]:
        """Returns why the vertex failed that a line `failed ..` of the program names, if that is found."""
        match = FAILED.match(line)
        if not match:
            return []
        if self.found is None:
            self.found = {}
            with contextlib.suppress(OSError, Refused, Failed, Refusal, SessionFailed):
                self.run()
        why = self.found.get(int(match[1]))
        return [why] if why else []

    def run(self) -> None:
        """Runs the definition in a session, and finds why each vertex fails."""
        vertices = [Vertex(op) for op in source_names.ops_of(data_at(os.path.abspath(self.definition)))]
        session = Session(self.command, 1)
        timer = threading.Timer(MOST_SECONDS, session.child.kill)
        timer.start()
        try:
            while event := session.event("next"):
                if event.fails() and event.vertex < len(vertices):
                    why = vertex_failures.why_failed(session, vertices[event.vertex], len(session.record) - 1)
                    if why and self.found is not None:
                        self.found[event.vertex] = why
        finally:
            timer.cancel()
            session.end()
