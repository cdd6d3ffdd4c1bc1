"""Runs the program for a build in a session, vertex by vertex. Most builds are run at once, and need none of this."""

import contextlib
import os
import pathlib
import subprocess
from collections.abc import Callable
from typing import BinaryIO

from llbm_tools.building import progress
from llbm_tools.building.build_requests import Ended
from llbm_tools.building.child_processes import ended
from llbm_tools.building.program_runs import Program
from llbm_tools.common import say, shortened
from llbm_tools.sessions import shows
from llbm_tools.sessions.dialog import Closed
from llbm_tools.streams import FAILED

MOST_OF_A_NAME = 100
NOT_DONE = 1
# Looks at the outputs of vertices, by their numbers; there is None for one that is not there.
Ran = Callable[[Callable[[int, int], list[bytes] | None]], None]


def print_progress(definition: str, session: progress.BuildSession, show: shows.Show | None) -> bool:
    """Prints a line for each vertex as it settles, and returns whether none failed."""
    names = progress.names_in(pathlib.Path(definition).read_bytes())
    failed = False
    for count, settled in enumerate(session.settled(), 1):
        of = len(show.vertices) if show else "?"
        name = shortened(names.get(settled.vertex, ""), MOST_OF_A_NAME)
        line = f"[{count}/{of}] vertex {settled.vertex} {settled.kind} {settled.state}"
        say(f"{line}: {name}" if name else line)
        failed = failed or settled.state == "failed"
    return not failed


def follow(
    program: Program, session: progress.BuildSession, text: BinaryIO, is_shown: bool, ran: Ran | None
) -> list[bytes]:
    """Runs a session to its end, and writes the result's text, or returns a line for each failure."""
    failures: list[bytes] = []
    try:
        with contextlib.suppress(Closed):
            show = session.graph()
            is_well = print_progress(program.definition, session, show) if is_shown else session.run()
            if ran:
                ran(session.tree)
            failures = [] if is_well else [line.encode() for line in session.failures()]
            if show and not failures:
                session.copy_tree(*show.result, text)
    except progress.Unexpected as line:
        program.pass_on([str(line).encode()])
        raise Ended(FAILED, "the session gave an unexpected answer") from line
    session.close()
    return failures


def run(program: Program, workers: str | None, *, is_shown: bool, ran: Ran | None = None) -> str:
    """Runs the definition in a session, vertex by vertex with a line for each if that is shown, lets `ran` look at the
    trees that were made, and returns the path of the result's text.
    """
    result, causes = os.path.join(program.folder, "result"), os.path.join(program.folder, "causes")
    with open(causes, "wb") as words, open(result, "wb") as text:
        command = program.words("step", program.definition, "--looks", "--ends", workers=workers or "1")
        child = program.start(command, stdin=subprocess.PIPE, stdout=subprocess.PIPE, stderr=words)
        failures = follow(program, progress.BuildSession(child), text, is_shown, ran)
        status = ended(child)
        is_empty = not text.tell()
    with open(causes, "rb") as given:
        program.pass_on(given)
    program.pass_on(failures)
    if status or failures:
        raise Ended(status or NOT_DONE)
    if is_empty:
        raise Ended(FAILED, "the session ended before the result was out")
    return result
