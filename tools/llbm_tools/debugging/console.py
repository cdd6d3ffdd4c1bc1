"""The commands of the console that look: those of a session, with the lines that it prints, and `help`."""

import re

from llbm_tools.sessions.session import Session

MOST_LINES = 1_000

TRY = "try"
EVENT = re.compile("claim [0-9]{1,9} [0-9]{1,9}|(?:step|settle|cancel) [0-9]{1,9}")
LOOK = re.compile(
    "tree [0-9]{1,9} [0-9]{1,9}|work [0-9]{1,9}(?: [0-9]{1,9})?|caches|cache [0-9]{1,9} [0-9]{1,9}|"
    "why [0-9]{1,9} [0-9]{1,9}|graph|digests"
)

HELP = """\
Expressions, also for watches:
  V.I:/path         output I of vertex V at a path
  V                 vertex V: its status, and what it does
  %k                the vertex of entry k
  work W I:/path    tree I of what worker W runs, at a path
  cache K I:/path   instance I of key K of the caches, at a path
Commands that look, with the lines that llbm step prints:
  status            the status of each vertex
  tree V I          output I of vertex V
  work W            the trees of what worker W runs
  work W I          tree I of these
  caches            the keys of the caches
  cache K I         instance I of key K
  why W K           why command K of what worker W runs fails on its trees
  graph             the graph, as llbm show prints it
  digests           the digest of each vertex
Commands that add an event; the run stops after it:
  claim W V         worker W takes vertex V
  step W            worker W does its next micro-step
  settle W          worker W ends what it runs
  cancel W          worker W gives up what it runs
A command that changes nothing of the run:
  try COMMAND       what COMMAND would do to the trees where the run is, as `try cp /a /b && rm /a`"""


def looked(session: Session, command: str) -> str | None:
    """Returns what a command that looks prints, or None where it is no such command."""
    if command == "help":
        return HELP
    if command == "status":
        lines = [f"{vertex} {status}" for vertex, status in enumerate(session.status())]
    elif LOOK.fullmatch(command):
        lines = [line.decode("utf-8", "backslashreplace") for line in session.lines_by(command)]
    else:
        return None
    more = len(lines) - MOST_LINES
    return "\n".join([*lines[:MOST_LINES], *([f"and {more:,} more lines"] if more > 0 else [])])
