"""Says in words why a vertex failed: which action or command, and the reason that the session gives for it."""

import re
from typing import Protocol

from llbm_tools.common import printable
from llbm_tools.llb import definition
from llbm_tools.llb.ops import Op
from llbm_tools.sessions.session import Event, Session

RAN = re.compile(r"ran ([0-9]+) ([0-9]+)")
FAULT = re.compile(r"fault ([0-9]+) ([0-9]+)")


class Vertex(Protocol):
    """A vertex, which has an op."""

    @property
    def op(self) -> Op:
        """The op."""


def words_of(vertex: Vertex, command: int) -> list[str]:
    """Returns the words of a command of an execution."""
    args = definition.args_of(vertex.op)
    if args[:2] != definition.SHELL or len(args) != 3:
        return list(args)
    commands = definition.commands_of(vertex.op)
    return commands[command].split(" ") if command < len(commands) else []


def why_failing(session: Session, worker: int, part: int, text: str) -> str:
    """Says why an action or a command failed, as the program does while the worker has the trees that it saw."""
    cause, = session.lines_by(f"why {worker} {part}")
    return printable(f"{text} failed" if cause == b"none" else f"{text} failed: {cause.decode('utf-8')}")


def why_step(session: Session, vertex: Vertex, event: Event) -> str | None:
    """Says why the micro-step of an event failed, if it did; the worker is still as the event left it."""
    part = failed_part(event)
    if part is None:
        return None
    if FAULT.fullmatch(event.reply):
        text = f"action {part} ({definition.actions_of(vertex.op)[part]})"
    else:
        text = f"command {part} ({' '.join(words_of(vertex, part))})"
    return why_failing(session, event.worker, part, text)


def last_step(record: list[Event], worker: int, end: int) -> int | None:
    """Returns the place of the last micro-step in the first `end` events that a worker did of what it runs then.

    Commands that were skipped do not count.
    """
    for place in range(end - 1, -1, -1):
        event = record[place]
        if event.worker == worker and not event.reply.startswith("skipped "):
            return place if event.kind == "step" else None
    return None


def failed_part(event: Event) -> int | None:
    """Returns the number of the action or the command that failed by the micro-step of an event, or None."""
    ran, faulted = RAN.fullmatch(event.reply), FAULT.fullmatch(event.reply)
    if ran and ran[2] != "0":
        return int(ran[1])
    return int(faulted[1]) if faulted else None


def why_failed(session: Session, vertex: Vertex, settle: int) -> str | None:
    """Says why an event of the record, by its place there, settled a vertex as failed. It looks before the event."""
    place = last_step(session.record, session.record[settle].worker, settle)
    if place is None:
        return None
    event = session.record[place]
    with session.earlier(settle):
        return why_step(session, vertex, event)
