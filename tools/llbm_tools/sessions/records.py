"""Parses the lines of a session's record, `N EVENT -> REPLY`, and what each worker runs between its claim and its end.

The lines are those of docs/FORMATS.md, under "The lines of a record". Other lines of a session are skipped, but for
`back N`, which removes the events after the first N.
"""

import re
from collections.abc import Iterable
from typing import NamedTuple

from llbm_tools.streams import Refused

NUMBER = r"(?:0|[1-9][0-9]{0,9})"
EVENT = re.compile(rf"({NUMBER}) (claim|step|settle|cancel) ({NUMBER})(?: ({NUMBER}))? -> (.+)")
BACK = re.compile(rf"back ({NUMBER})")
REPLIES = {
    "claim": rf"(?:source|file|merge|exec) {NUMBER}",
    "step": (
        rf"read|acted {NUMBER}|merged {NUMBER}|ran {NUMBER} {NUMBER}|skipped {NUMBER}|fault {NUMBER} {NUMBER}"
    ),
    "settle": rf"{NUMBER} (?:done|failed)",
    "cancel": rf"{NUMBER} {NUMBER}",
}


class Event(NamedTuple):
    """An event of a record: number, kind, worker, vertex, reply, and its line."""

    number: int
    kind: str
    worker: int
    vertex: int
    reply: str
    line: str


class Work(NamedTuple):
    """A vertex that a worker took: its events from the claim on, up to a settle or a cancel if there is one."""

    worker: int
    vertex: int
    events: list[Event]

    @property
    def end(self) -> Event | None:
        """The settle or the cancel, or None where the record ends before it."""
        last = self.events[-1]
        return last if last.kind in ("settle", "cancel") else None


def event_of(match: re.Match[str], vertices: dict[int, int]) -> Event:
    """Returns the event on a line, given the vertex that each worker runs."""
    kind, worker, reply = match[2], int(match[3]), match[5]
    if not re.fullmatch(REPLIES[kind], reply) or (kind == "claim") != bool(match[4]):
        raise Refused("not a line of a record: not a claim, step, settle or cancel with its reply")
    if kind == "claim" and worker in vertices:
        raise Refused(f"worker {worker} runs vertex {vertices[worker]} already")
    if kind != "claim" and worker not in vertices:
        raise Refused(f"worker {worker} runs nothing")
    vertex = int(match[4]) if kind == "claim" else vertices[worker]
    return Event(int(match[1]), kind, worker, vertex, reply, match[0])


def running_after(events: list[Event]) -> dict[int, int]:
    """Returns the vertex that each worker runs after some events."""
    vertices: dict[int, int] = {}
    for event in events:
        if event.kind == "claim":
            vertices[event.worker] = event.vertex
        elif event.kind != "step":
            del vertices[event.worker]
    return vertices


class Record:
    """The events of the lines that were read."""

    def __init__(self) -> None:
        self.events: list[Event] = []
        self.vertices: dict[int, int] = {}
        self.is_record = False

    def read(self, line: str) -> None:
        """Reads a line: an event is added, `back N` removes some, another line is skipped."""
        back, match = BACK.fullmatch(line), EVENT.fullmatch(line)
        if back:
            if int(back[1]) > len(self.events):
                raise Refused(f"there are only {len(self.events)} events before")
            del self.events[int(back[1]) :]
            self.vertices = running_after(self.events)
        elif match:
            self.add(event_of(match, self.vertices))

    def add(self, event: Event) -> None:
        """Adds an event; its number has to be the next one."""
        if event.number != len(self.events) + 1:
            raise Refused(f"the event has the number {event.number}, and {len(self.events) + 1} comes next")
        self.events.append(event)
        self.is_record = True
        if event.kind == "claim":
            self.vertices[event.worker] = event.vertex
        elif event.kind != "step":
            del self.vertices[event.worker]


def events_of(lines: Iterable[bytes]) -> list[Event]:
    """Returns the events on the lines of a session; the first faulty line is refused, and lines without any event."""
    record, number = Record(), 0
    for number, line in enumerate(lines, 1):
        try:
            record.read(line.decode("utf-8", "backslashreplace").removesuffix("\n"))
        except Refused as fault:
            raise Refused(f"{fault}: line {number}") from fault
    if number and not record.is_record:
        raise Refused("no line is an event of a record")
    return record.events


def works_of(events: list[Event]) -> list[Work]:
    """Returns what the workers took, by the claims."""
    found: list[Work] = []
    running: dict[int, Work] = {}
    for event in events:
        if event.kind == "claim":
            running[event.worker] = Work(event.worker, event.vertex, [])
            found.append(running[event.worker])
        running[event.worker].events.append(event)
    return found
