"""Moves a run forwards and backwards by single events, each of which may hit a breakpoint.

A motion does one event at a time, so that requests are handled between two of them. It ends with a stop, or with the
run. Forwards and backwards it stops in the same states: those after an event that hits a breakpoint.
"""

from collections.abc import Callable
from typing import NamedTuple

from llbm_tools.debugging.breakpoints import SETTLE, Breakpoint
from llbm_tools.sessions.session import Event, Refusal, Session

HELD, FINISHED = "fault 171 135", "fault 171 137"


class Ended(Exception):
    """The run is complete: no event is left to do."""


class Stop(NamedTuple):
    """Why a motion stopped: the protocol's reason, a description, the worker, and the breakpoints that were hit."""

    reason: str
    description: str
    worker: int
    hits: tuple[int, ...] = ()


Motion = Callable[[], Stop | None]


class Mover:
    """Moves a session forwards and backwards between breakpoints, and reports each event that is done or undone."""

    def __init__(
        self, session: Session, report: Callable[[Event, str], None], log: Callable[[Event, str], None]
    ) -> None:
        self.session = session
        self.report = report
        self.log = log
        self.breakpoints: list[Breakpoint] = []
        self.stops_at_failures = False
        self.stops_at_breakpoints = True
        # Returns the stop after an event for another reason than its kind and vertex, or None.
        self.stops_for: Callable[[Event], Stop | None] = lambda _: None

    def is_hit(self, one: Breakpoint, event: Event) -> bool:
        """Returns whether the last event of the record is a hit at which a breakpoint stops.

        The hits are counted over the record, so they are the same forwards and backwards.
        """
        record = self.session.record
        if not one.meets(event, len(record)):
            return False
        return one.stops(sum(one.meets(each, number) for number, each in enumerate(record, 1)))

    def met(self, event: Event) -> Stop | None:
        """Returns the stop after the last event of the record if it fails or hits breakpoints, or None."""
        if not self.stops_at_breakpoints:
            return None
        hits = tuple(one.number for one in self.breakpoints if not one.message and self.is_hit(one, event))
        if self.stops_at_failures and event.fails():
            return Stop("exception", f"vertex {event.vertex} failed", event.worker, hits)
        if hits:
            return Stop("breakpoint", f"{event.kind} of vertex {event.vertex}", event.worker, hits)
        return self.stops_for(event)

    def print_messages(self, event: Event) -> None:
        """Prints the messages of the breakpoints that an event hits."""
        for one in self.breakpoints if self.stops_at_breakpoints else []:
            if one.message and self.is_hit(one, event):
                self.log(event, one.message)

    def do(self, command: str) -> Event:
        """Does a command that adds an event, and reports it."""
        event = self.session.event(command)
        if event is None:
            raise Ended
        self.report(event, event.line)
        self.print_messages(event)
        return event

    def undo(self) -> Event:
        """Undoes the last event, and reports it."""
        event = self.session.back()
        self.report(event, f"back {len(self.session.record)}")
        return event

    def forwards(self) -> Motion:
        """Returns the motion forwards to the first event that hits a breakpoint."""
        return lambda: self.met(self.do("next"))

    def backwards(self) -> Motion:
        """Returns the motion back to the state after an event that hits a breakpoint, or to the beginning."""

        def motion() -> Stop | None:
            """Undoes one event."""
            event = self.undo()
            record = self.session.record
            return self.met(record[-1]) if record else Stop("entry", "the beginning of the run", event.worker)

        return motion

    def one_back(self) -> Motion:
        """Returns the motion one event back."""
        return lambda: Stop("step", "one event was taken back", self.undo().worker)

    def claim(self, worker: int) -> Event | None:
        """Claims the first vertex that is ready and whose locked caches are free, if there is one."""
        for vertex, status in enumerate(self.session.status()):
            if status != "ready":
                continue
            try:
                return self.do(f"claim {worker} {vertex}")
            except Refusal as refusal:
                if not str(refusal).startswith(HELD):
                    raise
        return None

    def own_event(self, worker: int) -> Event:
        """Does a worker's next event: the claim of the first vertex that it can have, a micro-step, or the settle.

        If the worker is idle and can claim nothing, the program chooses the event of another worker.
        """
        if self.session.runs[worker] is None:
            return self.claim(worker) or self.do("next")
        try:
            return self.do(f"step {worker}")
        except Refusal as refusal:
            if str(refusal) != FINISHED:
                raise
        return self.do(f"settle {worker}")

    def into(self, worker: int) -> Motion:
        """Returns the motion of a worker's next event."""

        def motion() -> Stop:
            """Does the one event."""
            event = self.own_event(worker)
            return self.met(event) or Stop("step", event.line, event.worker)

        return motion

    def out(self, worker: int) -> Motion:
        """Returns the motion of a worker's events up to its settle."""

        def motion() -> Stop | None:
            """Does one of the events."""
            event = self.own_event(worker)
            over = event.worker != worker or event.kind == SETTLE
            return self.met(event) or (Stop("step", event.line, event.worker) if over else None)

        return motion

    def over(self, worker: int) -> Motion:
        """Returns the motion of a running worker's next event, or of an idle worker's next whole vertex."""
        return self.out(worker) if self.session.runs[worker] is None else self.into(worker)
