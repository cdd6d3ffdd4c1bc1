"""A session of the program with its record: does events and undoes them, and reads what is there between them.

The commands `break`, `clear` and `go` are not used: without them a run can be paused between any two events, and
breakpoints work backwards too.
"""

import contextlib
import re
import subprocess
import tempfile
from collections.abc import Iterator
from typing import NamedTuple

from llbm_tools.sessions import dialog
from llbm_tools.sessions.dialog import Closed, Dialog
from llbm_tools.sessions.shows import Show, show_of
from llbm_tools.streams import Refused

EVENT = re.compile(f"{dialog.EVENT.pattern}|end")
BACK = re.compile("back [0-9]+")


class SessionFailed(Exception):
    """The program has ended, or it printed a line that no session prints; the message says which."""

    def __init__(self, cause: str, status: int, words: list[str]) -> None:
        super().__init__(cause)
        self.status = status
        self.words = words


class Refusal(Exception):
    """The program refuses a command; the message is its line, `fault ..`."""


class TooLarge(Exception):
    """An answer has more bytes than were asked for; the message says so."""

    def __init__(self, most: int) -> None:
        super().__init__(f"its text has more than {most:,} bytes")


class Run(NamedTuple):
    """What a worker runs: a vertex, and how many of its micro-steps are done."""

    vertex: int
    steps: int


class Event(NamedTuple):
    """An event of the record: its line, kind, worker, vertex and reply, and what the worker ran before it."""

    line: str
    kind: str
    worker: int
    vertex: int
    reply: str
    before: Run | None

    @property
    def command(self) -> str:
        """The command that does the event."""
        return f"{self.kind} {self.worker}" + (f" {self.vertex}" if self.kind == "claim" else "")

    def fails(self) -> bool:
        """Returns whether the event settles a vertex that failed."""
        return self.kind == "settle" and self.reply == f"{self.vertex} failed"


def after(event: Event) -> Run | None:
    """Returns what the worker of an event runs after it."""
    if event.kind == "claim":
        return Run(event.vertex, 0)
    if event.kind == "step":
        return Run(event.vertex, event.before.steps + 1 if event.before else 1)
    return None


class Session:
    """The running program, its record so far, and what each worker runs."""

    def __init__(self, command: list[str], workers: int) -> None:
        self.record: list[Event] = []
        self.runs: list[Run | None] = [None] * workers
        self.words = tempfile.TemporaryFile()
        # What is ended and removed with the session.
        self.kept = contextlib.ExitStack()
        self.child = subprocess.Popen(command, stdin=subprocess.PIPE, stdout=subprocess.PIPE, stderr=self.words)
        self.dialog = Dialog(self.child)

    def line(self) -> bytes:
        """Returns the program's next line, without its line end."""
        try:
            return self.dialog.line()
        except Closed as fault:
            raise self.ended() from fault

    def answer(self, command: str) -> Iterator[bytes]:
        """Sends a command, and yields the lines of its answer as they come."""
        self.dialog.send(command)
        is_first = True
        while line := self.line():
            if is_first and line.startswith(b"fault "):
                self.check_end()
                raise Refusal(line.decode("utf-8", "backslashreplace"))
            is_first = False
            yield line

    def check_end(self) -> None:
        """Checks that an answer has no more lines."""
        if line := self.line():
            raise self.broken(line.decode("utf-8", "backslashreplace"))

    def ask(self, command: str, form: re.Pattern[str]) -> str:
        """Sends a command, and returns its answer, which is one line of a form."""
        found = ""
        for line in self.answer(command):
            found = line.decode("utf-8", "backslashreplace")
            if not form.fullmatch(found):
                raise self.broken(found)
            self.check_end()
            return found
        raise self.broken(found)

    def event(self, command: str) -> Event | None:
        """Does a command that adds an event, and returns it; None if `next` finds the run complete."""
        answer = self.ask(command, EVENT)
        return None if answer == "end" else self.added(answer)

    def added(self, line: str) -> Event:
        """Adds the event on a line to the record, and returns it."""
        match = dialog.EVENT.fullmatch(line)
        if not match or int(match[1]) != len(self.record) + 1 or int(match[3]) >= len(self.runs):
            raise self.broken(line)
        worker, before = int(match[3]), self.runs[int(match[3])]
        claims = match[2] == "claim"
        if claims != bool(match[4]) or claims != (before is None):
            raise self.broken(line)
        vertex = before.vertex if before else int(match[4])
        event = Event(line, match[2], worker, vertex, match[5], before)
        self.record.append(event)
        self.runs[worker] = after(event)
        return event

    def back(self) -> Event:
        """Undoes the last event of the record, and returns it."""
        answer = self.ask("back", BACK)
        if not self.record or answer != f"back {len(self.record) - 1}":
            raise self.broken(answer)
        event = self.record.pop()
        self.runs[event.worker] = event.before
        return event

    def status(self) -> list[str]:
        """Returns the status of each vertex, by number."""
        statuses: list[str] = []
        for vertex, line in enumerate(self.answer("status")):
            number, _, status = line.decode("ascii", "backslashreplace").partition(" ")
            if number != str(vertex):
                raise self.broken(f"{number} {status}")
            statuses.append(status)
        return statuses

    @contextlib.contextmanager
    def earlier(self, count: int) -> Iterator[None]:
        """Goes back to the state after the first `count` events, and at the end of the block forward again.

        Both ways are exact: the states, the record and what the workers run are the same as before.
        """
        undone: list[Event] = []
        try:
            while len(self.record) > count:
                undone.append(self.back())
            yield
        finally:
            if self.child.poll() is None:
                self.redo_all(undone)

    def redo_all(self, undone: list[Event]) -> None:
        """Does events again, the last that was undone first."""
        for event in reversed(undone):
            self.redo(event)

    def redo(self, event: Event) -> None:
        """Does an event that was undone, and checks that its line is the same."""
        try:
            line = self.ask(event.command, dialog.EVENT)
        except Refusal as refusal:
            raise self.broken(str(refusal)) from refusal
        if self.added(line) != event:
            raise self.broken(line)

    def graph(self) -> Show:
        """Returns the graph."""
        text = "".join(line.decode("ascii", "backslashreplace") + "\n" for line in self.answer("graph"))
        try:
            return show_of(text)
        except Refused as fault:
            raise self.broken(str(fault)) from fault

    def digests(self) -> list[str]:
        """Returns the digest of each vertex's entry, by number."""
        lines = (line.decode("ascii", "backslashreplace") for line in self.answer("digests"))
        return [line.partition(" ")[2] for line in lines]

    def tree(self, vertex: int, output: int) -> list[bytes] | None:
        """Returns the lines of the tree of an output, or None if there is no such output."""
        return self.tree_by(f"tree {vertex} {output}")

    def tree_by(self, command: str, most: int | None = None) -> list[bytes] | None:
        """Returns the lines of the tree that a command prints, or None if it prints that there is none."""
        lines = self.lines_by(command, most)
        return None if lines == [b"none"] else lines

    def lines_by(self, command: str, most: int | None = None) -> list[bytes]:
        """Returns the lines that a command prints, whatever their number; raises TooLarge above `most` bytes."""
        lines: list[bytes] = []
        size = 0
        for line in self.answer(command):
            size += len(line) + 1
            if most is None or size <= most:
                lines.append(line)
        if most is not None and size > most:
            raise TooLarge(most)
        return lines

    def error_lines(self) -> list[str]:
        """Returns the program's lines on standard error."""
        self.words.seek(0)
        return self.words.read().decode("utf-8", "backslashreplace").splitlines()

    def ended(self) -> SessionFailed:
        """Returns the error for a program that has ended; one that only closed its output is stopped."""
        status = self.end()
        cause = f"by signal {-status}" if status < 0 else f"with status {status}"
        status = status if status >= 0 else 128 - status
        return SessionFailed(f"the program has ended {cause}", status, self.error_lines())

    def broken(self, line: str) -> SessionFailed:
        """Returns the error for a line that no session prints, and stops the program."""
        self.end()
        return SessionFailed(f"the program printed an unexpected line: {line[:200]}", 1, self.error_lines())

    def end(self) -> int:
        """Stops the program. It writes no files, so nothing is left half done. It may be called twice."""
        if self.child.poll() is None:
            self.child.kill()
        self.dialog.close()
        self.dialog.answers.close()
        self.kept.close()
        return self.child.wait()
