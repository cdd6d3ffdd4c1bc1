"""Checks the rules for every run of the program, and for several runs with the same input.

The rules are those of docs/FORMATS.md and docs/FAULTS.md. A broken rule raises Broken.
"""

import re

from llbm_tools import common
from llbm_tools.definitions import faults
from llbm_tools.fuzzing.limited_runs import Ran
from llbm_tools.llb import definition, messages, wire
from llbm_tools.llb.wire import Unreadable

LAST_STATUS = 3
MOST_OF_A_NUMBER = 1 << 32

VERTEX = re.compile(rb"([0-9]+) (source|file|merge|exec) steps ([0-9]+) outputs ([0-9]+) inputs (-|[0-9. ]+)")
RESULT = re.compile(rb"result ([0-9]+)\.([0-9]+)")
NUMBER = rb"(0|[1-9][0-9]{0,9})"
ENTRY = re.compile(
    rb"(?:d [0-7]{4} %s %s|f [0-7]{4} %s %s (?:(?:[0-9a-f]{2})+|-)) /(.*)" % ((NUMBER,) * 4), re.DOTALL
)
RECORD = re.compile(
    rb"([1-9][0-9]*) (?:claim [0-9]+ [0-9]+ -> (?:source|file|merge|exec) [0-9]+"
    rb"|step [0-9]+ -> (?:read|acted [0-9]+|merged [0-9]+|ran [0-9]+ [0-9]+|skipped [0-9]+|fault [0-9]+ [0-9]+)"
    rb"|settle [0-9]+ -> [0-9]+ (?:done|failed)|cancel [0-9]+ -> [0-9]+ [0-9]+)"
)
STATUS = re.compile(
    rb"([0-9]+) (waiting|ready|blocked|running [0-9]+|done|failed (?:action|command) [0-9]+ (?:fault|status) [0-9]+)"
)
OTHER_ANSWER = re.compile(rb"stop|end|none|back [0-9]+|[df] [0-7]{4} [0-9]+ [0-9]+ (?:[0-9a-f]+ |- )?/.*")


class Broken(Exception):
    """A rule is broken; the message says which."""


def need(holds: bool, cause: str) -> None:
    """Raises Broken with this cause unless the rule holds."""
    if not holds:
        raise Broken(cause)


class Graph:
    """A graph as `show` prints it: the steps of each vertex, its inputs, and the result."""

    def __init__(self, text: bytes) -> None:
        *lines, last = text.split(b"\n")[:-1] or [b""]
        found = [one for line in lines if (one := VERTEX.fullmatch(line))]
        result = RESULT.fullmatch(last)
        if len(found) < len(lines) or result is None or not text.endswith(b"\n"):
            raise Broken("the text of the graph is invalid")
        need([int(one[1]) for one in found] == list(range(len(found))), "the graph's vertices are not numbered from 0")
        self.steps = [int(one[3]) for one in found]
        self.inputs = [edges_of(one[5]) for one in found]
        self.result = (int(result[1]), int(result[2]))

    def events(self) -> int:
        """Returns how many events a run has at most if nothing is cancelled."""
        return sum(self.steps) + 2 * len(self.steps)


def edges_of(text: bytes) -> list[tuple[int, int]]:
    """Returns the inputs of a vertex."""
    pairs = [one.split(b".") for one in text.split(b" ") if text != b"-"]
    return [(int(vertex), int(output)) for vertex, output in pairs]


def entry_at(line: bytes) -> tuple[bytes, ...] | None:
    """Returns the path on a tree's line, or None if the line is not an entry."""
    found = ENTRY.fullmatch(line)
    if not found or any(int(owner) >= MOST_OF_A_NUMBER for owner in found.groups()[:4] if owner is not None):
        return None
    names = tuple(found[5].split(b"/")) if found[5] else ()
    if len(names) > common.MOST_NAMES or not all(map(common.is_name, names)) or (line[:1] == b"f" and not names):
        return None
    return names


def tree_fault(text: bytes) -> str | None:
    """Returns the first fault of a tree text as `NUMBER LINE`, or None if it is valid."""
    if not text:
        return "31 1"
    directories, before = set(), None
    *lines, rest = text.split(b"\n")
    for number, line in enumerate(lines, 1):
        place = entry_at(line)
        if place is None:
            return f"31 {number}"
        if (before is None and place) or (before is not None and place <= before):
            return f"32 {number}"
        if place and place[:-1] not in directories:
            return f"33 {number}"
        before = place
        if line[:1] == b"d":
            directories.add(place)
    return f"31 {len(lines) + 1}" if rest else None


class Rules:
    """The rules for every run, by the page of faults."""

    def __init__(self, page: faults.Page) -> None:
        self.page = page

    def check(self, ran: Ran) -> None:
        """Checks that the run ended in an allowed way."""
        if ran.status is None:
            raise Broken("no answer: it does not end in time")
        need(ran.status >= 0, f"signal {-ran.status}")
        need(ran.status <= LAST_STATUS, f"status {ran.status}")
        is_session = ran.words[:1] == ("step",)
        if not (is_session and ran.err.startswith(b"fault 185")):
            need(ran.status in (0, LAST_STATUS) or not ran.out, f"output with status {ran.status}")
        try:
            self.check_error(ran.status, ran.err.decode("utf-8"))
        except UnicodeDecodeError as fault:
            raise Broken("standard error is not UTF-8") from fault

    def check_error(self, status: int, text: str) -> None:
        """Checks that standard error fits the status."""
        if status == 0:
            need(not text, "text on standard error with status 0")
            return
        need(text.endswith("\n"), f"no line on standard error with status {status}")
        lines = text[:-1].split("\n") if status == 1 else [text[:-1]]
        for line in lines:
            need(line.startswith("failed " if status == 1 else "fault "), f"standard error with status {status}")
            self.check_line(line, str(status))

    def check_line(self, line: str, status: str) -> None:
        """Checks that the page has a line, and that its fault belongs to this status."""
        try:
            faults.answer_to(self.page, line)
        except faults.NoLine as fault:
            raise Broken(f"a line that docs/FAULTS.md does not know: {fault}") from fault
        if line.startswith("fault "):
            causes = self.page.causes[int(line.split(" ")[1])]
            need(any(cause.status == status for cause in causes), f"{line[:40]} with status {status}")

    def check_answers(self, text: bytes) -> None:
        """Checks that all answers of a session are lines that a session prints."""
        need(not text or text.endswith(b"\n"), "the answers of a session do not end with a newline")
        for line in text.split(b"\n")[:-1]:
            if line.startswith(b"fault "):
                self.check_line(line.decode("utf-8", "replace"), "0")
            elif not (RECORD.fullmatch(line) or STATUS.fullmatch(line) or OTHER_ANSWER.fullmatch(line)):
                raise Broken(f"an unexpected answer of a session: {line[:60]!r}")


def check_findings(ran: Ran, listed: Ran) -> None:
    """Checks that a definition is refused for the first fault that is listed, and accepted if there is none."""
    if LAST_STATUS in (ran.status, listed.status):
        return
    need(listed.status == ran.status, f"show --findings with status {listed.status}")
    need(listed.out.startswith(ran.err) and bool(listed.out) == bool(ran.err), "another fault is listed first")
    need(not listed.err, "show --findings has lines on standard error")


def caches_in(data: bytes) -> list[bytes] | None:
    """Returns the IDs of all cache mounts of a definition, or None if it cannot be parsed."""
    found = []
    try:
        for entry in definition.entries_of(data):
            for record in wire.records(entry):
                if record.field == messages.NUMBERS["Op"]["exec"] and record.form == wire.LENGTH:
                    found += ids_in(messages.parsed("ExecOp", record.data))
    except Unreadable:
        return None
    return found


def ids_in(exec_op: messages.Message) -> list[bytes]:
    """Returns the IDs of the cache mounts of an exec, also uncertain ones."""
    found = []
    for field, mount in exec_op:
        if field != messages.NUMBERS["ExecOp"]["mounts"] or not isinstance(mount, list):
            continue
        kinds = [value for number, value in mount if number == messages.NUMBERS["Mount"]["mountType"]]
        if any(isinstance(kind, int) and kind % MOST_OF_A_NUMBER == 3 for kind in kinds):
            found.append(b"".join(id_bytes(value) for number, value in mount if number == 20))
    return found


def id_bytes(options: object) -> bytes:
    """Returns the ID in a cache's options, joined if it occurs several times."""
    if not isinstance(options, list):
        return b"\n"
    return b"".join(value for field, value in options if field == 1 and isinstance(value, bytes)) or b"-"


class Session:
    """The answers of a session in which each command is followed by `status`."""

    def __init__(self, vertices: int, text: bytes) -> None:
        self.vertices = vertices
        self.lines = text.split(b"\n")[:-1]
        self.place = 0
        self.count = 0
        self.known: dict[int, list[bytes]] = {}
        self.records: list[bytes] = []

    def is_status(self) -> bool:
        """Returns whether the next line is one of a status."""
        return self.place < len(self.lines) and STATUS.fullmatch(self.lines[self.place]) is not None

    def answer(self) -> list[bytes]:
        """Returns the lines up to the next status, and counts events and undone events."""
        start = self.place
        while self.place < len(self.lines) and not self.is_status():
            self.take(self.lines[self.place])
            self.place += 1
        return self.lines[start : self.place]

    def take(self, line: bytes) -> None:
        """Counts a line if it is an event or undoes one."""
        event = RECORD.fullmatch(line)
        if event:
            self.count += 1
            need(int(event[1]) == self.count, f"event {int(event[1])} where event {self.count} is next")
            self.known.pop(self.count, None)
            self.records = [*self.records[: self.count - 1], line]
        elif line.startswith(b"back "):
            self.count -= 1
            text = line.decode("utf-8", "replace")
            need(text == f"back {self.count}", f"{text} where {self.count} events are left")

    def status(self) -> list[bytes]:
        """Returns the status of all vertices, which depends on the record alone."""
        lines = self.lines[self.place : self.place + self.vertices]
        found = [one for line in lines if (one := STATUS.fullmatch(line))]
        need(len(lines) == len(found) == self.vertices, "a status is missing")
        need([int(one[1]) for one in found] == list(range(self.vertices)), "a status is not one of all vertices")
        self.place += self.vertices
        before = self.known.setdefault(self.count, lines)
        need(before == lines, f"another status after the same {self.count} events")
        return lines
