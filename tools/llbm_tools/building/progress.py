"""A session that a build runs vertex by vertex, and the names of vertices."""

import collections
import contextlib
import re
from collections.abc import Iterator
from typing import BinaryIO, NamedTuple

from llbm_tools.llb import names
from llbm_tools.llb.wire import Unreadable
from llbm_tools.sessions import shows
from llbm_tools.sessions.dialog import EVENT, Closed, Dialog
from llbm_tools.streams import Refused

CLAIM = re.compile(r"[0-9]+ claim [0-9]+ ([0-9]+) -> (\w+) [0-9]+")
SETTLE = re.compile(r"[0-9]+ settle [0-9]+ -> ([0-9]+) (done|failed)")
FAILURE = re.compile(r"([0-9]+) failed (.*)")


class Unexpected(Exception):
    """The session answered with a line that the build does not expect."""


class Settled(NamedTuple):
    """A vertex that has settled."""

    vertex: int
    kind: str
    state: str


def names_in(data: bytes) -> dict[int, str]:
    """Returns the names of a definition's vertices that have one in its metadata."""
    try:
        found = names.names_of_vertices(names.names_of(data))
    except Unreadable:
        return {}
    return {name.vertex: name.text for name in found if name.vertex is not None and name.text}


class BuildSession(Dialog):
    """The session of a build."""

    def graph(self) -> shows.Show | None:
        """Returns the graph, or None if the answer is not one."""
        self.send("graph")
        with contextlib.suppress(Refused):
            return shows.show_of("".join(f"{line}\n" for line in self.texts()))
        return None

    def copy_tree(self, vertex: int, output: int, text: BinaryIO) -> None:
        """Writes the text of the tree of an output; nothing if the session ends within it."""
        self.send(f"tree {vertex} {output}")
        try:
            text.writelines(line + b"\n" for line in self.lines())
        except Closed:
            text.seek(0)
            text.truncate()
            raise

    def tree(self, vertex: int, output: int) -> list[bytes] | None:
        """Returns the lines of an output, or None if there is none."""
        self.send(f"tree {vertex} {output}")
        found = [line + b"\n" for line in self.lines()]
        return None if found[:1] == [b"none\n"] or found[:1] and found[0].startswith(b"fault ") else found

    def run(self) -> bool:
        """Runs to the end, and returns whether no vertex has failed."""
        self.send("go")
        *events, end = self.texts() or [""]
        for line in [*(line for line in events if not EVENT.fullmatch(line)), *([] if end == "end" else [end])]:
            raise Unexpected(line)
        return not any(line.endswith(" failed") for line in events)

    def settled(self) -> Iterator[Settled]:
        """Yields the vertices as they settle, up to the end; the session chooses the events."""
        while True:
            self.send("next")
            line = "\n".join(self.texts())
            if line == "end":
                return
            claim = CLAIM.fullmatch(line)
            if not claim:
                raise Unexpected(line)
            yield self.settle(*claim.groups())

    def settle(self, vertex: str, kind: str) -> Settled:
        """Continues until the claimed vertex has settled."""
        self.send("clear", f"break settle {vertex}", "go")
        for _ in ("clear", "break"):
            self.expect_nothing()
        last_two = collections.deque(self.lines(), 2)
        before, line = ["", "", *(line.decode("ascii", "backslashreplace") for line in last_two)][-2:]
        settle = SETTLE.fullmatch(before)
        if line != "stop" or not settle or settle[1] != vertex:
            raise Unexpected(line)
        return Settled(int(vertex), kind, settle[2])

    def expect_nothing(self) -> None:
        """Reads an answer that has no lines."""
        if lines := self.texts():
            raise Unexpected(lines[0])

    def failures(self) -> list[str]:
        """Returns a line for each vertex that failed, as a run prints it."""
        self.send("status")
        found = []
        for line in self.texts():
            if failure := FAILURE.fullmatch(line):
                found.append(f"failed {failure[1]} {failure[2]}")
        return found
