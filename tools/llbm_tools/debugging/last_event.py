"""Says what the last event of a session changed, in the trees of its worker and in caches.

The trees before a micro-step are asked for after an exact step back, and then the event is done again. The result of
an action is compared with the tree that the action was done on, and the worker still has both.
"""

import re
from collections.abc import Collection, Mapping
from typing import IO, NamedTuple

from llbm_tools.debugging import tree_changes, vertex_failures, worker_trees
from llbm_tools.debugging.buildkit_comparison import BuildkitComparison
from llbm_tools.debugging.tree_changes import Compared
from llbm_tools.debugging.vertex_lines import Graph, Vertex
from llbm_tools.llb import definition
from llbm_tools.llb.ops import Mount
from llbm_tools.sessions.session import Event, Session, TooLarge

MOST_CHANGES = 1_000
CACHE = 3
EMPTY = {"/": b"d 0755 0 0"}
ACTED = re.compile(r"acted ([0-9]+)")
RAN = re.compile(r"(?:ran|skipped) ([0-9]+)")
MERGED = re.compile(r"merged ([0-9]+)")


Flat = dict[str, bytes] | str


class Tree(NamedTuple):
    """A tree that an event brought: what it is, and the command of a session that prints it."""

    name: str
    command: str


class Happened(NamedTuple):
    """What an event did, in words; how trees changed by it; trees that it brought as a whole; and what ends otherwise
    in BuildKit."""

    text: str
    compared: list[Compared]
    trees: list[Tree]
    otherwise: list[str]


def step_text(vertex: Vertex, reply: str) -> str:
    """Says in words what a micro-step did, by its reply."""
    acted, ran, merged = ACTED.fullmatch(reply), RAN.match(reply), MERGED.fullmatch(reply)
    if acted:
        return f"action {acted[1]}: {definition.actions_of(vertex.op)[int(acted[1])]}"
    if ran:
        skipped = ", skipped" if reply.startswith("skipped") else ""
        return f"command {ran[1]}: {' '.join(vertex_failures.words_of(vertex, int(ran[1])))}{skipped}"
    if merged:
        return f"lays input {merged[1]} over the tree so far"
    return "reads the local source" if reply == "read" else reply


def base_of(vertex: Vertex, action: int) -> int:
    """Returns the number of the tree that an action is done on; -1 is the empty tree."""
    return vertex.op.file.actions[action].input if vertex.op.file else -1


def mounts_of(vertex: Vertex) -> tuple[Mount, ...]:
    """Returns the mounts of an execution."""
    return vertex.op.exec.mounts if vertex.op.exec else ()


def mount_name(part: worker_trees.Part, mount: Mount) -> str:
    """Names the tree of a mount, with the ID of its cache if it has one."""
    if mount.mount_type != CACHE:
        return part.name
    return f"{part.name} (cache {mount.cache_opt.id if mount.cache_opt else ''})"


def compared(name: str, before: Flat, after: Flat, most: int) -> Compared:
    """Compares two trees, or says why they are not compared."""
    if isinstance(before, str):
        return Compared(name, [], {}, f"not compared: {before}")
    if isinstance(after, str):
        return Compared(name, [], {}, f"not compared: {after}")
    return tree_changes.compared(name, before, after, most)


class Watch:
    """Says what events of a session of a definition changed; with the files of its sources' trees, and the names of
    those to which filters were applied, also what ends otherwise in BuildKit."""

    def __init__(
        self, session: Session, graph: Graph, data: bytes, sources: Mapping[str, IO[bytes]] | None = None,
        filtered: Collection[str] = (),
    ) -> None:
        self.session = session
        self.graph = graph
        self.comparison = None if sources is None else BuildkitComparison(session, graph, data, sources, filtered)

    def outside(self) -> list[str]:
        """Returns what ends otherwise in BuildKit by entries that are no vertices."""
        return self.comparison.outside() if self.comparison else []

    def missing(self) -> str:
        """Returns why it is not known what ends otherwise in BuildKit, or nothing."""
        return self.comparison.missing if self.comparison else ""

    def otherwise(self, event: Event) -> list[str]:
        """Returns what ends otherwise in BuildKit at an event."""
        return self.comparison.of_event(event) if self.comparison else []

    def last(self, most: int = MOST_CHANGES) -> Happened | None:
        """Returns what the last event did, or None at the beginning of the run."""
        if not self.session.record:
            return None
        event = self.session.record[-1]
        vertex = self.graph.vertices[event.vertex]
        if event.kind == "claim":
            return self.claimed(event)
        if event.kind == "settle":
            return self.settled(event, vertex)
        if event.kind == "cancel":
            return Happened(f"worker {event.worker} gives vertex {event.vertex} up", [], [], [])
        return self.stepped(event, vertex, most)

    def claimed(self, event: Event) -> Happened:
        """Returns what a claim did: the trees that the vertex begins with."""
        parts = worker_trees.parts_of(self.session, event.worker)
        held = [Tree(part.name, f"work {event.worker} {part.number}") for part in parts]
        text = f"worker {event.worker} takes vertex {event.vertex}"
        return Happened(text, [], held, self.otherwise(event))

    def settled(self, event: Event, vertex: Vertex) -> Happened:
        """Returns what a settle did: the outputs of the vertex, or why it failed."""
        if event.fails():
            why = vertex_failures.why_failed(self.session, vertex, len(self.session.record) - 1)
            return Happened(f"vertex {event.vertex} failed" + (f": {why}" if why else ""), [], [], [])
        outputs = [Tree(f"output {i}", f"tree {event.vertex} {i}") for i in range(vertex.outputs)]
        return Happened(f"vertex {event.vertex} is done", [], outputs, self.otherwise(event))

    def stepped(self, event: Event, vertex: Vertex, most: int) -> Happened:
        """Returns what a micro-step did."""
        why = vertex_failures.why_step(self.session, vertex, event)
        acted = ACTED.fullmatch(event.reply)
        otherwise = self.otherwise(event)
        if why:
            return Happened(why, [], [], otherwise)
        if acted:
            found = [self.acted(event, vertex, int(acted[1]), most)]
            return Happened(step_text(vertex, event.reply), found, [], otherwise)
        numbers = self.numbers_changed(event, vertex)
        return Happened(step_text(vertex, event.reply), self.before_and_after(event, numbers, most), [], otherwise)

    def flat(self, worker: int, number: int) -> Flat:
        """Returns the entries of a tree of a worker by path, or why they are not read."""
        try:
            return worker_trees.flat_by(self.session, f"work {worker} {number}")
        except TooLarge as cause:
            return str(cause)

    def acted(self, event: Event, vertex: Vertex, action: int, most: int) -> Compared:
        """Compares the result of an action with the tree that it was done on."""
        base = base_of(vertex, action)
        before = self.flat(event.worker, base) if base >= 0 else EMPTY
        return compared(f"result {action}", before, self.flat(event.worker, len(vertex.inputs) + action), most)

    def numbers_changed(self, event: Event, vertex: Vertex) -> dict[int, str]:
        """Returns the trees that a micro-step may have changed, by number, with their names."""
        if event.reply.startswith("ran "):
            parts, mounts = worker_trees.parts_of(self.session, event.worker), mounts_of(vertex)
            pairs = zip(parts, mounts)
            return {part.number: mount_name(part, mount) for part, mount in pairs if not mount.readonly}
        parts = worker_trees.parts_of(self.session, event.worker) if event.reply.startswith("merged ") else []
        return {part.number: part.name for part in parts if part.role == "laid"}

    def before_and_after(self, event: Event, numbers: dict[int, str], most: int) -> list[Compared]:
        """Compares trees of a worker with those before the last event; only those that differ are returned."""
        if not numbers:
            return []
        after = [self.flat(event.worker, number) for number in numbers]
        with self.session.earlier(len(self.session.record) - 1):
            before = [self.flat(event.worker, number) for number in numbers]
        found = map(compared, numbers.values(), before, after, [most] * len(numbers))
        return [one for one in found if one.left or any(one.counts.values())]
