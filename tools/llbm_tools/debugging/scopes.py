"""The scopes of what runs and of what changed: the trees of a worker, caches, the last event, and failed vertices."""

import functools
from collections.abc import Callable
from typing import Protocol

from llbm_tools.common import printable, shortened
from llbm_tools.debugging import last_event, shown_trees, tree_changes, worker_trees
from llbm_tools.debugging.last_event import Happened, Tree, Watch
from llbm_tools.debugging.launching import Launched
from llbm_tools.debugging.request_arguments import Object
from llbm_tools.debugging.tree_changes import Change, Compared

MOST_OF_A_VALUE = 2_000

Variable = Object
Variables = list[Object]


class Host(Protocol):
    """What gives the variables their nodes and references."""

    def tree_by(self, command: str) -> shown_trees.Node | None:
        """Returns the tree that a command prints, or None."""

    def node(self, name: str, node: shown_trees.Node, expression: str | None) -> Variable:
        """Returns the variable for a node of a tree."""

    def reference(self, opener: Callable[[], Variables]) -> int:
        """Returns a new reference to variables."""

    def why(self, vertex: int) -> str | None:
        """Says why a vertex failed, or returns None."""


def plain(name: str, value: str) -> Variable:
    """Returns a variable that can't be expanded."""
    return {"name": printable(name), "value": printable(value), "variablesReference": 0}


class RunScopes:
    """The variables for trees that are not outputs. References and nodes are those of the views."""

    def __init__(self, launched: Launched, views: Host) -> None:
        self.session = launched.session
        self.graph = launched.graph
        self.views = views
        self.watch = Watch(
            launched.session, launched.graph, launched.entries.data, launched.sources, launched.filtered
        )
        self.seen: Happened | None = None

    def close(self) -> None:
        """Forgets what the last event changed, because the run moves."""
        self.seen = None

    def tree(self, name: str, command: str) -> Variable:
        """Returns the variable for the tree that a command prints, which is also its expression."""
        node = self.views.tree_by(command)
        return plain(name, "none") if node is None else self.views.node(printable(name), node, f"{command}:/")

    def work(self, worker: int) -> Variables:
        """Returns the variables for the trees that a worker works on."""
        parts = worker_trees.parts_of(self.session, worker)
        return [self.tree(part.name, f"work {worker} {part.number}") for part in parts] or [plain("trees", "none")]

    def settle_of(self, vertex: int) -> int:
        """Returns the place in the record of the event that settled a vertex."""
        record = self.session.record
        return max(place for place, event in enumerate(record) if (event.kind, event.vertex) == ("settle", vertex))

    def left(self, vertex: int) -> Variables:
        """Returns the variables for why a vertex failed and for the trees that it had when it failed."""
        place = self.settle_of(vertex)
        worker = self.session.record[place].worker
        why = self.views.why(vertex)
        with self.session.earlier(place):
            parts = worker_trees.parts_of(self.session, worker)
            held = [worker_trees.tree_by(self.session, f"work {worker} {part.number}") for part in parts]
        found = [self.views.node(part.name, node, None) for part, node in zip(parts, held) if node]
        return [*([plain("why", why)] if why else []), *found]

    def caches(self) -> Variables:
        """Returns the variables for the keys of the caches; each expands to its instances."""
        found = []
        for key in worker_trees.keys_of(self.session):
            count = shown_trees.counted(key.instances, "instance", "instances")
            variable = plain(f"{key.number} {key.id}", f"{key.mode}, {count}, seed {key.seed}")
            if key.instances:
                opener = self.views.reference(functools.partial(self.instances, key))
                variable |= {"variablesReference": opener, "namedVariables": key.instances}
            found.append(variable)
        return found or [plain("caches", "none")]

    def instances(self, key: worker_trees.Key) -> Variables:
        """Returns the variables for the instances of a key."""
        return [self.tree(f"instance {i}", f"cache {key.number} {i}") for i in range(key.instances)]

    def changed(self) -> Variables:
        """Returns the variables for what the last event changed."""
        self.seen = self.seen or self.watch.last()
        if self.seen is None:
            outside = [plain("BuildKit", line) for line in filter(None, [self.watch.missing(), *self.watch.outside()])]
            return [plain("event", "none: the run is at its beginning"), *outside]
        found = [plain("event", self.session.record[-1].line), plain("what", self.seen.text)]
        for one in self.seen.compared:
            found += self.compared(one)
        found += map(self.brought, self.seen.trees)
        found += [plain("BuildKit", line) for line in self.seen.otherwise]
        return found if len(found) > 2 else [*found, plain("trees", "nothing changed")]

    def brought(self, tree: Tree) -> Variable:
        """Returns the variable for a tree that an event brought as a whole."""
        return self.tree(tree.name, tree.command)

    def compared(self, one: Compared) -> Variables:
        """Returns the variables for how a tree changed: how many paths, those that are shown, and how many are not."""
        found = [plain(one.name, one.summary())]
        found += [self.change(one.name, change) for change in one.changes]
        more = sum(one.counts.values()) - len(one.changes)
        counted = shown_trees.counted(more, "more path", "more paths")
        limit = f"{counted} changed; the first {last_event.MOST_CHANGES:,} are shown"
        return [*found, plain(f"{one.name}: more", limit)] if more else found

    def change(self, tree: str, change: Change) -> Variable:
        """Returns the variable for a path that changed; it expands to the entry before and after."""
        variable = plain(f"{tree}: {change.path}", shortened(change.shown(), MOST_OF_A_VALUE))
        pairs = [("before", change.before), ("after", change.after)]
        if change.kind != tree_changes.CHANGED:
            return variable
        shown = [plain(name, tree_changes.entry_text(node)) for name, node in pairs]
        return variable | {"variablesReference": self.views.reference(lambda: shown), "namedVariables": 2}
