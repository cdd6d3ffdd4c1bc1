"""What can be inspected in a run that has stopped: scopes and variables, and expressions."""

import functools
import re
from collections.abc import Callable

from llbm_tools.common import names_in, printable, shortened
from llbm_tools.debugging import shown_trees, vertex_failures, worker_trees
from llbm_tools.debugging.launching import Launched
from llbm_tools.debugging.request_arguments import Object
from llbm_tools.debugging.scopes import RunScopes
from llbm_tools.llb import definition
from llbm_tools.streams import Refused

MOST_OF_A_NAME = 60
OUTPUT = re.compile(r"\s*([0-9]{1,9})\.([0-9]{1,9})(?:\s*|:(.*))", re.DOTALL)
VERTEX = re.compile(r"\s*([0-9]{1,9})\s*")
LABEL = re.compile(r"\s*%([0-9]{1,9})\s*")
LOOK = re.compile(r"\s*((?:work|cache) [0-9]{1,9} [0-9]{1,9})(?:\s*|:(.*))", re.DOTALL)
FORMS = "V.I:/path, V, %k, work W I:/path and cache K I:/path"

Variables = list[Object]


class Views:
    """What a client can look at in a session. References to variables are valid until the run moves."""

    def __init__(self, launched: Launched) -> None:
        self.session = launched.session
        self.graph = launched.graph
        self.origins = launched.origins
        self.known: dict[tuple[int, int], shown_trees.Node] = {}
        self.looked: dict[str, shown_trees.Node | None] = {}
        self.whys: dict[int, str | None] = {}
        self.run_scopes = RunScopes(launched, self)
        self.openers: list[Callable[[], Variables]] = []
        self.first = 1

    def close(self) -> None:
        """Invalidates all references to variables, because the run moves."""
        self.first += len(self.openers)
        self.openers = []
        self.looked = {}
        self.run_scopes.close()

    def forget(self) -> None:
        """Forgets all outputs and why later events failed, because an event was undone."""
        self.known = {}
        self.whys = {place: why for place, why in self.whys.items() if place < len(self.session.record)}

    def note_failure(self, vertex: int) -> None:
        """Stores why a vertex failed, by the last event: looking now takes one event back, and later it takes more."""
        self.why(vertex)

    def reference(self, opener: Callable[[], Variables]) -> int:
        """Returns a new reference to the variables that a function returns."""
        self.openers.append(opener)
        return self.first + len(self.openers) - 1

    def variables(self, reference: int) -> Variables:
        """Returns the variables of a reference."""
        place = reference - self.first
        if not 0 <= place < len(self.openers):
            raise Refused(f"variablesReference {reference} is not known in this state")
        return self.openers[place]()

    def vertex_of(self, worker: int) -> int | None:
        """Returns the vertex of a worker's frame: what it runs, or what it settled by the last event."""
        run = self.session.runs[worker]
        if run is not None:
            return run.vertex
        last = self.session.record[-1] if self.session.record else None
        return last.vertex if last and last.kind == "settle" and last.worker == worker else None

    def title(self, number: int) -> str:
        """Describes a vertex by its number, its kind, and its own name or the beginning of what it does."""
        return f"{number} {self.described(number)}"

    def described(self, number: int) -> str:
        """Describes a vertex in the same way, without its number."""
        vertex = self.graph.vertices[number]
        text = vertex.name or "; ".join(definition.texts_of(vertex.op))
        text = shortened(printable(text), MOST_OF_A_NAME)
        return vertex.kind + (f": {text}" if text else "")

    def place_of(self, number: int) -> str:
        """Returns the place of a vertex in a file that the definition was made from, or an empty text."""
        for one in self.origins.ranges[self.graph.vertices[number].entry]:
            lines = f"{one.first}" if one.first == one.last else f"{one.first}-{one.last}"
            return printable(f"{self.origins.files[one.file].name}:{lines}")
        return ""

    def progress(self, worker: int) -> str:
        """Describes how far a worker is with the vertex of its frame."""
        run = self.session.runs[worker]
        if run is None:
            return self.session.record[-1].reply.partition(" ")[2]
        return f"{run.steps} of {self.graph.vertices[run.vertex].steps} steps"

    def tree(self, vertex: int, output: int) -> shown_trees.Node | None:
        """Returns the tree of an output, or None if there is none now."""
        if (vertex, output) not in self.known:
            node = worker_trees.tree_by(self.session, f"tree {vertex} {output}")
            if node is None:
                return None
            self.known[vertex, output] = node
        return self.known[vertex, output]

    def tree_by(self, command: str) -> shown_trees.Node | None:
        """Returns the tree that a command prints in this state, or None."""
        if command not in self.looked:
            self.looked[command] = worker_trees.tree_by(self.session, command)
        return self.looked[command]

    def node(self, name: str, node: shown_trees.Node, expression: str | None) -> Object:
        """Returns the variable for a node of a tree; a directory expands to its entries."""
        variable: Object = {"name": name, "value": shown_trees.summary_of(node), "variablesReference": 0}
        if expression is not None:
            variable["evaluateName"] = expression
        if not node.is_directory():
            return {**variable, "type": "file"}
        return {**variable, "type": "directory", **self.opening(node, expression)}

    def opening(self, node: shown_trees.Node, expression: str | None) -> Object:
        """Returns the fields that make a directory expandable, if it has entries."""
        if not node.entries:
            return {}

        def entry(name: str, below: shown_trees.Node) -> Object:
            """Returns the variable for an entry of the directory."""
            return self.node(name, below, None if expression is None else f"{expression.rstrip('/')}/{name}")

        opener = self.reference(lambda: [entry(name, below) for name, below in node.entries.items()])
        return {"variablesReference": opener, "namedVariables": len(node.entries)}

    def output(self, name: str, vertex: int, output: int) -> Object:
        """Returns the variable for an output."""
        node = self.tree(vertex, output)
        if node is None:
            return {"name": name, "value": "none", "variablesReference": 0}
        return self.node(name, node, f"{vertex}.{output}:/")

    def outputs(self, vertex: int) -> Variables:
        """Returns the variables for the outputs of a vertex."""
        return [self.output(f"output {i}", vertex, i) for i in range(self.graph.vertices[vertex].outputs)]

    def inputs(self, vertex: int) -> Variables:
        """Returns the variables for the inputs of a vertex, each with the output that it names."""
        named = enumerate(self.graph.vertices[vertex].inputs)
        return [self.output(f"input {i}, {edge}", *map(int, edge.split("."))) for i, edge in named]

    def facts(self, vertex: int, progress: str) -> Variables:
        """Returns the variables that describe a vertex: its entry, its progress, and what it does."""
        known = self.graph.vertices[vertex]
        facts = {"vertex": str(vertex), "kind": known.kind, "entry": str(known.entry), "progress": progress}
        if known.name:
            facts["name"] = known.name
        if known.kind == "file":
            facts |= {f"action {i}": text for i, text in enumerate(definition.actions_of(known.op))}
        elif known.kind == "exec":
            facts |= {f"command {i}": text for i, text in enumerate(definition.commands_of(known.op))}
        elif known.kind == "source":
            facts["identifier"] = definition.texts_of(known.op)[0]
        if progress.startswith("failed"):
            facts |= {"why": why} if (why := self.why(vertex)) else {}
        return [{"name": name, "value": printable(text), "variablesReference": 0} for name, text in facts.items()]

    def why(self, vertex: int) -> str | None:
        """Says why a vertex failed, or returns None where that is not known."""
        place = self.run_scopes.settle_of(vertex)
        if place not in self.whys:
            self.whys[place] = vertex_failures.why_failed(self.session, self.graph.vertices[vertex], place)
        return self.whys[place]

    def graph_variables(self) -> Variables:
        """Returns the variables for all vertices with their status; each expands to its outputs, or to what it left."""
        openers = {"done": self.outputs, "failed": self.run_scopes.left}
        found: Variables = []
        for vertex, status in enumerate(self.session.status()):
            opens = openers.get(status.partition(" ")[0])
            opener = self.reference(functools.partial(opens, vertex)) if opens else 0
            found.append({"name": self.title(vertex), "value": status, "variablesReference": opener})
        return found

    def scopes(self, worker: int) -> list[Object]:
        """Returns the scopes of a worker's frame."""
        vertex = self.vertex_of(worker)
        if vertex is None:
            raise Refused(f"frameId {worker + 1} is not known: worker {worker} is idle")
        known, progress = self.graph.vertices[vertex], self.progress(worker)
        return [
            self.scope("Vertex", functools.partial(self.facts, vertex, progress), presentationHint="locals"),
            self.scope("Changed by the last step", self.run_scopes.changed, expensive=True),
            *self.work_scopes(worker, vertex),
            self.scope(
                "Inputs", functools.partial(self.inputs, vertex), len(known.inputs), presentationHint="arguments"
            ),
            self.scope(
                "Outputs", functools.partial(self.outputs, vertex), known.outputs, presentationHint="returnValue"
            ),
            self.scope("Caches", self.run_scopes.caches, expensive=True),
            self.scope("All vertices", self.graph_variables, len(self.graph.vertices), expensive=True),
        ]

    def work_scopes(self, worker: int, vertex: int) -> list[Object]:
        """Returns the scope of what a worker has made so far, or had made when its vertex failed."""
        if self.session.runs[worker] is not None:
            return [self.scope("Work", lambda: self.run_scopes.work(worker), expensive=True)]
        if not self.session.record[-1].fails():
            return []
        return [self.scope("Work when it failed", lambda: self.run_scopes.left(vertex), expensive=True)]

    def scope(self, name: str, opener: Callable[[], Variables], count: int | None = None, **more: object) -> Object:
        """Returns a scope, with the number of its variables if that is known."""
        counted = {} if count is None else {"namedVariables": count}
        return {"name": name, "variablesReference": self.reference(opener), "expensive": False, **counted, **more}

    def evaluate(self, expression: str) -> Object:
        """Evaluates `V.I:/path` or a tree of a worker or of a cache, `V` (a vertex) or `%k` (the vertex of entry k)."""
        output, look, vertex, label = (form.fullmatch(expression) for form in (OUTPUT, LOOK, VERTEX, LABEL))
        if output:
            return self.evaluated_output(int(output[1]), int(output[2]), output[3] or "/")
        if look:
            return self.evaluated_look(look[1], look[2] or "/")
        if vertex:
            return self.evaluated_vertex(int(vertex[1]))
        if label:
            return self.evaluated_entry(int(label[1]))
        raise Refused(f"{shortened(expression, MOST_OF_A_NAME)!r} is none of {FORMS}")

    def check_vertex(self, number: int) -> None:
        """Checks that there is a vertex with this number."""
        if number >= len(self.graph.vertices):
            raise Refused(f"there is no vertex {number}")

    def evaluated_output(self, vertex: int, output: int, path: str) -> Object:
        """Returns what is at a path of an output."""
        self.check_vertex(vertex)
        root = self.tree(vertex, output)
        if root is None:
            raise Refused(f"there is no output {vertex}.{output}" + self.why_no_output(vertex, output))
        return self.evaluated_node(f"{vertex}.{output}", root, path)

    def evaluated_look(self, command: str, path: str) -> Object:
        """Returns what is at a path of a tree of a worker or of a cache."""
        root = self.tree_by(command)
        if root is None:
            raise Refused(f"there is no tree {command}")
        return self.evaluated_node(command, root, path)

    def evaluated_node(self, expression: str, root: shown_trees.Node, path: str) -> Object:
        """Returns what is at a path of a tree."""
        try:
            node = shown_trees.node_at(root, path)
        except shown_trees.NoPath as fault:
            raise Refused(f"{expression}: {fault}") from fault
        names = names_in(path) or []
        shown: Object = {"result": shown_trees.description_of(node), "variablesReference": 0, "type": "file"}
        if not node.is_directory():
            return shown
        return shown | {"type": "directory"} | self.opening(node, f"{expression}:/" + "/".join(names))

    def why_no_output(self, vertex: int, output: int) -> str:
        """Says why an output has no tree, if its vertex could have one."""
        if output >= self.graph.vertices[vertex].outputs:
            return ""
        return f": vertex {vertex} is {self.session.status()[vertex]}"

    def evaluated_vertex(self, number: int) -> Object:
        """Describes a vertex: its status, what the program prints for it, and what it does."""
        self.check_vertex(number)
        vertex = self.graph.vertices[number]
        lines = [f"{number} {self.session.status()[number]}"]
        counts = f"steps {vertex.steps}, outputs {vertex.outputs}, inputs {' '.join(vertex.inputs) or '-'}"
        lines += [f"{vertex.kind}, {counts}", *map(printable, definition.texts_of(vertex.op))]
        if " failed " in lines[0]:
            lines += filter(None, [self.why(number)])
        return {"result": "\n".join(lines), "variablesReference": 0, "type": "vertex"}

    def evaluated_entry(self, number: int) -> Object:
        """Describes the vertex of an entry."""
        vertex = self.graph.vertex_of[number] if number < len(self.graph.vertex_of) else None
        if vertex is None:
            raise Refused(f"entry {number} is not a vertex")
        return self.evaluated_vertex(vertex)
