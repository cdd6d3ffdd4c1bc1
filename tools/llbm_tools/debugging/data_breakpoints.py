"""The requests about data breakpoints: the run stops after an event that changes a path of a tree. And what a command
would do to the trees where a run has stopped.
"""

from typing import NamedTuple

from llbm_tools.debugging import launching, path_breakpoints, tried_commands
from llbm_tools.debugging.breakpoint_requests import Breaking
from llbm_tools.debugging.breakpoints import Condition, NoBreakpoint, condition_of
from llbm_tools.debugging.event_lines import change_line
from llbm_tools.debugging.protocol_messages import Writer
from llbm_tools.debugging.request_arguments import Object, argument, of_kind
from llbm_tools.debugging.run_control import Stop
from llbm_tools.sessions.session import Event
from llbm_tools.streams import Refused


# The most paths that are shown of what a command that is tried would change.
MOST_SHOWN = 100


class Watched(NamedTuple):
    """A data breakpoint: its number, its path, and at which hits it stops."""

    number: int
    path: str
    stops: Condition


class Watching(Breaking):
    """An adapter's data breakpoints, which stay through a restart."""

    def __init__(self, writer: Writer) -> None:
        super().__init__(writer)
        self.given: Object = {}
        self.watched: list[Watched] = []
        # How often each was hit, by the number of events that the record had then, so that steps back count back.
        self.hits: dict[int, set[int]] = {}

    def data_breakpoint_info(self, arguments: Object) -> Object:
        """Returns the path of a variable, or of an expression, at which a data breakpoint can be set."""
        name, reference = argument(arguments, "name", str), argument(arguments, "variablesReference", int, 0)
        expression = self.expression_of(name, reference) if reference else name
        path = expression[expression.find(":") + 1 :] if ":/" in expression else expression
        if not path.startswith("/"):
            return {"dataId": None, "description": f"{name} has no path of a tree"}
        description = f"{path}, in any tree that a step changes"
        return {"dataId": path, "description": description, "accessTypes": ["write"], "canPersist": True}

    def expression_of(self, name: str, reference: int) -> str:
        """Returns the expression of a variable, or an empty text."""
        found = [one for one in self.views.variables(reference) if one["name"] == name]
        return str(found[0].get("evaluateName", "")) if found else ""

    def set_data_breakpoints(self, arguments: Object) -> Object:
        """Replaces the data breakpoints; each gets an answer."""
        self.watched, self.hits = [], {}
        answers = []
        for given in argument(arguments, "breakpoints", list):
            one = of_kind(given, "a breakpoint", dict)
            self.breakpoint_count += 1
            answer: Object = {"id": self.breakpoint_count, "verified": False}
            try:
                hits = argument(one, "hitCondition", str, "")
                answers.append(answer | self.watch(argument(one, "dataId", str), hits))
            except NoBreakpoint as cause:
                answers.append({**answer, "message": str(cause)})
        self.mover.stops_for = self.data_stop
        return {"breakpoints": answers}

    def watch(self, path: str, hits: str) -> Object:
        """Sets a data breakpoint, and returns what its answer has more."""
        if not path.startswith("/"):
            raise NoBreakpoint("the data breakpoint has no path of a tree")
        self.watched.append(Watched(self.breakpoint_count, path, condition_of(hits)))
        return {"verified": True}

    def data_stop(self, event: Event) -> Stop | None:
        """Returns the stop after an event that changes one of the paths, or None."""
        place = len(self.launched.session.record)
        for one in self.watched if event.kind == "step" else []:
            touched = path_breakpoints.last_change(self.views.run_scopes.watch, one.path)
            found = {each for each in self.hits.get(one.number, set()) if each < place}
            self.hits[one.number] = found | ({place} if touched else set())
            if touched and one.stops(len(self.hits[one.number])):
                text = f"{touched.tree}: {change_line(touched.change)}"
                return Stop("data breakpoint", text, event.worker, (one.number,))
        return None

    def set_again(self) -> None:
        """Sets all breakpoints on another run."""
        super().set_again()
        self.hits = {}
        self.mover.stops_for = self.data_stop

    def try_commands(self, arguments: Object, words: str) -> Object:
        """Returns what commands would do to the trees of a frame, or of the last event; the run stays as it is."""
        if not words:
            raise Refused("try COMMAND: the command is missing")
        session = self.launched.session
        frame = argument(arguments, "frameId", int, 0)
        last = session.record[-1].worker if session.record else 0
        worker = (frame - 1) % len(session.runs) if frame > 0 else last
        vertex = self.views.vertex_of(worker)
        if vertex is None:
            raise Refused(f"worker {worker} is idle: it has no tree on which a command could be tried")
        stage = tried_commands.stage_of(self.launched, worker, vertex)
        program = launching.program_of(self.given, "the argument llbm")
        lines = tried_commands.tried_lines(self.launched, program, stage, words, MOST_SHOWN)
        return {"result": "\n".join(lines) or "it changes nothing", "variablesReference": 0}
