"""The requests of the Debug Adapter Protocol, answered by a stepping session: the run from its start to its end.

Requests are handled one after another. While a run is in progress, one event at a time is done if no request is
waiting, so that the run can be paused between any two events.
"""

import functools
import secrets
from collections.abc import Callable

from llbm_tools import commands
from llbm_tools.debugging import completion, console, launching
from llbm_tools.debugging.adapter_state import Held
from llbm_tools.debugging.capabilities import CAPABILITIES, FAILED
from llbm_tools.debugging.data_breakpoints import Watching
from llbm_tools.debugging.inspection_requests import Inspecting
from llbm_tools.debugging.protocol_messages import Writer
from llbm_tools.debugging.request_arguments import Object, argument
from llbm_tools.debugging.run_control import Ended, Motion, Mover, Stop
from llbm_tools.debugging.variables import Views
from llbm_tools.sessions.session import Event, Refusal, SessionFailed
from llbm_tools.streams import Refused

NEW, OPEN, LAUNCHED, STOPPED, RUNNING, OVER = "new", "open", "launched", "stopped", "running", "over"
WHY_NOT = {
    NEW: "initialize has to come first",
    OPEN: "initialize is done, and nothing is launched yet",
    LAUNCHED: "a launch is done, and configurationDone has to come next",
    STOPPED: "the run is stopped",
    RUNNING: "the run is in progress",
    OVER: "the run has ended",
}
READY = (LAUNCHED, STOPPED, RUNNING)


class Adapter(Inspecting, Watching):
    """A debug adapter, from its first request to its last; with a token a launch has to have it."""

    def __init__(self, writer: Writer, token: str | None = None) -> None:
        super().__init__(writer)
        self.token = token
        self.state = NEW
        self.then: list[Callable[[], None]] = []
        self.stops_on_entry = self.stops_at_end = False
        self.stopped_at_end: int | None = None
        self.left = False

    # ---- the run

    def handle(self, message: object) -> None:
        """Handles a message, and sends the response."""
        request = message if isinstance(message, dict) else {}
        number, command = request.get("seq"), request.get("command")
        sequence = number if isinstance(number, int) and not isinstance(number, bool) else 0
        name = command if isinstance(command, str) else ""
        self.then = []
        try:
            body = self.answer(request, name)
        except Refused as cause:
            self.fail(sequence, name, str(cause))
        except Refusal as refusal:
            self.fail(sequence, name, " ".join([str(refusal), *launching.explained(str(refusal))]))
        except SessionFailed as fault:
            self.fail(sequence, name, str(fault))
            self.crash(fault)
        else:
            self.respond(sequence, name, body)
            for action in self.then:
                self.guarded(action)

    def answer(self, request: Object, name: str) -> Object | None:
        """Returns the body of the response to a request."""
        if request.get("type") != "request" or not name:
            raise Refused("the message is not a request")
        if name not in REQUESTS:
            raise Refused(f"the request {name} is not known")
        arguments: Object = argument(request, "arguments", dict, {})
        handler, states = REQUESTS[name]
        if self.state not in states:
            raise Refused(f"{name}: {WHY_NOT[self.state]}")
        return handler(self, arguments)

    def guarded(self, action: Callable[[], None]) -> None:
        """Does an action; if the program has ended, reports that and ends the run."""
        try:
            action()
        except SessionFailed as fault:
            self.crash(fault)
        except Refusal as refusal:
            self.output(f"the program refuses: {refusal}", "stderr")
            self.halt(Stop("pause", str(refusal), 0))

    def turn(self) -> None:
        """Does one event of a continuing run."""
        self.guarded(self.move)

    def move(self) -> None:
        """Does one event of the motion; the run stops or ends where the motion does."""
        try:
            stop = self.motion() if self.motion else None
        except Ended:
            self.complete()
            return
        if stop:
            self.halt(stop)

    def begin(self, motion: Motion) -> None:
        """Starts a motion after the response."""
        self.state, self.motion, self.stop = RUNNING, motion, None
        self.views.close()

    def halt(self, stop: Stop) -> None:
        """Stops the run, and reports why."""
        self.state, self.motion, self.stop = STOPPED, None, stop
        body: Object = {"reason": stop.reason, "description": stop.description, "threadId": stop.worker + 1}
        body["allThreadsStopped"] = True
        if stop.reason == "exception":
            vertex = self.settled_by(stop.worker)
            body["text"] = ": ".join(filter(None, [self.failure_of(vertex), self.views.why(vertex)]))
        if stop.hits:
            body["hitBreakpointIds"] = list(stop.hits)
        self.event("stopped", body)

    def settled_by(self, worker: int) -> int:
        """Returns the vertex that a worker has just settled."""
        vertex = self.views.vertex_of(worker)
        if vertex is None:
            raise Refused(f"worker {worker} is idle")
        return vertex

    def report(self, event: Event, line: str) -> None:
        """Reports an event that was done or undone, with the line of its vertex."""
        self.views.close()
        if line != event.line:
            self.views.forget()
        elif event.fails():
            self.views.note_failure(event.vertex)
        place = self.line(self.launched.graph.vertices[event.vertex].first)
        self.output(line, "stdout", source=self.source(), line=place)

    def exit_code(self) -> int:
        """Returns the exit code of the run: 1 if a vertex failed."""
        return int(any(event.fails() for event in self.launched.session.record))

    def explain(self, line: str, meaning: list[str]) -> None:
        """Reports a line of the program with its explanation."""
        for text in [line, *(f"  {one}" for one in meaning)]:
            self.output(text, "stderr")

    def complete(self) -> None:
        """Handles the end of the run: reports it, and stops once unless that was not wanted, else ends the session."""
        count = len(self.launched.session.record)
        if self.stopped_at_end != count:
            self.report_end(count)
        if self.stops_at_end and self.stopped_at_end != count:
            self.stopped_at_end = count
            last = self.launched.session.record[-1].worker if count else 0
            self.halt(Stop("end", "the run is complete", last))
            return
        self.close(self.exit_code())

    def report_end(self, count: int) -> None:
        """Reports the vertices that failed, or the result of a run without failures."""
        for vertex, line in self.failures():
            self.explain(line, self.meaning(line, vertex))
        if not self.exit_code():
            self.output(f"the run is complete after {count} events, with the result {self.launched.graph.result}")

    def crash(self, fault: SessionFailed) -> None:
        """Reports that the program ended by itself."""
        self.output(str(fault), "stderr")
        for line in fault.words:
            self.explain(line, self.meaning(line))
        self.close(fault.status)

    def close(self, status: int) -> None:
        """Ends the run, and reports that."""
        self.state, self.motion = OVER, None
        self.launched.session.end()
        self.event("exited", {"exitCode": status})
        self.event("terminated")

    def dismiss(self) -> None:
        """Stops the program without a report. It may have ended already."""
        if self.held:
            self.held.launched.session.end()

    # ---- requests: start and end

    def initialize(self, arguments: Object) -> Object:
        """Stores the client's settings, and returns the capabilities of the adapter."""
        argument(arguments, "adapterID", str)
        for name in ("linesStartAt1", "columnsStartAt1", "supportsVariableType"):
            argument(arguments, name, bool, False)
        if argument(arguments, "pathFormat", str, "path") != "path":
            raise Refused("pathFormat is not path, the only form that is known")
        self.client = arguments
        self.state = OPEN
        return CAPABILITIES

    def start(self, arguments: Object) -> None:
        """Starts the program with the arguments of a launch; what is refused changes nothing."""
        stops_on_entry = argument(arguments, "stopOnEntry", bool, False)
        no_debug = argument(arguments, "noDebug", bool, False)
        stops_at_end = argument(arguments, "stopAtEnd", bool, not no_debug)
        launched = launching.launch(arguments, self.output)
        self.dismiss()
        self.given = arguments
        self.stops_on_entry, self.stops_at_end, self.stopped_at_end = stops_on_entry, stops_at_end, None
        mover = Mover(launched.session, self.report, self.log)
        mover.stops_at_breakpoints = not no_debug
        mover.stops_at_failures = self.held is not None and self.held.mover.stops_at_failures
        self.held = Held(launched, mover, Views(launched))
        self.then = [functools.partial(self.output, line) for line in launching.unknown_arguments(arguments)]

    def is_trusted(self) -> bool:
        """Returns whether the client needs no token, or has shown it."""
        return self.token is None or self.state not in (NEW, OPEN)

    def check_token(self, arguments: Object) -> None:
        """Refuses a launch that does not have the token, if there is one, or that has one on standard input."""
        given = argument(arguments, "token", str, "")
        if self.token is None:
            if "token" in arguments:
                raise Refused(self.only_at_a_port("token"))
        elif not secrets.compare_digest(given.encode("utf-8", "replace"), self.token.encode()):
            raise Refused("token is not the one that the adapter has printed")

    def only_at_a_port(self, what: str) -> str:
        """Returns why something is refused on standard input."""
        return f"{what} needs an adapter at a port: {commands.shown('debug adapter')} --listen PORT"

    def attach(self, arguments: Object) -> None:
        """Starts the program for a client that has connected to a port."""
        if self.token is None:
            raise Refused(self.only_at_a_port("attach"))
        self.launch(arguments)

    def launch(self, arguments: Object) -> None:
        """Starts the program."""
        self.check_token(arguments)
        self.start(arguments)
        self.state = LAUNCHED
        self.then.append(lambda: self.event("initialized"))

    def restart(self, arguments: Object) -> None:
        """Starts the run anew, by the same arguments or by new ones; the files are read again."""
        again: Object = argument(arguments, "arguments", dict, {})
        self.start(again or self.given)
        self.state, self.motion, self.stop = STOPPED, None, None
        self.then += [self.set_again, self.run]

    def run(self) -> None:
        """Begins the run, or stops it before its first event."""
        if self.stops_on_entry:
            self.halt(Stop("entry", "the beginning of the run", 0))
        else:
            self.begin(self.mover.forwards())

    def configuration_done(self, _: Object) -> None:
        """Starts the run."""
        self.state = RUNNING
        self.then = [self.run]

    def terminate(self, _: Object) -> None:
        """Ends the run."""
        self.then = [lambda: self.close(self.exit_code())]

    def disconnect(self, _: Object) -> None:
        """Ends the run if it is not over; the client leaves."""
        self.left = True
        if self.state in READY:
            self.close(self.exit_code())

    def exception_info(self, arguments: Object) -> Object:
        """Returns which vertex failed, with an explanation."""
        worker = self.worker(arguments)
        if not self.stop or self.stop.reason != "exception" or self.stop.worker != worker:
            raise Refused(f"worker {worker} has not stopped at a failure")
        vertex = self.settled_by(worker)
        line = self.failure_of(vertex)
        details = {"message": line, "typeName": FAILED, "stackTrace": "\n".join(self.meaning(line, vertex))}
        return {"exceptionId": FAILED, "description": line, "breakMode": "always", "details": details}

    # ---- requests: moving forwards and back

    def continue_run(self, arguments: Object) -> Object:
        """Continues the run, with events that the program chooses."""
        self.worker(arguments)
        self.begin(self.mover.forwards())
        return {"allThreadsContinued": True}

    def step_over(self, arguments: Object) -> None:
        """Does the next event of a running worker, or the next whole vertex of an idle one."""
        self.begin(self.mover.over(self.worker(arguments)))

    def step_in(self, arguments: Object) -> None:
        """Does a worker's next event."""
        self.begin(self.mover.into(self.worker(arguments)))

    def step_out(self, arguments: Object) -> None:
        """Continues a worker up to its settle."""
        worker = self.worker(arguments)
        if self.launched.session.runs[worker] is None:
            raise Refused(f"worker {worker} is idle: it has no vertex to step out of")
        self.begin(self.mover.out(worker))

    def go_back(self, arguments: Object, motion: Callable[[], Motion]) -> None:
        """Goes back, if there is an event to undo."""
        self.worker(arguments)
        if not self.launched.session.record:
            raise Refused("the run is at its beginning")
        self.stopped_at_end = None
        self.begin(motion())

    def step_back(self, arguments: Object) -> None:
        """Undoes the last event of the record, whichever worker did it."""
        self.go_back(arguments, self.mover.one_back)

    def reverse_continue(self, arguments: Object) -> None:
        """Undoes events back to the state after one that meets a breakpoint, or to the beginning."""
        self.go_back(arguments, self.mover.backwards)

    def evaluate_or_do(self, arguments: Object) -> Object:
        """Evaluates an expression; in the console it may be a command that adds an event, or one that is tried."""
        command = argument(arguments, "expression", str).strip()
        if argument(arguments, "context", str, "") == "repl":
            if console.EVENT.fullmatch(command):
                return self.do(command)
            if command.split(" ")[0] == console.TRY:
                return self.try_commands(arguments, command.removeprefix(console.TRY).strip())
        return self.evaluate(arguments)

    def completions(self, arguments: Object) -> Object:
        """Returns what can follow what was typed at the console."""
        text, column = argument(arguments, "text", str), argument(arguments, "column", int)
        return {"targets": completion.targets_of(self.views, text[: max(0, column - self.column(1))])}

    def do(self, command: str) -> Object:
        """Does a command that adds an event, and stops the run after it."""
        event = self.mover.do(command)
        stop = self.mover.met(event) or Stop("step", event.line, event.worker)
        self.then = [lambda: self.halt(stop)]
        return {"result": event.line, "variablesReference": 0}

    def pause(self, arguments: Object) -> None:
        """Stops a continuing run between two events."""
        worker = self.worker(arguments)
        self.then = [lambda: self.halt(Stop("pause", "paused between two events", worker))]


Handler = Callable[[Adapter, Object], Object | None]

REQUESTS: dict[str, tuple[Handler, tuple[str, ...]]] = {
    "initialize": (Adapter.initialize, (NEW,)),
    "launch": (Adapter.launch, (OPEN,)),
    "attach": (Adapter.attach, (OPEN,)),
    "configurationDone": (Adapter.configuration_done, (LAUNCHED,)),
    "restart": (Adapter.restart, (STOPPED, RUNNING)),
    "terminate": (Adapter.terminate, READY),
    "disconnect": (Adapter.disconnect, (NEW, OPEN, *READY, OVER)),
    "setBreakpoints": (Adapter.set_breakpoints, READY),
    "setFunctionBreakpoints": (Adapter.set_function_breakpoints, READY),
    "setExceptionBreakpoints": (Adapter.set_exception_breakpoints, READY),
    "breakpointLocations": (Adapter.breakpoint_locations, READY),
    "dataBreakpointInfo": (Adapter.data_breakpoint_info, (STOPPED,)),
    "setDataBreakpoints": (Adapter.set_data_breakpoints, READY),
    "completions": (Adapter.completions, (STOPPED,)),
    "exceptionInfo": (Adapter.exception_info, (STOPPED,)),
    "continue": (Adapter.continue_run, (STOPPED,)),
    "next": (Adapter.step_over, (STOPPED,)),
    "stepIn": (Adapter.step_in, (STOPPED,)),
    "stepOut": (Adapter.step_out, (STOPPED,)),
    "stepBack": (Adapter.step_back, (STOPPED,)),
    "reverseContinue": (Adapter.reverse_continue, (STOPPED,)),
    "pause": (Adapter.pause, (RUNNING,)),
    "threads": (Adapter.threads, READY),
    "stackTrace": (Adapter.stack_trace, (STOPPED,)),
    "scopes": (Adapter.scopes, (STOPPED,)),
    "variables": (Adapter.variables, (STOPPED,)),
    "evaluate": (Adapter.evaluate_or_do, (STOPPED,)),
    "source": (Adapter.source_text, READY),
    "loadedSources": (Adapter.loaded_sources, READY),
}
