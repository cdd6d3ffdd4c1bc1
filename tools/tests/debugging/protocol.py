"""The part of the Debug Adapter Protocol's schema that the adapter uses, and a client that checks each message with it.

A shape has the fields of an object by name, with `?` after optional ones; other fields are errors. The value of a field
is a type, the name of a shape, a list of one of these, or a tuple of allowed texts.
"""

import json
import subprocess

from tests import base

SHAPES = {
    "Capabilities": {
        "supportsConfigurationDoneRequest?": bool, "supportsConditionalBreakpoints?": bool,
        "supportsEvaluateForHovers?": bool, "supportsStepBack?": bool, "supportsExceptionInfoRequest?": bool,
        "supportsLoadedSourcesRequest?": bool, "supportsTerminateRequest?": bool, "supportsRestartRequest?": bool,
        "supportsFunctionBreakpoints?": bool, "supportsHitConditionalBreakpoints?": bool, "supportsLogPoints?": bool,
        "exceptionBreakpointFilters?": ["ExceptionBreakpointsFilter"], "supportsBreakpointLocationsRequest?": bool,
        "supportsDataBreakpoints?": bool, "supportsCompletionsRequest?": bool, "completionTriggerCharacters?": [str],
    },
    "BreakpointLocation": {"line": int, "column?": int, "endLine?": int, "endColumn?": int},
    "BreakpointLocations": {"breakpoints": ["BreakpointLocation"]},
    "DataBreakpointInfo": {
        "dataId": object, "description": str, "accessTypes?": [str], "canPersist?": bool,
    },
    "CompletionItem": {"label": str, "text?": str, "start?": int, "length?": int},
    "Completions": {"targets": ["CompletionItem"]},
    "ExceptionBreakpointsFilter": {"filter": str, "label": str, "description?": str, "default?": bool},
    "Source": {"name?": str, "path?": str, "sourceReference?": int, "origin?": str},
    "Breakpoint": {"id?": int, "verified": bool, "message?": str, "source?": "Source", "line?": int},
    "Thread": {"id": int, "name": str},
    "StackFrame": {
        "id": int, "name": str, "source?": "Source", "line": int, "column": int, "endLine?": int, "endColumn?": int,
    },
    "Scope": {
        "name": str, "presentationHint?": str, "variablesReference": int, "namedVariables?": int, "expensive": bool,
    },
    "Variable": {
        "name": str, "value": str, "type?": str, "evaluateName?": str, "variablesReference": int,
        "namedVariables?": int,
    },
    "ExceptionDetails": {"message?": str, "typeName?": str, "stackTrace?": str},
    "Message": {"id": int, "format": str, "showUser?": bool},
    "Failure": {"error?": "Message"},
    "SetBreakpoints": {"breakpoints": ["Breakpoint"]},
    "Continue": {"allThreadsContinued?": bool},
    "Threads": {"threads": ["Thread"]},
    "StackTrace": {"stackFrames": ["StackFrame"], "totalFrames?": int},
    "Scopes": {"scopes": ["Scope"]},
    "Variables": {"variables": ["Variable"]},
    "Evaluate": {"result": str, "type?": str, "variablesReference": int, "namedVariables?": int},
    "SourceText": {"content": str, "mimeType?": str},
    "LoadedSources": {"sources": ["Source"]},
    "ExceptionInfo": {
        "exceptionId": str, "description?": str, "breakMode": ("never", "always", "unhandled", "userUnhandled"),
        "details?": "ExceptionDetails",
    },
    "Stopped": {
        "reason": str, "description?": str, "threadId?": int, "text?": str, "allThreadsStopped?": bool,
        "hitBreakpointIds?": [int],
    },
    "Output": {"category?": str, "output": str, "source?": "Source", "line?": int},
    "BreakpointEvent": {"reason": ("changed", "new", "removed"), "breakpoint": "Breakpoint"},
    "Exited": {"exitCode": int},
}

# The shape of the body of the response to each request, and of each event; None if there is no body.
RESPONSES = {
    "initialize": "Capabilities", "launch": None, "attach": None, "configurationDone": None, "terminate": None,
    "disconnect": None,
    "setBreakpoints": "SetBreakpoints", "setFunctionBreakpoints": "SetBreakpoints", "restart": None,
    "breakpointLocations": "BreakpointLocations", "dataBreakpointInfo": "DataBreakpointInfo",
    "setDataBreakpoints": "SetBreakpoints", "completions": "Completions",
    "setExceptionBreakpoints": None, "exceptionInfo": "ExceptionInfo",
    "continue": "Continue", "next": None, "stepIn": None, "stepOut": None, "stepBack": None, "reverseContinue": None,
    "pause": None, "threads": "Threads", "stackTrace": "StackTrace", "scopes": "Scopes", "variables": "Variables",
    "evaluate": "Evaluate", "source": "SourceText", "loadedSources": "LoadedSources",
}
EVENTS = {
    "initialized": None, "stopped": "Stopped", "output": "Output", "breakpoint": "BreakpointEvent",
    "exited": "Exited", "terminated": None,
}

RESPONSE = {
    "seq": int, "type": ("response",), "request_seq": int, "success": bool, "command": str, "message?": str,
    "body?": object,
}
EVENT = {"seq": int, "type": ("event",), "event": tuple(EVENTS), "body?": object}


class Wrong(AssertionError):
    """A message that does not have the protocol's form, or comes at the wrong time."""


def check_kind(value, kind, where):
    """Checks that a value is of a kind: a type, a shape, a list of one of these, or one of some texts."""
    if isinstance(kind, list):
        check_kind(value, list, where)
        for one in value:
            check_kind(one, kind[0], f"{where}[]")
    elif isinstance(kind, str):
        check_shape(value, SHAPES[kind], f"{where}: {kind}")
    elif isinstance(kind, tuple):
        if value not in kind:
            raise Wrong(f"{where} is {value!r}, none of {kind}")
    elif not isinstance(value, kind) or kind is int and isinstance(value, bool):
        raise Wrong(f"{where} is {value!r}, no {kind.__name__}")


def check_shape(value, shape, where):
    """Checks that an object has the fields of a shape."""
    check_kind(value, dict, where)
    kinds = {name.rstrip("?"): kind for name, kind in shape.items()}
    for name in shape:
        if not name.endswith("?") and name not in value:
            raise Wrong(f"{where} has no {name}")
    for name, held in value.items():
        if name not in kinds:
            raise Wrong(f"{where} has {name}, which is not in the table")
        check_kind(held, kinds[name], f"{where}.{name}")


def check_body(message, kind, where):
    """Checks that a message has a body of this shape, or none."""
    if kind is None:
        if message.get("body"):
            raise Wrong(f"{where} has a body")
    else:
        check_kind(message.get("body"), kind, where)


def check_response(message):
    """Checks the form of a response; that of a failure has a message of one line."""
    check_shape(message, RESPONSE, "response")
    command = message["command"]
    if message["success"]:
        check_body(message, RESPONSES[command], command)
        return
    check_body(message, "Failure", f"the failure of {command}")
    if not message.get("message") or "\n" in message["message"]:
        raise Wrong(f"the failure of {command} has no message of one line")


class Client:
    """A client of an adapter that checks the form and the order of the messages it receives."""

    def __init__(self, command, **settings):
        self.child = self.begun(command, **settings)
        self.sent = 0
        self.received = 0
        self.waiting = {}
        self.answered = set()
        self.events = []
        self.place = 0

    def begun(self, command, **settings):
        """Starts the adapter, and returns its process."""
        return subprocess.Popen(
            command, stdin=subprocess.PIPE, stdout=subprocess.PIPE, stderr=subprocess.PIPE, **settings
        )

    def close(self):
        """Stops the adapter if it is running."""
        for stream in (self.child.stdin, self.child.stdout, self.child.stderr):
            stream.close()
        self.child.kill()
        self.child.wait()

    def write(self, content, head=None):
        """Sends bytes as a message."""
        head = b"Content-Length: %d\r\n\r\n" % len(content) if head is None else head
        self.child.stdin.write(head + content)
        self.child.stdin.flush()

    def request(self, command, arguments=None):
        """Returns the content of a new request, which then waits for its response."""
        self.sent += 1
        self.waiting[self.sent] = command
        more = {} if arguments is None else {"arguments": arguments}
        return json.dumps({"seq": self.sent, "type": "request", "command": command, **more}).encode()

    def send(self, command, arguments=None):
        """Sends a request, and returns its number."""
        self.write(self.request(command, arguments))
        return self.sent

    def send_at_once(self, *commands, **arguments):
        """Sends requests with the same arguments in one piece, and returns their numbers."""
        contents = [self.request(command, arguments) for command in commands]
        self.write(b"", b"".join(b"Content-Length: %d\r\n\r\n%s" % (len(one), one) for one in contents))
        return range(self.sent - len(commands) + 1, self.sent + 1)

    def receive(self):
        """Returns the next message, or None at the end."""
        head = self.child.stdout.readline()
        if not head:
            return None
        name, length = head.split(b": ")
        if name != b"Content-Length" or not length.endswith(b"\r\n") or self.child.stdout.readline() != b"\r\n":
            raise Wrong(f"the head of a message is {head}")
        message = json.loads(self.child.stdout.read(int(length)).decode("utf-8"))
        self.received += 1
        if message["seq"] != self.received:
            raise Wrong(f"message {self.received} has the number {message['seq']}")
        self.check(message)
        return message

    def check(self, message):
        """Checks the form and the order of a message."""
        if message["type"] == "event":
            check_shape(message, EVENT, "event")
            check_body(message, EVENTS[message["event"]], message["event"])
            self.check_place(message["event"])
            self.events.append(message)
            return
        check_response(message)
        if self.waiting.pop(message["request_seq"], None) != message["command"]:
            raise Wrong(f"a response to a request that does not wait: {message}")
        if message["success"]:
            self.answered.add(message["command"])

    def check_place(self, name):
        """Checks that an event comes after the responses that have to precede it, and before the end."""
        needed = {"initialized": "initialize", "stopped": "configurationDone"}.get(name)
        if needed and needed not in self.answered:
            raise Wrong(f"{name} comes before {needed} is answered")
        if any(event["event"] == "terminated" for event in self.events):
            raise Wrong(f"{name} comes after terminated")

    def response(self, number):
        """Returns the response to a request; earlier events are stored."""
        while True:
            message = self.receive()
            if message is None:
                raise Wrong(f"the adapter ended: {self.child.stderr.read()}")
            if message["type"] == "response" and message["request_seq"] == number:
                return message

    def ask(self, command, **arguments):
        """Sends a request that has to succeed, and returns the body of the response."""
        response = self.response(self.send(command, arguments))
        if not response["success"]:
            raise Wrong(response["message"])
        return response.get("body")

    def refused(self, command, **arguments):
        """Sends a request that has to fail, and returns the message of the response."""
        response = self.response(self.send(command, arguments))
        if response["success"]:
            raise Wrong(f"{command} succeeds")
        return response["message"]

    def until(self, *names):
        """Returns the next event with one of these names, after the last one that was returned."""
        while True:
            for event in self.events[self.place :]:
                self.place += 1
                if event["event"] in names:
                    return event
            if self.receive() is None:
                raise Wrong(f"the adapter ended: {self.child.stderr.read()}")

    def stopped(self):
        """Returns the body of the next stop, which has to come before the end."""
        event = self.until("stopped", "terminated")
        if event["event"] != "stopped":
            raise Wrong("the run has ended")
        return event["body"]

    def ended(self):
        """Returns the exit code of the run, once it has ended."""
        code = self.until("exited")["body"]["exitCode"]
        self.until("terminated")
        return code

    def lines(self, category="stdout"):
        """Returns all lines of output so far in this category."""
        outputs = [event["body"] for event in self.events if event["event"] == "output"]
        return [body["output"].removesuffix("\n") for body in outputs if body["category"] == category]

    def leave(self):
        """Disconnects, checks that nothing follows, and returns the exit status of the adapter."""
        self.ask("disconnect")
        self.child.stdin.close()
        if self.receive() is not None:
            raise Wrong("a message comes after the response to disconnect")
        return self.child.wait(base.GUARD)
