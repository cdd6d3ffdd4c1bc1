"""What an adapter sends: responses and events of the protocol."""

from llbm_tools.common import printable
from llbm_tools.debugging.protocol_messages import Writer
from llbm_tools.debugging.request_arguments import Object

FAILURE = 1


class Outgoing:
    """The sending side of an adapter."""

    def __init__(self, writer: Writer) -> None:
        self.writer = writer

    def event(self, name: str, body: Object | None = None) -> None:
        """Sends an event."""
        self.writer.send({"type": "event", "event": name, **({} if body is None else {"body": body})})

    def output(self, text: str, category: str = "console", **more: object) -> None:
        """Sends a line of output to the client."""
        self.event("output", {"category": category, "output": f"{printable(text)}\n", **more})

    def respond(self, request: int, command: str, body: Object | None) -> None:
        """Sends the response to a request that succeeded."""
        more = {} if body is None else {"body": body}
        self.writer.send({"type": "response", "request_seq": request, "success": True, "command": command, **more})

    def fail(self, request: int, command: str, cause: str) -> None:
        """Sends the response to a request that failed, with the cause in one line."""
        cause = printable(cause)
        body = {"error": {"id": FAILURE, "format": cause, "showUser": True}}
        response = {"type": "response", "request_seq": request, "success": False, "command": command}
        self.writer.send({**response, "message": cause, "body": body})
