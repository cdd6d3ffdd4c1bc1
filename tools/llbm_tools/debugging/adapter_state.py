"""What an adapter holds during a run, and how it names the sources of that run."""

import os
from typing import NamedTuple

from llbm_tools.debugging import launching
from llbm_tools.debugging.protocol_messages import Writer
from llbm_tools.debugging.request_arguments import Object, argument
from llbm_tools.debugging.responses import Outgoing
from llbm_tools.debugging.run_control import Motion, Mover, Stop
from llbm_tools.debugging.variables import Views
from llbm_tools.streams import Refused

TEXT = 1
FIRST_FILE = 2


class Held(NamedTuple):
    """A run that was launched, with what moves it and what looks at it."""

    launched: launching.Launched
    mover: Mover
    views: Views


class Holding(Outgoing):
    """The client's settings, the run that was launched, and the lines and sources that the client knows."""

    def __init__(self, writer: Writer) -> None:
        super().__init__(writer)
        self.client: Object = {}
        self.held: Held | None = None
        self.motion: Motion | None = None
        self.stop: Stop | None = None
        self.paths: dict[str, str] = {}

    def now(self) -> Held:
        """Returns the run that was launched."""
        if self.held is None:
            raise Refused("nothing is launched yet")
        return self.held

    @property
    def launched(self) -> launching.Launched:
        """The run's session, graph and files."""
        return self.now().launched

    @property
    def mover(self) -> Mover:
        """What moves the run."""
        return self.now().mover

    @property
    def views(self) -> Views:
        """What looks at the run."""
        return self.now().views

    def line(self, line: int) -> int:
        """Converts a line that is counted from 1 to the client's counting."""
        return line if self.client.get("linesStartAt1", True) is not False else line - 1

    def column(self, column: int) -> int:
        """Converts a column that is counted from 1 to the client's counting."""
        return column if self.client.get("columnsStartAt1", True) is not False else column - 1

    def source(self) -> Object:
        """Returns the DAP source for the text of the entries."""
        file = self.launched.file
        if file:
            return {"name": os.path.basename(file), "path": file}
        return {"name": self.launched.name, "sourceReference": TEXT, "origin": "llbm dis"}

    def file_source(self, number: int) -> Object | None:
        """Returns the DAP source for a file that the definition was made from, or None if it is not known here."""
        file = self.launched.origins.files[number]
        path = self.paths.get(file.name) or file.path
        if path:
            return {"name": os.path.basename(path), "path": path}
        if not file.text:
            return None
        return {"name": file.name, "sourceReference": FIRST_FILE + number, "origin": "the definition"}

    def is_text(self, source: Object) -> bool:
        """Returns whether a DAP source is the text of the entries."""
        path = argument(source, "path", str, "")
        if self.launched.file and path:
            return os.path.realpath(path) == os.path.realpath(self.launched.file)
        return not self.launched.file and argument(source, "sourceReference", int, 0) == TEXT

    def file_of(self, source: Object) -> int | None:
        """Returns the file of a DAP source, of those that the definition was made from; its path is stored."""
        path = argument(source, "path", str, "")
        number = argument(source, "sourceReference", int, 0) - FIRST_FILE
        files = self.launched.origins.files
        if not path:
            return number if 0 <= number < len(files) else None
        found = self.launched.origins.file_at(path)
        if found is not None:
            self.paths[files[found].name] = path
        return found
