"""The library of llbm for Python, by ctypes over its shared object, which the variable LIBLLBM names, or else that of the
installation around this package.

A machine is used by the thread that made it. `llbm.trees` has the trees that come of runs, and `llbm.testing` what tests
of a frontend need. docs/EMBEDDING.md of the repository describes each call.
"""

import ctypes
import os
import pathlib
import threading
from types import TracebackType


def library_there() -> str:
    """Returns the shared object that LIBLLBM names, or that of the installation around this package, or its usual name."""
    name = "libllbm.so"
    around = [folder / name for folder in pathlib.Path(__file__).resolve().parents[4:5]]
    return os.environ.get("LIBLLBM") or next((str(place) for place in around if place.is_file()), name)


LIBRARY = library_there()

OK, ENDED, REFUSED, NO_MEMORY, NO_SESSION = range(5)
MOST = 2**32 - 1


class Fault(Exception):
    """A call failed; its status, the number of its fault (0 where there is none), and its messages."""

    def __init__(self, status: int, messages: str) -> None:
        words = messages.split()
        self.status = status
        self.number = int(words[1]) if words[:1] == ["fault"] else 0
        self.messages = messages
        super().__init__(messages.rstrip("\n") or f"status {status}")


class _Handle(ctypes.Structure):
    _fields_ = [("is_set", ctypes.c_bool), ("at", ctypes.c_void_p)]


def _loaded(library: str) -> ctypes.CDLL:
    try:
        return ctypes.CDLL(library)
    except OSError as fault:
        raise OSError(f"{fault}; LIBLLBM has to name the shared object of the library (docs/EMBEDDING.md)") from fault


def version(library: str = LIBRARY) -> str:
    """Returns the line that the program prints as its version; it says `not proved` if there is no proof."""
    call = _loaded(library).llb_version
    call.restype = ctypes.c_char_p
    return bytes(call()).decode()


class Machine:
    """Local trees, at most one session, and the calls of the library on them."""

    def __init__(self, library: str = LIBRARY) -> None:
        """Loads the library, and makes a machine without local trees; OSError if there is no such library."""
        self._library = _loaded(library)
        for name in ("llb_output", "llb_messages"):
            getattr(self._library, name).restype = ctypes.c_size_t
        self._handle = _Handle()
        self._thread = threading.get_ident()

    def add_local(self, name: str, tree: str) -> None:
        """Adds a local tree, by its text; of two under one name, the later holds."""
        self._checked(self._call("llb_local", name.encode(), tree.encode()))

    def run(self, definition: bytes) -> str:
        """Returns the text of the result of a definition, run by one worker on the local trees."""
        self._checked(self._call("llb_run", definition))
        return self._output().decode()

    def show(self, definition: bytes) -> str:
        """Returns the text of the graph of a definition."""
        self._checked(self._call("llb_show", definition))
        return self._output().decode()

    def findings(self, definition: bytes) -> list[str]:
        """Returns the line of each fault of a definition, in the order in which the program looks for them."""
        status = self._call("llb_findings", definition)
        if status != REFUSED:
            self._checked(status)
        return self._output().decode().split("\n")[:-1]

    def plan(self, definition: bytes) -> str:
        """Returns a line for each vertex of a definition: whether what it reads goes by value."""
        self._checked(self._call("llb_plan", definition))
        return self._output().decode()

    def matches(self, old: bytes, definition: bytes) -> str:
        """Returns a line for each vertex of a definition: which vertex of an older definition it matches."""
        self._checked(self._call("llb_matches", old, definition))
        return self._output().decode()

    def script(self, text: str) -> str:
        """Returns the line of the fault of a text as a script, without its end; an empty text if it is one."""
        status = self._call("llb_script", text.encode())
        line = self._output().decode()
        if not line:
            self._checked(status)
        return line.rstrip("\n")

    def assemble(self, text: str) -> bytes:
        """Returns the definition of a text."""
        self._checked(self._call("llb_asm", text.encode()))
        return self._output()

    def disassemble(self, definition: bytes) -> str:
        """Returns the text of the entries of a definition."""
        self._checked(self._call("llb_dis", definition))
        return self._output().decode()

    def ops(self, definition: bytes) -> str:
        """Returns the ops of the entries of a definition: each that can be read, in the words of `disassemble`."""
        self._checked(self._call("llb_ops", definition))
        return self._output().decode()

    def open(self, definition: bytes, workers: int = 2) -> None:
        """Opens a session on a definition and the local trees, in the place of the one that was open."""
        # A number that does not fit is handed in as the largest that does, and is refused like it.
        number = ctypes.c_uint32(workers if 0 <= workers < MOST else MOST)
        self._checked(self._call("llb_open", definition, more=(number,)))

    def line(self, line: str) -> str | None:
        """Returns the reply to a line of the session; None if the line ended it."""
        status = self._call("llb_line", line.encode())
        if status == ENDED:
            return None
        self._checked(status)
        return self._output().decode()

    def close(self) -> None:
        """Frees the local trees and the session. The machine can be used again."""
        self._check_thread()
        self._library.llb_close(ctypes.byref(self._handle))

    def __enter__(self) -> "Machine":
        return self

    def __exit__(
        self, kind: type[BaseException] | None, value: BaseException | None, trace: TracebackType | None
    ) -> None:
        self.close()

    def _check_thread(self) -> None:
        if threading.get_ident() != self._thread:
            raise RuntimeError("a machine is used by the thread that made it")

    def _call(self, name: str, *parts: bytes, more: tuple[ctypes.c_uint32, ...] = ()) -> int:
        self._check_thread()
        words = [word for part in parts for word in (ctypes.c_char_p(part), ctypes.c_size_t(len(part)))]
        return int(getattr(self._library, name)(ctypes.byref(self._handle), *words, *more)) & 0xFF

    def _checked(self, status: int) -> None:
        if status != OK:
            raise Fault(status, self._copied("llb_messages").decode("utf-8", "replace"))

    def _output(self) -> bytes:
        return self._copied("llb_output")

    def _copied(self, name: str) -> bytes:
        copy = getattr(self._library, name)
        length = copy(ctypes.byref(self._handle), ctypes.create_string_buffer(1), ctypes.c_size_t(0))
        buffer = ctypes.create_string_buffer(length + 1)
        copy(ctypes.byref(self._handle), buffer, ctypes.c_size_t(length))
        return buffer.raw[:length]
