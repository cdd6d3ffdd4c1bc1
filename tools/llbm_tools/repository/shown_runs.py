"""Runs a command that a page shows, and compares its run with what the page shows."""

import contextlib
import os
import select
import signal
import subprocess
import tempfile
import time
from typing import IO, NamedTuple

from llbm_tools.common import shortened
from llbm_tools.repository.shown_commands import Shown

# How long a command, and a reply, may take: ten times what the dearest takes without proof on a slow host. (For so long
# more output is waited for, too, when a reply is wrong.)
PATIENCE = 3000
REPLY_PATIENCE = 600
PAUSE = 0.2
MOST_SHOWN = 400
PIECE = 65536


class Place(NamedTuple):
    """The folder and the environment of commands."""

    folder: str
    settings: dict[str, str]


class Ended(NamedTuple):
    """How a command ended; the output is what it printed after the last line that was typed."""

    status: int
    output: str
    errors: str


def text_of(data: bytes) -> str:
    """Returns bytes as text."""
    return data.decode("utf-8", "backslashreplace")


def differing(what: str, have: str, want: str) -> str:
    """Returns how a text differs from what is shown."""
    return f"{what} {shortened(repr(have), MOST_SHOWN)}, not {shortened(repr(want), MOST_SHOWN)}"


def start(
    shown: Shown, place: Place, stdin: int, stdout: int | IO[bytes], stderr: IO[bytes]
) -> subprocess.Popen[bytes]:
    """Starts a command, in a session of its own."""
    return subprocess.Popen(
        ["bash", "-c", f"set -o pipefail\n{shown.commands}"], cwd=place.folder, env=place.settings,
        stdin=stdin, stdout=stdout, stderr=stderr, start_new_session=True,
    )  # fmt: skip


def stop(child: subprocess.Popen[bytes]) -> None:
    """Ends a command that takes too long, and the processes that it started."""
    if child.poll() is None:
        os.killpg(child.pid, signal.SIGKILL)
        child.wait()


def content(file: IO[bytes]) -> str:
    """Returns all of a file as text."""
    file.seek(0)
    return text_of(file.read())


class Dialog:
    """A command that runs, to which lines are typed."""

    def __init__(self, child: subprocess.Popen[bytes]) -> None:
        self.child = child
        assert child.stdin and child.stdout
        self.input, self.output = child.stdin, child.stdout

    def printed(self, size: int, seconds: float) -> bytes:
        """Returns what the command prints: as many bytes, or fewer if it ends, or prints no more for so long."""
        found = b""
        end = time.monotonic() + seconds
        while len(found) < size:
            ready, _, _ = select.select([self.output], [], [], max(0, end - time.monotonic()))
            piece = os.read(self.output.fileno(), min(PIECE, size - len(found))) if ready else b""
            if not piece:
                break
            found += piece
        return found

    def wrong_reply(self, about: str, want: str) -> str | None:
        """Returns how the next output differs from a reply, or None."""
        wanted = want.encode()
        found = self.printed(len(wanted), REPLY_PATIENCE)
        if found == wanted:
            return None
        return differing(f"{about}prints", text_of(found + self.printed(PIECE, PAUSE)), want)

    def type(self, line: str) -> None:
        """Types a line; the reply of a command that has ended by then is empty."""
        with contextlib.suppress(BrokenPipeError):
            self.input.write(f"{line}\n".encode())
            self.input.flush()

    def close(self) -> None:
        """Closes both ends; what a command that has ended did not read is dropped."""
        with contextlib.suppress(BrokenPipeError):
            self.input.close()
        self.output.close()

    def difference(self, shown: Shown) -> str | None:
        """Types all lines but the last one's reply; returns how a reply differs, or None."""
        cause = self.wrong_reply("", shown.output or "")
        for reply in shown.replies:
            if cause:
                return cause
            self.type(reply.typed)
            cause = self.wrong_reply(f"to {reply.typed!r} it ", reply.output)
        return cause


def run_dialog(shown: Shown, place: Place) -> Ended | str:
    """Runs a command to which lines are typed; returns how it ended, or how a reply differs."""
    with tempfile.TemporaryFile() as errors:
        child = start(shown, place, subprocess.PIPE, subprocess.PIPE, errors)
        dialog = Dialog(child)
        try:
            cause = dialog.difference(shown)
            if cause:
                return cause
            output, _ = child.communicate(timeout=PATIENCE)
        finally:
            stop(child)
            dialog.close()
        return Ended(child.returncode, text_of(output), content(errors))


def run(shown: Shown, place: Place) -> Ended:
    """Runs a command without input, and returns how it ended."""
    with tempfile.TemporaryFile() as output, tempfile.TemporaryFile() as errors:
        child = start(shown, place, subprocess.DEVNULL, output, errors)
        try:
            child.wait(PATIENCE)
        finally:
            stop(child)
        return Ended(child.returncode, content(output), content(errors))


def difference(shown: Shown, place: Place) -> str | None:
    """Runs a command, and returns how its run differs from what is shown, or None."""
    try:
        ended = run_dialog(shown, place) if shown.replies else run(shown, place)
    except subprocess.TimeoutExpired:
        return f"no answer within {PATIENCE} seconds"
    if isinstance(ended, str):
        return ended
    output = "" if shown.replies else shown.output
    if ended.status != shown.status:
        said = f" (standard error: {shortened(repr(ended.errors), MOST_SHOWN)})" if ended.errors else ""
        return f"status {ended.status}, not {shown.status}{said}"
    if output is not None and ended.output != output:
        return differing("prints", ended.output, output)
    if shown.errors is not None and ended.errors != shown.errors:
        return differing("prints on standard error", ended.errors, shown.errors)
    return None
