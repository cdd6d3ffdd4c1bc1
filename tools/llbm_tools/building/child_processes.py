"""What a build starts and leaves: its child processes and its folders, and the signals that end it."""

import contextlib
import functools
import os
import shutil
import signal
import subprocess
from collections.abc import Iterator
from typing import BinaryIO

Stream = BinaryIO | int | None

SIGNALS = {signal.SIGINT, signal.SIGTERM, signal.SIGHUP}
PATIENCE = 5


class Interrupted(Exception):
    """A signal with this number arrived. It is raised at most once."""

    def __init__(self, number: int) -> None:
        super().__init__(number)
        self.number = number


def ignore_signals() -> None:
    """Ignores further signals."""
    for number in SIGNALS:
        signal.signal(number, signal.SIG_IGN)


def interrupt(number: int, _frame: object) -> None:
    """Ends the build at the first signal; later ones do not disturb the cleanup."""
    ignore_signals()
    raise Interrupted(number)


def handle_signals() -> None:
    """Handles signals, except those that were ignored at the start."""
    for number in SIGNALS:
        if signal.getsignal(number) != signal.SIG_IGN:
            signal.signal(number, interrupt)


@contextlib.contextmanager
def held_back() -> Iterator[set[int]]:
    """Blocks signals for a while, so that the cleanup knows what is made here."""
    before = signal.pthread_sigmask(signal.SIG_BLOCK, SIGNALS)
    try:
        yield before
    finally:
        signal.pthread_sigmask(signal.SIG_SETMASK, before)


def remove(folder: str) -> None:
    """Removes a folder with its contents, whatever their modes."""
    if not os.path.lexists(folder):
        return
    os.chmod(folder, 0o700)
    for _, names, _, descriptor in os.fwalk(folder):
        for name in names:
            os.chmod(name, 0o700, dir_fd=descriptor)
    shutil.rmtree(folder)


def start(
    command: list[str], stdin: Stream = None, stdout: Stream = None, stderr: Stream = None
) -> subprocess.Popen[bytes]:
    """Starts a child process, which handles signals as this process did."""
    with held_back() as before:
        unblock = functools.partial(signal.pthread_sigmask, signal.SIG_SETMASK, before)
        return subprocess.Popen(command, stdin=stdin, stdout=stdout, stderr=stderr, preexec_fn=unblock)


def end(child: subprocess.Popen[bytes]) -> None:
    """Stops a child process if it is still running."""
    if child.poll() is None:
        child.terminate()
        try:
            child.wait(PATIENCE)
        except subprocess.TimeoutExpired:
            child.kill()
            child.wait()


def ended(child: subprocess.Popen[bytes]) -> int:
    """Returns the exit status of a child process, as a shell reports it."""
    status = child.wait()
    return status if status >= 0 else 128 - status
