"""Runs a program with limits on memory, processor time, file sizes and elapsed time.

A process that calls `limit_runs` passes the limits on to all processes that it starts. The standard streams of a
program are files in memory, so that no pipe can fill up.
"""

import os
import resource
import select
import shlex
import signal
from typing import NamedTuple

MOST_MEGABYTES = 4096
MOST_SECONDS = 200
MOST_WRITTEN = 256 << 20

SANITIZER = b"__asan_init"
DEFAULT_SIGNALS = [signal.SIGXCPU, signal.SIGXFSZ, signal.SIGPIPE, signal.SIGINT]


class Ran(NamedTuple):
    """A run: its words, its input, its exit status, and its output.

    The status is negative if a signal ended it (minus its number), and None if it ran out of time.
    """

    words: tuple[str, ...]
    given: bytes
    status: int | None
    out: bytes
    err: bytes

    def line(self, program: str, given: str) -> str:
        """Returns the shell command that repeats the run, with its input in a file."""
        return f"{shlex.join([program, *self.words])} < {shlex.quote(given)}"


def limit(kind: int, most: int) -> None:
    """Sets a limit for this process and all processes that it starts."""
    _, hard = resource.getrlimit(kind)
    resource.setrlimit(kind, (most if hard == resource.RLIM_INFINITY else min(most, hard), hard))


def memory_of(program: str) -> int:
    """Returns the memory limit for a program in megabytes; 0 (none) for one that is built with an address sanitizer.

    Such a program reserves more addresses than any limit allows, so it is asked to limit its memory itself.
    """
    with open(program, "rb") as file:
        if SANITIZER not in file.read():
            return MOST_MEGABYTES
    os.environ.setdefault("ASAN_OPTIONS", f"hard_rss_limit_mb={MOST_MEGABYTES}")
    return 0


def limit_runs(megabytes: int) -> None:
    """Limits all processes that this process starts, and their memory if a number is given.

    The limit on processor time is for each process by itself; this process ignores it.
    """
    signal.signal(signal.SIGXCPU, signal.SIG_IGN)
    resource.setrlimit(resource.RLIMIT_CORE, (0, 0))
    limit(resource.RLIMIT_CPU, MOST_SECONDS)
    limit(resource.RLIMIT_FSIZE, MOST_WRITTEN)
    if megabytes:
        limit(resource.RLIMIT_AS, megabytes << 20)


def emptied(stream: int, content: bytes = b"") -> None:
    """Replaces the content of a stream in memory, and rewinds it."""
    os.ftruncate(stream, 0)
    os.pwrite(stream, content, 0)
    os.lseek(stream, 0, os.SEEK_SET)


def content_of(stream: int) -> bytes:
    """Returns the content of a stream in memory."""
    return os.pread(stream, os.fstat(stream).st_size, 0)


class Runner:
    """Runs one program repeatedly, in the folder of this process."""

    def __init__(self, program: str, seconds: float) -> None:
        self.program = program
        self.seconds = seconds
        self.streams = [os.memfd_create(name) for name in ("input", "output", "error")]
        self.actions = [(os.POSIX_SPAWN_DUP2, stream, place) for place, stream in enumerate(self.streams)]

    def run(self, *words: str, given: bytes = b"") -> Ran:
        """Runs the program with these words and this input."""
        emptied(self.streams[0], given)
        emptied(self.streams[1])
        emptied(self.streams[2])
        process = os.posix_spawn(
            self.program, [self.program, *words], os.environ, file_actions=self.actions, setsigdef=DEFAULT_SIGNALS
        )
        status = self.ended(process)
        return Ran(words, given, status, content_of(self.streams[1]), content_of(self.streams[2]))

    def ended(self, process: int) -> int | None:
        """Waits for a process, and returns its exit status; one that takes too long is killed."""
        handle = os.pidfd_open(process)
        try:
            poll = select.poll()
            poll.register(handle, select.POLLIN)
            in_time = bool(poll.poll(self.seconds * 1000))
        finally:
            os.close(handle)
            if not has_ended(process):
                os.kill(process, signal.SIGKILL)
        _, status = os.waitpid(process, 0)
        return os.waitstatus_to_exitcode(status) if in_time else None


def has_ended(process: int) -> bool:
    """Returns whether a child of this process has ended, without reaping it."""
    return os.waitid(os.P_PID, process, os.WEXITED | os.WNOHANG | os.WNOWAIT) is not None
