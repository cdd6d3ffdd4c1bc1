"""Runs of the tools in processes that are forked off one that has read their modules already.

A run is a process of its own, with its own words, environment, folder and standard streams, which are pipes, as it is
where Python starts for it; what Python's start takes is spared, which is most of what a small run takes. Where a run
needs more, as closed streams, limits or an environment that Python itself reads as it starts, there is none here, and
the caller starts Python. The tests that look at how a tool starts do that too.
"""

import atexit
import contextlib
import gc
import importlib
import json
import multiprocessing.util
import os
import pathlib
import select
import selectors
import signal
import socket
import subprocess
import sys
import threading
import time

TOOLS = pathlib.Path(__file__).resolve().parent.parent
# What is read of the environment before a command is.
EARLY = ("PYTHON", "LC_", "LANG", "XDG_", "LLBM_CACHE", "HOME")
PIECE = 1 << 16
MOST = 1 << 17


class Source:
    """The process from which runs are forked, and the socket by which it is told of them."""

    def __init__(self):
        self.owner = os.getpid()
        self.environment = dict(os.environ)
        self.lock = threading.Lock()
        self.socket, other = socket.socketpair(socket.AF_UNIX, socket.SOCK_SEQPACKET)
        with other:
            pipes = dict.fromkeys(("stdin", "stdout", "stderr"), subprocess.PIPE)
            words = [sys.executable, "-S", __file__, str(other.fileno())]
            self.child = subprocess.Popen(words, pass_fds=[other.fileno()], **pipes)
        multiprocessing.util.Finalize(self, self.end, exitpriority=100)

    def end(self):
        """Ends the process, unless it is another one's."""
        if os.getpid() == self.owner:
            self.socket.close()
            self.child.communicate()

    def has_started_alike(self, environment):
        """Returns whether Python starts in an environment as it did for this process."""
        names = {name for name in {*environment, *self.environment} if name.startswith(EARLY)}
        return all(environment.get(name) == self.environment.get(name) for name in names)


source: Source | None = None


def source_here() -> Source:
    """Returns this process's source of runs."""
    global source
    if source is None or source.owner != os.getpid():
        source = Source()
    return source


def run(line, text, seconds, env=None, cwd=None):
    """Runs a line of a command as `subprocess.run` does; None if Python has to start for it."""
    one, environment = source_here(), dict(os.environ if env is None else env)
    request = json.dumps([[os.fsdecode(word) for word in line], environment, os.fsdecode(cwd or os.getcwd())]).encode()
    if len(request) > MOST or not one.has_started_alike(environment) or not one.lock.acquire(blocking=False):
        return None
    try:
        return forked(one.socket, request, line, text, time.monotonic() + seconds)
    finally:
        one.lock.release()


def forked(told, request, line, text, end):
    """Has a process forked for a request, and returns how it ended."""
    here, there = zip(os.pipe()[::-1], os.pipe(), os.pipe())
    try:
        socket.send_fds(told, [request], there)
    finally:
        for descriptor in there:
            os.close(descriptor)
    process = int(told.recv(PIECE))
    try:
        output, errors = talk(here, text, end)
    except BaseException as fault:
        os.kill(process, signal.SIGKILL)
        told.recv(PIECE)
        if isinstance(fault, TimeoutError):
            raise subprocess.TimeoutExpired(line, end) from fault
        raise
    return subprocess.CompletedProcess(line, int(told.recv(PIECE)), output, errors)


def talk(here, text, end):
    """Writes a text to the first of three pipes, and returns what can be read from the others; closes all three."""
    into, *others = here
    found = {descriptor: [] for descriptor in others}
    left = memoryview(text)
    with selectors.DefaultSelector() as waiting:
        waiting.register(into, selectors.EVENT_WRITE)
        for descriptor in others:
            waiting.register(descriptor, selectors.EVENT_READ)
        try:
            while waiting.get_map():
                ready = waiting.select(end - time.monotonic())
                if not ready:
                    raise TimeoutError
                for key, _ in ready:
                    left = moved(waiting, key.fd, left, found)
        finally:
            for descriptor in list(waiting.get_map()):
                os.close(descriptor)
    return [b"".join(pieces) for pieces in found.values()]


def moved(waiting, descriptor, left, found):
    """Writes or reads a piece at a pipe that is ready, which is closed at its end; returns what is left to write."""
    if descriptor in found:
        piece = os.read(descriptor, PIECE)
        found[descriptor].append(piece)
        is_over = not piece
    else:
        try:
            left = left[os.write(descriptor, left[: select.PIPE_BUF]) :]
            is_over = not left
        except BrokenPipeError:
            is_over = True
    if is_over:
        waiting.unregister(descriptor)
        os.close(descriptor)
    return left


def asked(told):
    """Forks a process for each request; returns in such a process its request and its streams, and None at the end."""
    while True:
        request, streams, _, _ = socket.recv_fds(told, MOST + 1, 3)
        if not request:
            return None
        process = os.fork()
        if not process:
            told.close()
            return request, streams
        for descriptor in streams:
            os.close(descriptor)
        told.send(b"%d" % process)
        told.send(b"%d" % os.waitstatus_to_exitcode(os.waitpid(process, 0)[1]))


def become(request, streams):
    """Gives this process the words, the environment, the folder and the streams of a run."""
    line, environment, folder = json.loads(request)
    for number, descriptor in enumerate(streams):
        os.dup2(descriptor, number)
        os.close(descriptor)
    os.environ.clear()
    os.environ.update(environment)
    os.chdir(folder)
    sys.argv = line


def started(doors):
    """Starts the command, and returns the exit status that it returns or raises."""
    try:
        return doors.main()
    except SystemExit as end:
        if not isinstance(end.code, int):
            raise
        return end.code


def leave(status):
    """Ends this process as Python does, but without giving its memory back first; comes back if a stream has failed."""
    for thread in threading.enumerate():
        if thread is not threading.current_thread() and not thread.daemon:
            thread.join()
    atexit._run_exitfuncs()
    with contextlib.suppress(OSError, ValueError):
        for stream in filter(None, (sys.stdout, sys.stderr)):
            stream.flush()
        os._exit(status & 255)


def main(descriptor):
    """Reads the modules of all commands, and then runs a command in each process that is forked."""
    sys.path[0] = str(TOOLS)
    doors = importlib.import_module("llbm_tools.doors")
    for command in doors.commands.of_all():
        importlib.import_module(f"llbm_tools.{command.module}")
    gc.freeze()
    found = asked(socket.socket(fileno=descriptor))
    if found is None:
        return 0
    become(*found)
    status = started(doors)
    leave(status)
    return status


if __name__ == "__main__":
    sys.exit(main(int(sys.argv[1])))
