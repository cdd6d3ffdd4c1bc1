"""A debug adapter at a port of the loopback address: a session of its own for each connection.

Each connection has a process of its own, so that sessions share nothing. Other users of the host, and pages in a
browser, can connect too; so a launch has to have the token, and before it no request starts a program.
"""

import contextlib
import os
import secrets
import signal
import socket

from llbm_tools.command_line import print_all
from llbm_tools.debugging.protocol_messages import Writer
from llbm_tools.debugging.responses import Outgoing
from llbm_tools.streams import Refused

LOOPBACK = "127.0.0.1"
MOST_PORT = 65_535
MOST_SESSIONS = 16
TOKEN = "LLBM_DEBUG_TOKEN"
LEAST_TOKEN = 16


def token_of() -> str:
    """Returns the token that the environment has, else a new one that cannot be guessed."""
    given = os.environ.get(TOKEN)
    if given is None:
        return secrets.token_urlsafe(16)
    if len(given) < LEAST_TOKEN or not given.isascii() or not given.isprintable() or " " in given:
        raise Refused(f"{TOKEN} has fewer than {LEAST_TOKEN} characters of ASCII, or spaces")
    return given


class Sessions:
    """The processes of the sessions that are open."""

    def __init__(self) -> None:
        self.processes: set[int] = set()

    def reap(self) -> None:
        """Forgets the sessions that have ended."""
        self.processes = {number for number in self.processes if os.waitpid(number, os.WNOHANG)[0] == 0}

    def end(self) -> None:
        """Terminates all sessions, and waits for them."""
        self.reap()
        for number in self.processes:
            os.kill(number, signal.SIGTERM)
        for number in self.processes:
            os.waitpid(number, 0)

    def refuse(self, connection: socket.socket) -> None:
        """Says to a client that there are too many sessions."""
        with contextlib.suppress(OSError):
            writer = Writer(connection.fileno())
            Outgoing(writer).output(f"{MOST_SESSIONS} sessions are open, and no more may be", "stderr")

    def begun(self, listener: socket.socket) -> socket.socket | None:
        """Accepts a connection, and returns it in the process of its session; in this one nothing."""
        connection = listener.accept()[0]
        self.reap()
        if len(self.processes) == MOST_SESSIONS:
            self.refuse(connection)
        elif self.fork():
            listener.close()
            return connection
        connection.close()
        return None

    def fork(self) -> bool:
        """Begins the process of a session, and returns whether this is that one; no signal comes before it is known."""
        signal.pthread_sigmask(signal.SIG_BLOCK, [signal.SIGTERM])
        number = os.fork()
        self.processes = {*self.processes, number} if number else set()
        signal.pthread_sigmask(signal.SIG_UNBLOCK, [signal.SIGTERM])
        return number == 0


def listening_at(port: int) -> socket.socket:
    """Returns a socket that listens at a port of the loopback address."""
    try:
        return socket.create_server((LOOPBACK, port))
    except OSError as fault:
        raise OSError(fault.errno, os.strerror(fault.errno or 0), f"{LOOPBACK}:{port}") from fault


def connection_at(port: int, token: str) -> socket.socket:
    """Listens at a port, or for 0 at one that is free, which is printed with the token; returns the connection of a
    session in the process of that session alone. In this one only an exception ends it.
    """
    sessions = Sessions()
    with listening_at(port) as listener:
        print_all(f"{LOOPBACK}:{listener.getsockname()[1]} {token}\n", "the address")
        try:
            while True:
                connection = sessions.begun(listener)
                if connection:
                    return connection
        finally:
            sessions.end()
