"""Tests of the debug adapter at a port, with a fake program: sessions of their own, the token, and what is refused."""

import io
import json
import os
import pathlib
import signal
import socket
import subprocess
from unittest import mock

from llbm_tools.debugging import debug_adapter, listening
from tests import base
from tests.debugging import protocol
from tests.debugging.adapter_parts import DONE, WithFake

TOKEN = "a-token-of-a-test"


class Connected:
    """A connection, in the place of the process of an adapter."""

    def __init__(self, port):
        self.socket = socket.create_connection((listening.LOOPBACK, port), base.GUARD)
        self.stdin, self.stdout, self.stderr = self.socket.makefile("wb"), self.socket.makefile("rb"), io.BytesIO()

    def kill(self):
        """Closes the connection."""
        self.socket.close()

    def wait(self, _=None):
        """Returns the status of a session that has ended."""
        return 0


class Client(protocol.Client):
    """A client that connects to a port."""

    def begun(self, command, **_):
        """Connects to a port."""
        return Connected(command)


class Listening(WithFake):
    """An adapter at a port that is free."""

    def setUp(self):
        super().setUp()
        self.set_behavior(DONE)
        self.environment["LLBM_DEBUG_TOKEN"] = TOKEN
        self.adapter, self.port = self.listening()
        self.with_token = {**self.given, "token": TOKEN, "stopOnEntry": True}

    def listening(self):
        """Returns the process of a new adapter, and its port."""
        words = base.command("debug adapter", "--listen", "0")
        process = subprocess.Popen(words, stdout=subprocess.PIPE, stderr=subprocess.PIPE, env=self.environment)
        self.addCleanup(self.ended, process)
        address, token = process.stdout.readline().decode().split()
        self.assertEqual((address.split(":")[0], token), (listening.LOOPBACK, TOKEN))
        return process, int(address.split(":")[1])

    def ended(self, process, number=signal.SIGTERM):
        """Ends an adapter, and returns its status and what it has written to standard error."""
        if process.returncode is None:
            process.send_signal(number)
            self.errors = process.communicate(timeout=base.GUARD)[1].decode()
        return process.returncode, self.errors

    def client(self):
        """Returns a client with a new connection."""
        client = Client(self.port)
        self.addCleanup(client.close)
        return client

    def stopped(self, command="launch"):
        """Returns a client whose run has stopped at its beginning."""
        client = self.opened()
        client.ask(command, **self.with_token)
        client.ask("configurationDone")
        self.assertEqual(client.stopped()["reason"], "entry")
        return client

    def programs(self):
        """Returns how many processes the sessions of the adapter have started."""
        def children(number):
            return pathlib.Path(f"/proc/{number}/task/{number}/children").read_text().split()

        return sum(len(children(number)) for number in children(self.adapter.pid))

    def test_each_connection_has_a_session_of_its_own(self):
        one, other = self.stopped(), self.stopped("attach")
        self.assertEqual(self.programs(), 2)
        one.ask("continue", threadId=1)
        self.assertEqual(one.stopped()["reason"], "end")
        self.assertEqual(other.ask("threads"), one.ask("threads"))
        self.assertEqual(one.leave(), 0)
        other.ask("continue", threadId=1)
        self.assertEqual(other.stopped()["reason"], "end")
        self.assertEqual(other.leave(), 0)
        self.assertEqual(self.opened().leave(), 0)
        self.assertEqual(self.ended(self.adapter), (143, ""))

    def test_a_launch_needs_the_token(self):
        client = self.opened()
        for token in ({}, {"token": ""}, {"token": TOKEN[1:]}, {"token": "\N{LATIN SMALL LETTER E WITH ACUTE}\ud800"}):
            for name in ("launch", "attach"):
                message = client.refused(name, **self.given, **token)
                self.assertEqual(message, "token is not the one that the adapter has printed")
        self.assertEqual(client.refused("launch", token=1), "token is not a text")
        self.assertEqual(self.programs(), 0)
        client.ask("launch", **self.with_token)
        self.assertEqual(client.leave(), 0)

    def test_what_is_no_message_ends_its_connection_alone(self):
        held = self.stopped()
        most = debug_adapter.MOST_UNTRUSTED
        for head, wanted in [
            (b"GET / HTTP/1.1\r\nHost: 127.0.0.1\r\n\r\n", "a message has no Content-Length\n"),
            (b"Content-Length: %d\r\n\r\n" % (most + 1), f"Content-Length is not a number of at most {most:,}\n"),
        ]:
            client = self.client()
            client.write(b"", head)
            self.assertIsNone(client.receive())
            self.assertEqual(self.adapter.stderr.readline().decode(), wanted)
        self.assertEqual(held.leave(), 0)

    def test_a_page_in_a_browser_starts_nothing(self):
        client = self.opened()
        content = json.dumps({"seq": 2, "type": "request", "command": "launch", "arguments": self.given}).encode()
        client.waiting[2] = "launch"
        head = b"POST / HTTP/1.1\r\nContent-Type: text/plain\r\nContent-Length: %d\r\n\r\n"
        client.write(content, head % len(content))
        self.assertFalse(client.response(2)["success"])
        self.assertEqual(self.programs(), 0)

    def test_only_so_many_sessions_are_open(self):
        clients = [self.opened() for _ in range(listening.MOST_SESSIONS)]
        further = self.client()
        body = further.until("output")["body"]
        self.assertEqual(body["output"], f"{len(clients)} sessions are open, and no more may be\n")
        self.assertIsNone(further.receive())
        self.assertEqual(clients[0].leave(), 0)

    def test_a_terminated_adapter_ends_its_sessions(self):
        client = self.stopped()
        self.assertEqual(self.ended(self.adapter), (143, ""))
        self.assertIsNone(client.receive())
        self.check_no_file_is_left()


class Ends(WithFake):
    """Signals at the end of a session, which is done whole and says nothing of them."""

    def session(self, serve):
        """Returns what is done of a session that is served so and gets a signal as it ends and afterwards."""
        done = []

        def dismiss(_):
            os.kill(os.getpid(), signal.SIGTERM)
            done.append("dismissed")

        self.addCleanup(signal.signal, signal.SIGTERM, signal.signal(signal.SIGTERM, debug_adapter.terminated))
        changed = mock.patch.multiple(debug_adapter, serve=serve, Reader=mock.Mock(), Writer=mock.Mock())
        with changed, mock.patch.object(debug_adapter.Adapter, "dismiss", dismiss):
            debug_adapter.session(0, 1, None)
        os.kill(os.getpid(), signal.SIGTERM)
        return done

    def test_a_signal_comes_after_the_client_has_left(self):
        self.assertEqual(self.session(lambda adapter, reader: None), ["dismissed"])

    def test_a_signal_ends_a_session(self):
        with self.assertRaises(SystemExit) as end:
            self.session(lambda adapter, reader: os.kill(os.getpid(), signal.SIGTERM))
        self.assertEqual(end.exception.code, 143)

    def test_a_signal_comes_once_the_process_of_a_session_is_known(self):
        sessions, known = listening.Sessions(), []
        terminated = signal.signal(signal.SIGTERM, lambda number, frame: known.extend(sessions.processes))
        self.addCleanup(signal.signal, signal.SIGTERM, terminated)
        with mock.patch("os.fork", lambda: os.kill(os.getpid(), signal.SIGTERM) or 7):
            self.assertFalse(sessions.fork())
        self.assertEqual(known, [7])


class Refused(WithFake):
    """Command lines and requests that are refused."""

    def run_with(self, *words, **environment):
        """Returns the status and the last line of standard error of an adapter with these words."""
        done = base.run("debug adapter", *words, env={**os.environ, **environment})
        return done.returncode, done.stderr.decode().splitlines()[-1]

    def test_what_is_no_port_is_refused(self):
        for word in ("x", "-1", "65536", ""):
            status, line = self.run_with(f"--listen={word}")
            wanted = f"argument --listen: invalid port value: {word!r}"
            self.assertEqual((status, line.partition(": error: ")[2]), (2, wanted))

    def test_a_port_that_is_taken_is_named(self):
        with socket.create_server((listening.LOOPBACK, 0)) as taken:
            place = taken.getsockname()[1]
            wanted = f"Address already in use: {listening.LOOPBACK}:{place}"
            self.assertEqual(self.run_with("--listen", str(place)), (3, wanted))

    def test_a_token_that_is_too_short_or_has_spaces_is_refused(self):
        for token in ("short", "a token with spaces", ""):
            line = "LLBM_DEBUG_TOKEN has fewer than 16 characters of ASCII, or spaces"
            self.assertEqual(self.run_with("--listen", "0", LLBM_DEBUG_TOKEN=token), (2, line))

    def test_attach_and_a_token_are_for_a_port(self):
        self.set_behavior(DONE)
        client = self.opened()
        for command, given, what in [
            ("attach", {}, "attach"), ("attach", {"token": TOKEN}, "attach"), ("launch", {"token": TOKEN}, "token"),
        ]:
            message = client.refused(command, **self.given, **given)
            self.assertRegex(message, f"^{what} needs an adapter at a port: .* --listen PORT$")
        client.ask("launch", **self.given)
        self.assertEqual(client.leave(), 0)
