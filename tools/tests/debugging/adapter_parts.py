"""Tests of the debug adapter that do not need the program: its messages, its parsing of texts and trees, and its
behavior with fake programs, which crash or print what no session prints.
"""

import json
import os
import pathlib

from llbm_tools.debugging import shown_trees, vertex_lines
from llbm_tools.trees import source_texts
from tests import base
from tests.base import Folder, command
from tests.debugging import protocol

SOURCE = base.source("local://src")
FAKE = f"""{base.FAKE_PYTHON}
import os, signal
words = sys.argv[1:]
given = sys.stdin.buffer.read() if words[0] != "step" else b""
if words[0] == "dis":
    print("op {{\\n}}\\nop {{\\n}}")
else:
    SHOWN = "0 source steps 1 outputs 1 inputs -\\nresult 0.0\\n"
    DIGESTS = "0 {base.digest(SOURCE)}\\n"
    def send(text):
        sys.stdout.write(text)
        sys.stdout.flush()
    def receive():
        return sys.stdin.readline().strip()
    exec(open(os.path.join(os.path.dirname(sys.argv[0]), "does")).read())
"""

BEGINS = "receive()\nsend(SHOWN + '\\n')\nreceive()\nsend(DIGESTS + '\\n')\nreceive()\n"
CRASHES = BEGINS + "sys.stderr.write('out of luck\\n')\nsys.exit(7)\n"
KILLED = BEGINS + "os.kill(os.getpid(), signal.SIGKILL)\n"
BABBLES = BEGINS + "send('1 claim 0 0 -> source 1\\n\\n')\nreceive()\nsend('3 step 0 -> read\\n\\n')\nreceive()\n"
CUT = BEGINS + "send('1 claim 0 0 -> sou')\n"
CLOSES = BEGINS + "os.close(1)\nreceive()\n"
DONE = """
answers = {'graph': SHOWN, 'digests': DIGESTS, 'next': 'end\\n', 'status': '0 done\\n'}
while line := receive():
    if line == 'tree 0 0':
        send(open(os.path.join(os.path.dirname(sys.argv[0]), 'tree')).read())
    send(answers.get(line, '') + '\\n')
"""


class WithAdapter(Folder):
    """A test with an adapter and its client."""

    def setUp(self):
        super().setUp()
        self.at = pathlib.Path(os.fsdecode(self.folder))
        held = self.at / "held"
        held.mkdir()
        self.environment = {**os.environ, "TMPDIR": str(held)}

    def client(self):
        """Returns a client of a new adapter."""
        client = protocol.Client(command("debug-adapter"), env=self.environment)
        self.addCleanup(client.close)
        return client

    def opened(self, **habits):
        """Returns a client that has sent `initialize`."""
        client = self.client()
        client.ask("initialize", adapterID="llbm", **habits)
        return client

    def check_no_file_is_left(self):
        """Checks that no temporary file remains."""
        self.assertEqual(os.listdir(self.at / "held"), [])


class Messages(WithAdapter):
    """Messages that come in."""

    def check_end(self, client, status, errors):
        """Checks that the adapter ends with this status and this text on standard error."""
        client.child.stdin.close()
        self.assertIsNone(client.receive())
        self.assertEqual((client.child.wait(base.GUARD), client.child.stderr.read().decode()), (status, errors))

    def test_input_that_is_not_a_message_ends_the_adapter(self):
        for head, errors in [
            (b"\r\n\r\n", "a message has no Content-Length\n"),
            (b"Content-Length: x\r\n\r\n", "Content-Length is not a number of at most 67,108,864\n"),
            (b"Content-Length: -1\r\n\r\n", "Content-Length is not a number of at most 67,108,864\n"),
            (b"Content-Length: 67108865\r\n\r\n", "Content-Length is not a number of at most 67,108,864\n"),
            (b"a" * 5000, "the head of a message has no end\n"),
            (b"Content-", "the input ends inside the head of a message\n"),
            (b"Content-Length: 10\r\n\r\n{}", "the input ends inside a message\n"),
        ]:
            client = self.client()
            client.write(b"", head)
            self.check_end(client, 2, errors)

    def test_the_end_of_the_input_ends_the_adapter(self):
        self.check_end(self.client(), 0, "")
        self.check_end(self.opened(), 0, "")

    def test_messages_can_come_in_pieces_and_with_more_fields(self):
        client = self.client()
        client.waiting = {1: "initialize", 2: "disconnect"}
        content = json.dumps({"seq": 1, "type": "request", "command": "initialize", "arguments": {"adapterID": "a"}})
        second = json.dumps({"seq": 2, "type": "request", "command": "disconnect"})
        head = b"Content-Type: x\r\ncontent-length:%d\r\n\r\n"
        whole = b"".join(head % len(text) + text.encode() for text in (content, second))
        for place in range(0, len(whole), 50):
            client.write(b"", whole[place : place + 50])
        self.assertTrue(client.response(1)["success"])
        self.assertTrue(client.response(2)["success"])
        self.check_end(client, 0, "")

    def test_messages_that_are_not_requests_are_refused(self):
        for content, number, name, message in [
            (b"{", 0, "", "the message is not JSON: "),
            (b"\xff", 0, "", "the message is not JSON: "),
            (b"[" * 100_000, 0, "", "the message is not JSON: "),
            (b"[]", 0, "", "the message is not a request"),
            (b'{"seq": 5, "type": "event", "command": "threads"}', 5, "threads", "the message is not a request"),
            (b'{"seq": 5, "type": "request"}', 5, "", "the message is not a request"),
            (b'{"seq": true, "type": "request", "command": 1}', 0, "", "the message is not a request"),
            (b'{"seq": 5, "type": "request", "command": "a\\nb"}', 5, "a\nb", "the request a\\nb is not known"),
            (b'{"seq": 5, "type": "request", "command": "initialize", "arguments": []}', 5, "initialize",
             "arguments is not an object"),
        ]:
            client = self.client()
            client.waiting = {number: name}
            client.write(content)
            response = client.response(number)
            self.assertFalse(response["success"])
            self.assertTrue(response["message"].startswith(message), response)
            client.ask("initialize", adapterID="llbm")
            self.assertEqual(client.leave(), 0)

    def test_command_lines_with_words_are_refused(self):
        done = base.run("debug-adapter", "--help")
        self.assertEqual((done.returncode, done.stderr), (0, b""))
        self.assertEqual(base.run("debug-adapter", "word").returncode, 2)

    def test_closed_streams_are_reported(self):
        for descriptor, name in [(0, "standard input"), (1, "standard output")]:
            done = base.run_closed(descriptor, "debug-adapter")
            errors = f"{name} is closed\n"
            self.assertEqual((done.returncode, done.stderr.decode()), (3, errors))


class Order(WithAdapter):
    """Requests that come too early or too late."""

    def test_requests_before_initialize_are_refused(self):
        client = self.client()
        self.assertEqual(client.refused("launch", definition="a"), "launch: initialize has to come first")
        self.assertEqual(client.refused("threads"), "threads: initialize has to come first")
        self.assertEqual(client.leave(), 0)

    def test_initialize_checks_its_arguments(self):
        client = self.client()
        self.assertEqual(client.refused("initialize"), "adapterID is missing")
        self.assertEqual(client.refused("initialize", adapterID=1), "adapterID is not a text")
        message = client.refused("initialize", adapterID="a", linesStartAt1=1)
        self.assertEqual(message, "linesStartAt1 is not true or false")
        message = client.refused("initialize", adapterID="a", pathFormat="uri")
        self.assertEqual(message, "pathFormat is not path, the only form that is known")
        body = client.ask("initialize", adapterID="a", pathFormat="path")
        for name in ["ConfigurationDoneRequest", "ConditionalBreakpoints", "EvaluateForHovers", "StepBack"]:
            self.assertIs(body[f"supports{name}"], True)
        self.assertEqual([one["filter"] for one in body["exceptionBreakpointFilters"]], ["failed"])
        message = client.refused("initialize", adapterID="a")
        self.assertEqual(message, "initialize: initialize is done, and nothing is launched yet")

    def test_requests_before_launch_are_refused(self):
        client = self.opened()
        for name in ["configurationDone", "threads", "continue", "next", "stepBack", "pause", "evaluate", "terminate"]:
            message = client.refused(name, threadId=1, expression="0")
            self.assertEqual(message, f"{name}: initialize is done, and nothing is launched yet")
        self.assertEqual(client.refused("modules"), "the request modules is not known")
        self.assertEqual(client.leave(), 0)


class WithFake(WithAdapter):
    """A test with a fake program."""

    def setUp(self):
        super().setUp()
        self.definition = os.fsdecode(self.file(b"definition", base.ending(SOURCE)))
        self.tree = os.fsdecode(self.file(b"src", b"d 0755 0 0 /\n"))
        self.program = self.at / "llbm"
        self.program.write_text(FAKE)
        self.program.chmod(0o755)
        self.given = {"definition": self.definition, "sources": {"src": self.tree}, "llbm": str(self.program)}

    def set_behavior(self, text):
        """Sets what the program does in a session."""
        (self.at / "does").write_text(text)

    def launched(self, **more):
        """Returns a client that has launched a run."""
        client = self.opened()
        client.ask("launch", **{**self.given, "stopAtEnd": False, **more})
        client.until("initialized")
        return client


class Crashes(WithFake):
    """A program that does not behave like a session."""

    def test_a_crash_ends_the_run(self):
        for does, code, lines in [
            (CRASHES, 7, ["the program has ended with status 7", "out of luck"]),
            (KILLED, 137, ["the program has ended by signal 9"]),
            (CUT, 0, ["the program has ended with status 0"]),
            (CLOSES, 137, ["the program has ended by signal 9"]),
            (BABBLES, 1, ["the program printed an unexpected line: 3 step 0 -> read"]),
        ]:
            self.set_behavior(does)
            client = self.launched()
            client.ask("configurationDone")
            self.assertEqual(client.ended(), code, does)
            self.assertEqual(client.lines("stderr"), lines)
            self.assertEqual(client.refused("threads"), "threads: the run has ended")
            self.assertEqual(client.leave(), 0)
            self.check_no_file_is_left()

    def test_a_crash_during_a_request_ends_the_run(self):
        self.set_behavior(CRASHES)
        client = self.launched(stopOnEntry=True)
        client.ask("configurationDone")
        client.stopped()
        message = client.refused("evaluate", expression="0")
        self.assertEqual(message, "the program has ended with status 7")
        self.assertEqual(client.ended(), 7)
        self.assertEqual(client.leave(), 0)

    def test_a_program_that_ignores_the_end_is_killed(self):
        self.set_behavior(BEGINS + "while True: signal.pause()\n")
        client = self.launched(stopOnEntry=True)
        client.ask("configurationDone")
        client.stopped()
        self.assertEqual(client.leave(), 0)
        self.assertEqual(client.ended(), 0)

    def test_an_invalid_tree_ends_the_run(self):
        self.set_behavior(DONE)
        for text in ["d 0755 0 0 /\nf 0644 0 0 6 /a\n", "d 0755 0 0 /\nf 0644 0 0 - /a/b\n", "d /\n", "f 0644 0 /\n"]:
            (self.at / "tree").write_text(text)
            client = self.launched(stopOnEntry=True)
            client.ask("configurationDone")
            client.stopped()
            message = client.refused("evaluate", expression="0.0:/")
            wanted = "the program printed an unexpected line: not a tree"
            self.assertTrue(message.startswith(wanted), message)
            self.assertEqual(client.ended(), 1)
            self.assertEqual(client.leave(), 0)

    def test_an_invalid_graph_is_refused(self):
        self.set_behavior(DONE)
        client = self.opened()
        line = "the program printed an unexpected line: "
        for before, after, message in [
            ("result 0.0", "x", f"{line}neither V KIND steps S outputs O inputs LIST nor result V.I: line 2"),
            ("result 0.0\\n", "", f"{line}there is no result: line 2"),
            ("0 source", "1 source", f"{line}the number of the vertex is not 0: line 1"),
            ("0 sha256:", "0 sha256:0", "the program shows another graph than that of the definition"),
        ]:
            self.program.write_text(FAKE.replace(before, after))
            self.assertEqual(client.refused("launch", **self.given), message)

    def test_a_program_that_does_not_begin_is_refused(self):
        client = self.opened()
        for does, message in [
            ("sys.exit(3)", "the program has ended with status 3"),
            ("sys.stderr.write('fault 122\\n')\nsys.exit(2)", "fault 122: 122: "),
            ("send('x\\n\\n')", "the program printed an unexpected line: neither V KIND steps S"),
        ]:
            self.set_behavior(does)
            self.assertTrue(client.refused("launch", **self.given).startswith(message))
        self.set_behavior(DONE)
        for words, message in [
            ({"llbm": "/nowhere/llbm"}, "there is no such program: /nowhere/llbm"),
            ({"llbm": self.definition}, f"not a program: {self.definition}"),
        ]:
            self.assertEqual(client.refused("launch", **{**self.given, **words}), message)
        client.ask("launch", **self.given)
        self.check_no_file_is_left()

    def test_a_program_that_cannot_be_started_is_refused(self):
        self.program.write_text("#!/nowhere\n")
        message = self.opened().refused("launch", **self.given)
        self.assertEqual(message, f"the program does not start: No such file or directory: {self.program}")

    def test_the_program_on_the_path_is_used(self):
        self.set_behavior(DONE)
        self.environment["PATH"] = f"{self.at}:{os.environ['PATH']}"
        client = self.opened()
        client.ask("launch", definition=self.definition, sources={"src": self.tree}, stopAtEnd=False)
        client.ask("configurationDone")
        self.assertEqual(client.ended(), 0)

    def test_a_terminated_adapter_leaves_no_program(self):
        writes = f"open({str(self.at / 'gone')!r}, 'w').write(str(os.getpid()))\n"
        self.set_behavior(BEGINS + writes + "send('x')\nreceive()\n")
        client = self.launched(stopOnEntry=True)
        client.ask("configurationDone")
        client.child.terminate()
        self.assertEqual(client.child.wait(base.GUARD), 143)
        self.check_no_file_is_left()


class Launches(WithFake):
    """Arguments of a launch."""

    def setUp(self):
        super().setUp()
        self.set_behavior(DONE)

    def test_launches_with_wrong_arguments_are_refused(self):
        client = self.opened()
        name = "this can't be the name of a local source on a command line"
        for words, message in [
            ({"definition": None}, "definition is missing"),
            ({"definition": 1}, "definition is not a text"),
            ({"definition": "/nowhere/x"}, "there is no such file or directory: /nowhere/x"),
            ({"definition": "a\0b"}, "a path or a name can't be used: embedded null byte"),
            ({"sources": []}, "sources is not an object"),
            ({"sources": {"src": 1}}, "sources: src is not a text"),
            ({"sources": {"src": "/none/x"}}, "there is no such file or directory: /none/x (the local source src)"),
            ({"sources": {"a=b": self.tree}}, f"{name}: 'a=b'"),
            ({"sources": {"--help": self.tree}}, f"{name}: '--help'"),
            ({"sources": {"": self.tree}}, f"{name}: ''"),
            ({"workers": 0}, "workers is not a number from 1 to 64"),
            ({"workers": 65}, "workers is not a number from 1 to 64"),
            ({"workers": True}, "workers is not a whole number"),
            ({"workers": "2"}, "workers is not a whole number"),
            ({"stopOnEntry": 1}, "stopOnEntry is not true or false"),
            ({"llbm": 1}, "llbm is not a text"),
        ]:
            self.assertEqual(client.refused("launch", **{**self.given, **words}), message, words)
            self.check_no_file_is_left()
        client.ask("launch", **{**self.given, "workers": None})
        again = "launch: a launch is done, and configurationDone has to come next"
        self.assertEqual(client.refused("launch", **self.given), again)

    def test_workers_are_threads(self):
        for workers, count in [(None, 2), (1, 1), (64, 64)]:
            threads = self.launched(workers=workers).ask("threads")["threads"]
            self.assertEqual(threads, [{"id": n + 1, "name": f"worker {n}, idle"} for n in range(count)])

    def test_what_is_left_out_of_a_directory_is_reported(self):
        self.make(b"a", b"a")
        os.symlink("a", self.place(b"in", b"link"))
        client = self.launched(sources={"src": str(self.at / "in")})
        self.assertIn("left out: a symbolic link: /link (the local source src)", client.lines("console"))

    def test_an_archive_is_known_by_its_name_or_its_first_bytes(self):
        archive, text = source_texts.ARCHIVE, source_texts.TEXT
        for name, begin, kind in [
            (b"a", b"a".ljust(257, b"\0") + b"ustar\x0000", archive), (b"b", b"\x1f\x8b\x08", archive),
            (b"a.tgz", b"x", archive), (b"a.tar", b"d 0755 0 0 /\n", text), (b"c", b"x", text),
        ]:
            self.assertEqual(source_texts.kind_of(os.fsdecode(self.file(name, begin))), kind)


class Texts(Folder):
    """Lines of entries in their text."""

    def test_the_lines_of_entries_are_found(self):
        text = '# a\nop {\n  file {\n    path "a {"\n  }\n\n}\n\n raw -\r\nop {\n}\n# b\n'
        self.assertEqual(vertex_lines.lines_of(text), [(2, 7), (9, 9), (10, 11)])
        self.assertEqual(vertex_lines.lines_of(""), [])

    def test_the_vertices_of_entries_are_found(self):
        one, two, three = base.source("local://a"), base.source("local://b"), base.source("local://c")
        end = base.merge(two, one)
        self.assertEqual(vertex_lines.vertices_by_entry([three, two, one, two, end], [1, 2, 4]), [None, 0, 1, 0, 2])


class Trees(Folder):
    """Trees as the adapter shows them."""

    def tree(self, *lines):
        """Returns the root of a tree."""
        return shown_trees.tree_of([b"d 0755 1 2 /", *lines])

    def test_a_tree_is_shown_directory_by_directory(self):
        wide = "\N{GREEK SMALL LETTER ALPHA} b".encode()
        root = self.tree(b"d 0700 0 0 /a", b"f 0644 3 4 6869 /a/b", b"d 0755 0 0 /a-", b"f 0644 0 0 - /a-/" + wide)
        self.assertEqual(shown_trees.description_of(root), "2 names:\na/\na-/")
        self.assertEqual(shown_trees.summary_of(root), "0755 1:2, 2 names")
        self.assertEqual(shown_trees.summary_of(shown_trees.node_at(root, "a")), "0700 0:0, 1 name")
        self.assertEqual(shown_trees.summary_of(shown_trees.node_at(root, "/a/b")), "0644 3:4, text of 2 bytes: hi")
        node = shown_trees.node_at(root, f"/x/.././a-//{wide.decode()}/")
        self.assertEqual(shown_trees.summary_of(node), "0644 0:0, 0 bytes")
        for path, message in [("/a/c", "nothing is at /a/c"), ("/a/b/c", "/a/b is a file")]:
            with self.assertRaisesRegex(shown_trees.NoPath, message):
                shown_trees.node_at(root, path)
        self.assertEqual(shown_trees.description_of(self.tree()), "0 names")

    def test_contents_are_shown_as_text_or_hexadecimal(self):
        for content, what, body in [
            (b"a\n\tb\r\n", "text of 6 bytes", "a\n\tb\r\n"),
            ("\N{GREEK SMALL LETTER ALPHA}".encode(), "text of 2 bytes", "\N{GREEK SMALL LETTER ALPHA}"),
            (b"\0", "hexadecimal of 1 byte", "00"),
            (b"a\x1bb", "hexadecimal of 3 bytes", "611b62"),
            (b"\xff\xfe", "hexadecimal of 2 bytes", "fffe"),
            (b"a" * 4096, "text of 4,096 bytes", "a" * 4096),
            (b"a" * 4097, "text of 4,097 bytes, the first 4,096 shown", "a" * 4096),
            (b"a" * 4095 + "\N{GREEK SMALL LETTER ALPHA}".encode(), "text of 4,097 bytes, the first 4,096 shown",
             "a" * 4095),
            (b"a" * 4096 + b"\0", "hexadecimal of 4,097 bytes, the first 4,096 shown", "61" * 4096),
        ]:
            node = shown_trees.Node("0644", "0:0", None, content.hex().encode())
            self.assertEqual(shown_trees.shown(node), (what, body))
            self.assertEqual(shown_trees.description_of(node), f"{what}:\n{body}")

    def test_at_most_a_thousand_names_are_shown(self):
        root = self.tree(*(b"f 0644 0 0 - /%04d" % number for number in range(1002)))
        lines = shown_trees.description_of(root).split("\n")
        self.assertEqual((lines[:2], lines[1000:]), (["1,002 names:", "0000"], ["0999", "and 2 more"]))
