"""Tests of the debug adapter with the program llbm, skipped if it is not there."""

import json
import os
import pathlib
import re
import subprocess
import sys
import tarfile
import unittest
import unittest.mock

from llbm_tools.debugging import launching
from llbm_tools.llb import op_reading, ops
from tests import base
from tests.base import ROOT, TOOLS, run
from tests.debugging import protocol
from tests.debugging.adapter_parts import WithAdapter

EXAMPLES = ROOT / "examples"
RECORD = re.compile(r"([0-9]+) (?:claim|step|settle|cancel) .*")

# The lines of the vertices' entries in examples/tour.text, and the first line of the terminal.
ENTRIES = [(1, 5), (6, 17), (18, 50)]
TERMINAL = 51


def stored_record():
    """Returns the record of the stored session by number; a line that was undone is replaced by a later one."""
    lines = (EXAMPLES / "tour.answers").read_text().splitlines()
    found = {int(line.split(" ")[0]): line for line in lines if RECORD.fullmatch(line)}
    return [found[number] for number in range(1, len(found) + 1)]


class WithRun(WithAdapter):
    """A test with the program."""

    def setUp(self):
        if base.llbm is None:
            raise unittest.SkipTest("the program llbm is needed (--llbm PROGRAM)")
        super().setUp()
        self.execution = {
            "definition": str(EXAMPLES / "tour.definition"), "sources": {"source": str(EXAMPLES / "tour.tree")},
        }

    def llbm(self, *words, given=b""):
        """Returns what the program prints."""
        return subprocess.run([base.llbm, *words], input=given, capture_output=True, timeout=base.GUARD).stdout

    def example(self, name, *sources):
        """Returns the launch arguments of an example, with its text."""
        folder = EXAMPLES / name
        trees = {one: str(folder / f"{one}.tree") for one in sources}
        return {"text": str(folder / "definition.text"), "sources": trees}

    def made(self, definition, **sources):
        """Returns the launch arguments of a definition that is made for a test, with texts of trees."""
        places = {name: os.fsdecode(self.file(name.encode(), text)) for name, text in sources.items()}
        return {"definition": os.fsdecode(self.file(b"definition", definition)), "sources": places}

    def launched(self, given, habits=None, **more):
        """Returns a client that has launched a run."""
        client = self.opened(**(habits or {}))
        client.ask("launch", **{"llbm": base.llbm, "stopAtEnd": False, **given, **more})
        client.until("initialized")
        self.check_no_file_is_left()
        return client

    def entered(self, given=None, habits=None, **more):
        """Returns a client whose run has stopped at its beginning."""
        client = self.launched(given or self.execution, habits, stopOnEntry=True, **more)
        client.ask("configurationDone")
        stop = client.stopped()
        self.assertEqual((stop["reason"], stop["threadId"], stop["allThreadsStopped"]), ("entry", 1, True))
        return client

    def many_vertices(self):
        """Returns the launch arguments of a definition with 201 vertices, whose run has 802 events."""
        entries = [base.file_op(base.mkdir(f"/{number}")) for number in range(200)]
        return self.made(base.ending(*entries, base.merge(*entries)))

    def set_breakpoints(self, client, *breakpoints, source=None):
        """Sets breakpoints at these lines, with conditions if given, and returns the answers."""
        pairs = [one if isinstance(one, tuple) else (one,) for one in breakpoints]
        given = [dict(zip(("line", "condition"), pair)) for pair in pairs]
        source = source or {"sourceReference": 1}
        return client.ask("setBreakpoints", source=source, breakpoints=given)["breakpoints"]

    def move(self, client, command="continue", thread=1):
        """Sends a request that moves the run, and returns the next stop."""
        client.ask(command, threadId=thread)
        return client.stopped()

    def record(self, client):
        """Returns the record that the adapter reported, without the events that were undone."""
        found = []
        for line in client.lines():
            if line.startswith("back "):
                found.pop()
                self.assertEqual(line, f"back {len(found)}")
            else:
                found.append(line)
                self.assertEqual(line.split(" ")[0], str(len(found)))
        return found

    def scope(self, client, frame, name):
        """Returns the variables of a scope."""
        scopes = client.ask("scopes", frameId=frame)["scopes"]
        one = {scope["name"]: scope for scope in scopes}[name]
        return client.ask("variables", variablesReference=one["variablesReference"])["variables"]

    def state(self, client, vertices, workers):
        """Returns everything that is visible in a state, except the record and the references."""
        looks = [client.ask("evaluate", expression=str(vertex))["result"] for vertex in range(vertices)]
        trees = []
        for vertex in range(vertices):
            response = client.response(client.send("evaluate", {"expression": f"{vertex}.0:/"}))
            trees.append(response.get("message") or response["body"]["result"])
        frames = [client.ask("stackTrace", threadId=worker + 1) for worker in range(workers)]
        return looks, trees, client.ask("threads"), frames


class Reading(WithRun):
    """How often a launch reads the definition."""

    def test_each_op_is_read_once(self):
        reads, read = [], op_reading.read

        def counted(message, data):
            """Reads a message, and counts the ops."""
            if message is ops.Op:
                reads.append(data)
            return read(message, data)

        op_reading.read_op.cache_clear()
        with unittest.mock.patch.object(op_reading, "read", counted):
            launched = launching.launch({**self.execution, "llbm": base.llbm}, lambda _: None)
        self.addCleanup(launched.session.end)
        # Three vertices, and the terminal.
        self.assertEqual((len(launched.graph.vertices), len(reads), len(set(reads))), (3, 4, 4))

    def test_a_launch_costs_so_much_for_each_vertex(self):
        counts = []
        for vertices in (100, 400):
            entries = [base.file_op(base.mkdir(f"/{number}")) for number in range(vertices)]
            given = self.made(base.ending(*entries, base.merge(*entries)))
            calls = Calls()
            with calls:
                launched = launching.launch({**given, "llbm": base.llbm}, lambda _: None)
            launched.session.end()
            self.assertEqual(len(launched.graph.vertices), vertices + 1)
            counts.append(calls.count)
        # What each further vertex costs is bounded, so 2,000 vertices take four times what 500 take.
        self.assertLess(counts[1] - counts[0], 300 * 600)


class Calls:
    """Counts the calls of functions in Python in the thread of a test."""

    def __init__(self):
        self.count = 0

    def __enter__(self):
        sys.setprofile(self.counted)
        return self

    def __exit__(self, *_):
        sys.setprofile(None)

    def counted(self, _frame, event, _argument):
        """Counts a call."""
        self.count += event == "call"


class WholeRuns(WithRun):
    """Runs from the beginning to the end."""

    def test_a_run_reports_its_record(self):
        client = self.launched(self.execution)
        client.ask("configurationDone")
        self.assertEqual(client.ended(), 0)
        self.assertEqual(client.lines(), stored_record())
        self.assertEqual(client.lines("stderr"), [])
        self.assertEqual(client.lines("console"), ["the run is complete after 14 events, with the result 2.0"])
        self.assertEqual(client.refused("continue", threadId=1), "continue: the run has ended")
        self.assertEqual(client.leave(), 0)

    def test_the_record_is_that_of_the_program(self):
        for given, count in [(self.execution, 1), (self.execution, 5), (self.example("cache"), 3)]:
            client = self.launched(given, workers=count)
            client.ask("configurationDone")
            self.assertEqual(client.ended(), 0)
            data = client_definition(self, given)
            sources = [f"{name}={place}" for name, place in given["sources"].items()]
            words = ["step", os.fsdecode(self.file(b"whole", data)), "--workers", str(count), *sources]
            answers = self.llbm(*words, given=b"go\n").decode().splitlines()
            self.assertEqual([*client.lines(), "end"], answers)

    def test_a_source_can_be_a_directory(self):
        self.check_success(run("directory-of-tree", self.at / "source", text=(EXAMPLES / "tour.tree").read_bytes()))
        client = self.entered({**self.execution, "sources": {"source": str(self.at / "source")}})
        self.move(client, "next")
        self.assertEqual(client.ask("evaluate", expression="0.0:text/tail")["result"], "text of 6 bytes:\nworld\n")

    def test_a_source_can_be_a_tar(self):
        self.check_success(run("directory-of-tree", self.at / "source", text=(EXAMPLES / "tour.tree").read_bytes()))
        for name, form in [("packed.tar", "w"), ("packed", "w:gz")]:
            place = str(self.at / name)
            with tarfile.open(place, form) as archive:
                archive.add(self.at / "source", "")
            client = self.entered({**self.execution, "sources": {"source": place}})
            self.move(client, "next")
            self.assertEqual(client.ask("evaluate", expression="0.0:text/tail")["result"], "text of 6 bytes:\nworld\n")
            self.assertEqual(client.leave(), 0)

    def test_the_run_can_stop_at_its_end(self):
        client = self.launched(self.execution, stopAtEnd=True)
        client.ask("configurationDone")
        stop = client.stopped()
        self.assertEqual((stop["reason"], stop["threadId"]), ("end", 1))
        self.assertEqual(client.ask("evaluate", expression="2.0:/out")["result"], "2 names:\nbin/\nenv")
        self.assertEqual(self.move(client, "stepBack")["reason"], "step")
        self.assertEqual(self.move(client)["reason"], "end")
        self.assertEqual(self.record(client), stored_record())
        client.ask("next", threadId=2)
        self.assertEqual(client.ended(), 0)

    def test_a_run_without_debugging_does_not_stop(self):
        client = self.launched(self.execution, noDebug=True)
        self.set_breakpoints(client, 1, 6)
        client.ask("configurationDone")
        self.assertEqual(client.ended(), 0)

    def test_a_pause_stops_the_run(self):
        client = self.entered(self.many_vertices())
        for number in client.send_at_once("continue", "pause", threadId=2):
            self.assertTrue(client.response(number)["success"])
        stop = client.stopped()
        self.assertEqual((stop["reason"], stop["threadId"]), ("pause", 2))
        self.assertLess(len(self.record(client)), 800)
        self.assertEqual(client.refused("pause", threadId=1), "pause: the run is stopped")
        client.ask("continue", threadId=1)
        self.assertEqual(client.ended(), 0)
        self.assertEqual(len(self.record(client)), 3 * 200 + 2 + 200)

    def test_some_requests_are_granted_during_the_run(self):
        client = self.entered()
        commands = ["evaluate", "next", "threads", "setBreakpoints"]
        arguments = {"expression": "0", "source": {"sourceReference": 1}, "breakpoints": [{"line": 1}]}
        first, *rest, threads, breaks = client.send_at_once("continue", *commands, threadId=1, **arguments)
        self.assertTrue(client.response(first)["success"])
        messages = [client.response(number)["message"] for number in rest]
        self.assertEqual(messages, ["evaluate: the run is in progress", "next: the run is in progress"])
        self.assertEqual(len(client.response(threads)["body"]["threads"]), 2)
        self.assertTrue(client.response(breaks)["body"]["breakpoints"][0]["verified"])
        self.assertEqual(client.stopped()["reason"], "breakpoint")
        self.assertEqual(self.record(client), stored_record()[:1])

    def test_a_disconnect_ends_the_run(self):
        client = self.entered(self.many_vertices())
        for number in client.send_at_once("continue", "disconnect", threadId=1):
            self.assertTrue(client.response(number)["success"])
        self.assertIsNone(client.receive())
        self.assertEqual((client.ended(), client.child.wait(base.GUARD)), (0, 0))
        self.assertLess(len(self.record(client)), 800)


def client_definition(test, given):
    """Returns the bytes of the definition of a launch."""
    if "definition" in given:
        return pathlib.Path(given["definition"]).read_bytes()
    return test.llbm("asm", given=pathlib.Path(given["text"]).read_bytes())


class Breakpoints(WithRun):
    """Breakpoints, and where they stop."""

    def test_the_run_stops_after_claims_and_settles(self):
        client = self.launched(self.execution)
        first, second, third = self.set_breakpoints(client, 30, (7, "settle"), (1, " claim "))
        self.assertEqual([one["verified"] for one in (first, second, third)], [True, True, True])
        self.assertEqual([one["line"] for one in (first, second, third)], [30, 7, 1])
        client.ask("configurationDone")
        whole = stored_record()
        for number, thread, hit in [(1, 1, third), (6, 1, second), (7, 1, first)]:
            stop = client.stopped()
            self.assertEqual((stop["reason"], stop["threadId"]), ("breakpoint", thread))
            self.assertEqual(stop["hitBreakpointIds"], [hit["id"]])
            self.assertEqual(client.lines(), whole[:number])
            client.ask("continue", threadId=1)
        self.assertEqual(client.ended(), 0)

    def test_every_line_of_an_entry_can_have_a_breakpoint(self):
        client = self.entered()
        last = len((EXAMPLES / "tour.text").read_text().splitlines())
        answers = self.set_breakpoints(client, *range(1, last + 2))
        for vertex, (begin, end) in enumerate(ENTRIES):
            self.assertTrue(all(one["verified"] for one in answers[begin - 1 : end]), vertex)
        messages = [one.get("message") for one in answers[TERMINAL - 1 :]]
        wanted = ["entry 3 is not a vertex: the result does not depend on it"] * 5 + ["no entry has this line"]
        self.assertEqual(messages, wanted)
        stop = self.move(client)
        self.assertEqual(stop["hitBreakpointIds"], [one["id"] for one in answers[:5]])

    def test_invalid_breakpoints_are_not_verified(self):
        client = self.entered()
        answers = self.set_breakpoints(client, 0, (1, "now"), -7, 10**9)
        self.assertEqual([one["verified"] for one in answers], [False] * 4)
        self.assertIn("the condition has the name now where a value should be", answers[1]["message"])
        self.set_breakpoints(client, 1)
        other = self.set_breakpoints(client, 1, source={"path": "/nowhere/main.c"})
        self.assertFalse(other[0]["verified"])
        self.assertEqual(self.move(client)["reason"], "breakpoint")
        self.assertEqual(self.set_breakpoints(client), [])
        client.ask("continue", threadId=1)
        self.assertEqual(client.ended(), 0)

    def test_malformed_breakpoints_are_refused(self):
        client = self.entered()
        source = {"sourceReference": 1}
        for arguments, message in [
            ({}, "source is missing"),
            ({"source": 1}, "source is not an object"),
            ({"source": source, "breakpoints": {}}, "breakpoints is not a list"),
            ({"source": source, "breakpoints": [1]}, "a breakpoint is not an object"),
            ({"source": source, "breakpoints": [{}]}, "line is missing"),
            ({"source": source, "breakpoints": [{"line": "1"}]}, "line is not a whole number"),
            ({"source": source, "breakpoints": [{"line": 1, "condition": 1}]}, "condition is not a text"),
        ]:
            self.assertEqual(client.refused("setBreakpoints", **arguments), message)
        self.assertEqual(client.refused("setExceptionBreakpoints"), "filters is missing")
        self.assertEqual(client.refused("setExceptionBreakpoints", filters=["all"]), "the filter all is not known")
        self.assertEqual(client.refused("setExceptionBreakpoints", filters=[1]), "a filter is not a text")

    def test_equal_entries_are_one_vertex(self):
        one = base.source("local://a")
        given = self.made(base.definition(one, one, base.merge(one, one), base.inputs(base.merge(one, one))),
                          a=b"d 0755 0 0 /\n")
        client = self.entered(given)
        lines = client.ask("source", sourceReference=1)["content"].splitlines()
        begins = [number for number, line in enumerate(lines, 1) if line == "op {" or line[:4] == "raw "]
        self.assertEqual(len(begins), 4)
        answers = self.set_breakpoints(client, begins[1])
        self.assertTrue(answers[0]["verified"])
        self.assertEqual(self.move(client)["hitBreakpointIds"], [answers[0]["id"]])
        self.assertEqual(self.record(client), ["1 claim 0 0 -> source 1"])

    def test_the_source_is_the_text_of_the_entries(self):
        client = self.entered()
        self.move(client, "stepIn")
        frame = client.ask("stackTrace", threadId=1)["stackFrames"][0]
        self.assertEqual((frame["line"], frame["endLine"], frame["column"]), (1, 5, 1))
        self.assertEqual(client.ask("loadedSources")["sources"], [frame["source"]])
        text = client.ask("source", source=frame["source"], sourceReference=1)["content"]
        given = (EXAMPLES / "tour.definition").read_bytes()
        self.assertEqual(text.encode(), self.llbm("dis", given=given))
        self.assertEqual(client.refused("source", sourceReference=2), "sourceReference 2 is not known")

    def test_the_text_can_be_a_file_and_lines_can_count_from_0(self):
        given = self.example("failure", "empty")
        client = self.entered(given, {"linesStartAt1": False, "columnsStartAt1": False})
        source = {"path": given["text"]}
        comments, entry = self.set_breakpoints(client, 1, 2, source=source)
        self.assertEqual((comments["verified"], entry["verified"]), (False, True))
        self.move(client)
        frame = client.ask("stackTrace", threadId=1)["stackFrames"][0]
        self.assertEqual((frame["line"], frame["endLine"], frame["column"]), (2, 6, 0))
        self.assertEqual(frame["source"], {"name": "definition.text", "path": given["text"]})
        self.assertEqual(client.refused("source", sourceReference=1), "sourceReference 1 is not known")

    def test_the_text_of_another_definition_is_refused(self):
        client = self.opened()
        text = str(EXAMPLES / "tour.text")
        message = client.refused("launch", llbm=base.llbm, **{**self.execution, "text": self.example("copy")["text"]})
        self.assertIn("not the text of ", message)
        client.ask("launch", llbm=base.llbm, **{**self.execution, "text": text})


class Failures(WithRun):
    """A vertex that fails: the second command of examples/failure, in its vertex 1."""

    LINE = "failed 1 command 1 status 1"
    WHY = "command 1 (cp /none /b) failed: there is no file /none"

    def test_the_run_can_stop_at_a_failure(self):
        client = self.launched(self.example("failure", "empty"))
        client.ask("setExceptionBreakpoints", filters=["failed"])
        client.ask("configurationDone")
        stop = client.stopped()
        self.assertEqual((stop["reason"], stop["threadId"]), ("exception", 1))
        self.assertEqual(stop["text"], f"{self.LINE}: {self.WHY}")
        answer = client.ask("exceptionInfo", threadId=1)
        self.assertEqual((answer["exceptionId"], answer["description"]), ("failed", self.LINE))
        self.assertIn("command 1: cp /none /b", answer["details"]["stackTrace"])
        self.assertEqual(client.refused("exceptionInfo", threadId=2), "worker 1 has not stopped at a failure")
        self.assertTrue(self.record(client)[-1].endswith(" settle 0 -> 1 failed"))
        answer = client.ask("evaluate", expression="1")["result"]
        self.assertEqual([answer.splitlines()[place] for place in (0, -1)], ["1 failed command 1 status 1", self.WHY])
        answer = client.refused("evaluate", expression="1.0:/a")
        self.assertEqual(answer, "there is no output 1.0: vertex 1 is failed command 1 status 1")
        self.assertEqual([one["value"] for one in self.scope(client, 1, "Outputs")], ["none"])
        self.move(client, "stepBack")
        stop = self.move(client, "stepIn")
        self.assertEqual(stop["reason"], "exception")
        client.ask("continue", threadId=1)
        self.assertEqual(client.ended(), 1)

    def test_a_failure_is_explained_at_the_end(self):
        client = self.launched(self.example("failure", "empty"))
        client.ask("setExceptionBreakpoints", filters=[])
        client.ask("configurationDone")
        self.assertEqual(client.ended(), 1)
        lines = client.lines("stderr")
        self.assertEqual(lines[0], self.LINE)
        self.assertIn("  command 1: cp /none /b", lines)
        self.assertEqual(lines[-1], f"  why: {self.WHY}")
        self.assertEqual(client.leave(), 0)

    def test_launches_that_the_program_refuses_are_explained(self):
        client = self.opened()
        local, remote = base.source("local://src"), base.source("git://src")
        for entries, message in [
            ([], "not a definition: there are no bytes: "),
            ([local, base.inputs(local)], "fault 121 src: 121 (NAME = src): "),
            ([remote, base.inputs(remote)], "fault 88 0 Source: "),
        ]:
            given = self.made(base.definition(*entries))
            self.assertTrue(client.refused("launch", llbm=base.llbm, **given).startswith(message), message)
            self.check_no_file_is_left()
        given = self.made(base.ending(base.source("local://src")), src=b"x\n")
        message = client.refused("launch", llbm=base.llbm, **given)
        self.assertTrue(message.startswith("not the text of a tree: "), message)
        self.assertTrue(message.endswith(", line 1 (the local source src)"), message)
        place = os.fsdecode(self.file(b"text", b"op {\n}\nx\n"))
        message = client.refused("launch", llbm=base.llbm, text=place)
        self.assertTrue(message.startswith("fault 161 3 Syntax: "), message)
        client.ask("launch", llbm=base.llbm, **self.execution)


class Documented(WithRun):
    """The sessions and the launch files of the examples."""

    def transcripts(self):
        """Yields the messages of each session, each with its arrow."""
        for name in ("back-and-on", "failure", "dockerfile"):
            text = (EXAMPLES / "debugger" / f"{name}.session").read_text("utf-8").rstrip("\n")
            joined = text.replace("\n   ", " ").replace("$ROOT", str(ROOT))
            yield [line.split(" ", 1) for line in joined.split("\n")]

    def test_the_documented_sessions_are_what_the_adapter_sends(self):
        programs = self.at / "programs"
        programs.mkdir()
        (programs / "llbm").symlink_to(base.llbm)
        self.environment["PATH"] = f"{programs}:{os.environ['PATH']}"
        lengths = []
        for transcript in self.transcripts():
            lengths.append(len(transcript))
            client = protocol.Client(base.command("debug-adapter"), env=self.environment, cwd=ROOT)
            self.addCleanup(client.close)
            for arrow, text in transcript:
                message = json.loads(text)
                if arrow == "->":
                    self.assertEqual(client.send(message["command"], message.get("arguments")), message["seq"])
                else:
                    self.assertEqual(client.receive(), message)
            self.assertEqual(client.child.wait(base.GUARD), 0)
        self.assertEqual(lengths, [69, 32, 30])

    def test_the_launch_file_of_vs_code_starts_the_adapter(self):
        launch_file = (EXAMPLES / "launch.json").read_text().replace("${workspaceFolder}", str(ROOT))
        extension = TOOLS / "llbm_tools" / "debugging"
        known = json.loads((extension / "package.json").read_text())["contributes"]["debuggers"][0]
        self.assertEqual((extension / known["program"]).resolve(), ROOT / "llbm-tools")
        self.assertEqual(known["args"], ["debug", "adapter"])
        attributes = set(known["configurationAttributes"]["launch"]["properties"])
        for configuration in json.loads(launch_file)["configurations"]:
            given = {name: value for name, value in configuration.items() if name not in ("type", "request", "name")}
            self.assertEqual((configuration["type"], configuration["request"]), (known["type"], "launch"))
            self.assertLessEqual(set(given), attributes)
            self.assertIs(given.pop("stopOnEntry"), True)
            client = self.entered(given)
            self.assertEqual(self.move(client)["reason"], "end")

    def test_the_launch_files_of_emacs_and_neovim_have_these_names_and_paths(self):
        wanted = {"type", "request", "text", "sources", "workers", "stopOnEntry", "stopAtEnd"}
        for name, form in [("dape.el", r":(\w+) "), ("nvim-dap.lua", r"    (\w+) = ")]:
            text = (EXAMPLES / name).read_text()
            self.assertLessEqual(wanted, set(re.findall(form, text)))
            self.assertEqual([text.count(mark) for mark in "({["], [text.count(mark) for mark in ")}]"])
            for path in re.findall(r'"/?((?:llbm-tools|examples/[^"]*))"', text):
                self.assertTrue((ROOT / path).exists(), path)
