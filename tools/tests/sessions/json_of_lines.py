"""Tests of `json-of-show` and `json-of-record`."""

import json
import subprocess

from tests import base
from tests.base import ROOT, Folder, command, run, run_closed


class Conversion(Folder):
    """A test of a tool that converts lines to JSON."""

    tool = ""

    def convert(self, *lines, end="\n"):
        """Runs the tool on these lines."""
        return run(self.tool, text="\n".join(lines).encode("utf-8", "surrogateescape") + end.encode())

    def check_objects(self, wanted, *lines, end="\n"):
        """Checks what the lines are converted to."""
        done = self.convert(*lines, end=end)
        self.assertEqual((done.returncode, done.stderr), (0, b""), lines)
        self.assertEqual(json.loads(done.stdout), wanted)

    def check_refused(self, number, cause, *lines, end="\n"):
        """Checks that the lines are refused at this number for this cause, and that nothing is written."""
        with self.subTest(lines=lines):
            self.check_run(self.convert(*lines, end=end), 2, b"", f"{cause}: line {number}\n".encode())

    def check_failing_streams(self, text):
        """Checks the messages if a standard stream fails."""
        self.check_run(run_closed(0, self.tool), 3, b"", b"standard input is closed\n")
        place = self.file(b"lines", text)
        with open("/dev/full", "wb") as output, open(place, "rb") as given:
            words = command(self.tool)
            done = subprocess.run(words, stdin=given, stdout=output, stderr=subprocess.PIPE, timeout=base.GUARD)
        self.assertEqual(done.returncode, 3)
        self.assertRegex(done.stderr, rb"^the (object|array) could not be written: No space left on device\n$")
        self.assertEqual(run(self.tool, "word").returncode, 2)


class JsonOfShow(Conversion):
    """The lines of a graph."""

    tool = "json-of-show"
    lines = ["0 source steps 1 outputs 1 inputs -", "1 file steps 2 outputs 2 inputs 0.0"]

    def test_a_graph_becomes_an_object(self):
        edges = [{"vertex": 0, "output": 0}, {"vertex": 1, "output": 1}, {"vertex": 1, "output": 1}]
        vertices = [
            {"number": 0, "kind": "source", "steps": 1, "outputs": 1, "inputs": []},
            {"number": 1, "kind": "file", "steps": 2, "outputs": 2, "inputs": edges[:1]},
            {"number": 2, "kind": "exec", "steps": 6, "outputs": 1, "inputs": edges},
            {"number": 3, "kind": "merge", "steps": 0, "outputs": 1, "inputs": []},
        ]
        more = ["2 exec steps 6 outputs 1 inputs 0.0 1.1 1.1", "3 merge steps 0 outputs 1 inputs -"]
        wanted = {"vertices": vertices, "result": {"vertex": 2, "output": 0}}
        self.check_objects(wanted, *self.lines, *more, "result 2.0")

    def test_other_lines_are_refused(self):
        form = "neither V KIND steps S outputs O inputs LIST nor result V.I"
        for line in ["", "0 build steps 1 outputs 1 inputs -", "result 0", "\udcff"]:
            self.check_refused(1, form, line, "result 0.0")
        self.check_refused(2, "the number of the vertex is not 1", self.lines[0], self.lines[0])
        self.check_refused(3, "1.2 is not an output of a vertex above", *self.lines, "result 1.2")
        self.check_refused(3, "there is no result", *self.lines)
        self.check_refused(3, "the line does not end with a newline", *self.lines, "result 1.1", end="")
        self.check_refused(4, "the result is not the last line", *self.lines, "result 1.1", "result 1.1")

    def test_failing_standard_streams_are_reported(self):
        self.check_failing_streams(b"0 merge steps 0 outputs 1 inputs -\nresult 0.0\n")

    def test_an_input_without_lines_is_named(self):
        told = b"not the lines of llbm show: there are no bytes: standard input\n"
        for words in ((), ("--definition", self.file(b"definition", b""))):
            self.check_run(run(self.tool, *words), 2, b"", told)


class JsonOfRecord(Conversion):
    """The output of a session."""

    tool = "json-of-record"

    def test_claims_become_objects(self):
        kinds = ["source", "file", "merge", "exec"]
        wanted = [
            {"kind": "claim", "number": number, "worker": 1, "vertex": 5, "reply": {"kind": kind, "steps": 3}}
            for number, kind in enumerate(kinds)
        ]
        self.check_objects(wanted, *(f"{number} claim 1 5 -> {kind} 3" for number, kind in enumerate(kinds)))

    def test_steps_become_objects(self):
        for text, reply in [
            ("read", {"kind": "read"}), ("acted 4", {"kind": "acted", "action": 4}),
            ("merged 0", {"kind": "merged", "input": 0}), ("ran 2 127", {"kind": "ran", "command": 2, "status": 127}),
            ("skipped 3", {"kind": "skipped", "command": 3}),
            ("fault 1 52", {"kind": "fault", "action": 1, "fault": 52}),
        ]:
            self.check_objects([{"kind": "step", "number": 7, "worker": 63, "reply": reply}], f"7 step 63 -> {text}")

    def test_settles_and_cancels_become_objects(self):
        wanted = [
            {"kind": "settle", "number": 3, "worker": 0, "reply": {"vertex": 5, "state": "done"}},
            {"kind": "settle", "number": 4, "worker": 1, "reply": {"vertex": 6, "state": "failed"}},
            {"kind": "cancel", "number": 5, "worker": 2, "reply": {"vertex": 7, "steps": 8}},
        ]
        self.check_objects(wanted, "3 settle 0 -> 5 done", "4 settle 1 -> 6 failed", "5 cancel 2 -> 7 8")

    def test_other_lines_of_a_session_become_objects(self):
        wanted = [{"kind": "stop"}, {"kind": "end"}, {"kind": "none"}, {"kind": "back", "number": 0}]
        self.check_objects(wanted, "stop", "end", "none", "back 0")

    def test_the_status_of_vertices_becomes_objects(self):
        states = ["waiting", "ready", "blocked", "done"]
        wanted = [{"kind": "status", "vertex": vertex, "state": state} for vertex, state in enumerate(states)]
        wanted += [
            {"kind": "status", "vertex": 4, "state": "running", "worker": 1},
            {"kind": "status", "vertex": 5, "state": "failed", "action": 0, "fault": 21},
            {"kind": "status", "vertex": 6, "state": "failed", "command": 2, "status": 1},
        ]
        lines = [f"{vertex} {state}" for vertex, state in enumerate(states)]
        lines += ["4 running 1", "5 failed action 0 fault 21", "6 failed command 2 status 1"]
        self.check_objects(wanted, *lines)

    def test_a_tree_becomes_objects(self):
        alpha = "/\N{GREEK SMALL LETTER ALPHA} -> b"
        wanted = [
            {"kind": "directory", "mode": "0755", "user": 0, "group": 0, "path": "/"},
            {"kind": "file", "mode": "4644", "user": 1, "group": 4294967295, "content": "6869", "path": "/a"},
            {"kind": "file", "mode": "0600", "user": 0, "group": 0, "content": "", "path": alpha},
        ]
        self.check_objects(wanted, "d 0755 0 0 /", "f 4644 1 4294967295 6869 /a", f"f 0600 0 0 - {alpha}")

    def test_refusals_become_objects(self):
        boards = [131, 132, 133, 134, 136, 137, 138, 141]
        wanted = [{"kind": "fault", "fault": 171, "board": board} for board in boards]
        lines = [f"fault 171 {board}" for board in boards]
        wanted += [
            {"kind": "fault", "fault": 171, "board": 135, "id": "my  id -> \N{BULLET}"},
            {"kind": "fault", "fault": 172},
            {"kind": "fault", "fault": 173, "line": 12}, {"kind": "fault", "fault": 174},
        ]
        lines += ["fault 171 135 my  id -> \N{BULLET}", "fault 172", "fault 173 12", "fault 174"]
        self.check_objects(wanted, *lines)

    def test_looks_become_objects(self):
        wanted = [
            {"kind": "part", "number": 0, "role": "local"}, {"kind": "part", "number": 1, "role": "input"},
            {"kind": "part", "number": 2, "role": "laid"}, {"kind": "part", "number": 3, "role": "result", "action": 4},
            {"kind": "part", "number": 5, "role": "mount", "dest": "/a b"},
            {"kind": "key", "number": 0, "mode": "locked", "instances": 1, "seed": "-", "id": "my  id"},
            {"kind": "key", "number": 1, "mode": "private", "instances": 2, "seed": "sha256:ab.0", "id": ""},
        ]
        lines = ["0 local", "1 input", "2 laid", "3 result 4", "5 mount /a b", "0 locked 1 - my  id"]
        self.check_objects(wanted, *lines, "1 private 2 sha256:ab.0 ")

    def test_no_lines_become_an_empty_array(self):
        self.check_objects([], end="")

    def test_other_lines_are_refused(self):
        line = "not a line of a session"
        for text in [
            "", "stop ", "End", "0 dead", "back", "fault 83", "fault 171 139", "fault 173", "fault 172 1", "00 done",
            "1 running", "5 failed", "1 claim 0 0", "1 claim 0 0 ->", "back -1", "99999999999999999999999 done",
        ]:
            self.check_refused(2, line, "end", text, "end")
        event = "not a line of a record: not a claim, step, settle or cancel with its reply"
        for text in [
            "1 claim 0 -> exec 1", "1 claim 0 0 -> build 1", "1 step 0 -> done", "1 step 0 -> ran 1",
            " 1 step 0 -> read",
            "1 settle 0 -> 1", "1 settle 0 -> 1 blocked", "1 cancel 0 -> 1 done", "1 jump 0 -> read", "x -> y",
        ]:
            self.check_refused(1, event, text)

    def test_faulty_lines_of_a_tree_are_refused(self):
        self.check_refused(1, "the mode is not four octal digits", "d 755 0 0 /")
        self.check_refused(2, "the content is neither lower-case hexadecimal nor -", "end", "f 0755 0 0 A0 /a")

    def test_lines_that_are_cut_off_or_not_utf_8_are_refused(self):
        self.check_refused(2, "the line does not end with a newline", "end", "en", end="")
        self.check_refused(1, "the line is not UTF-8", "fault 171 135 \udcff")

    def test_each_line_of_the_example_becomes_an_object(self):
        lines = (ROOT / "examples" / "tour.answers").read_text().splitlines()
        objects = json.loads(self.convert(*lines).stdout)
        self.assertEqual(len(objects), len(lines))
        self.assertEqual(sum("reply" in one for one in objects), sum(" -> " in line for line in lines))

    def test_failing_standard_streams_are_reported(self):
        self.check_failing_streams(b"end\n")
