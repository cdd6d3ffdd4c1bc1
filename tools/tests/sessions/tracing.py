"""Tests of `trace-of-record` and of `explain-run`."""

import json
import os
import pathlib
import subprocess
import unittest

from tests import base
from tests.base import ROOT, Folder, run

EXAMPLES = ROOT / "examples"
RECORD = b"""1 claim 0 0 -> file 2
2 claim 1 3 -> exec 3
3 step 0 -> acted 0
4 step 1 -> ran 0 1
5 step 1 -> skipped 1
6 step 0 -> fault 1 21
7 settle 0 -> 0 failed
8 cancel 1 -> 3 2
9 claim 0 1 -> source 1
10 step 0 -> read
11 settle 0 -> 1 done
12 claim 2 2 -> merge 2
13 step 2 -> merged 0
"""


class Rules:
    """The rules of the trace event format, as its description has them (Trace Event Format, "JSON Object Format")."""

    @staticmethod
    def check(test, text):
        """Checks a trace, and returns its slices."""
        trace = json.loads(text)
        test.assertEqual(set(trace), {"displayTimeUnit", "traceEvents"})
        test.assertIn(trace["displayTimeUnit"], ("ms", "ns"))
        slices = []
        for event in trace["traceEvents"]:
            test.assertIn(event["ph"], ("X", "M"))
            test.assertTrue(all(isinstance(event[name], int) for name in ("pid", "tid")), event)
            test.assertIsInstance(event["name"], str)
            test.assertIsInstance(event["args"], dict)
            if event["ph"] == "M":
                test.assertIn(event["name"], ("process_name", "thread_name"))
                test.assertIsInstance(event["args"]["name"], str)
            else:
                test.assertIsInstance(event["cat"], str)
                test.assertTrue(event["ts"] >= 0 and event["dur"] > 0, event)
                slices.append(event)
        Rules.check_nesting(test, slices)
        return slices

    @staticmethod
    def check_nesting(test, slices):
        """Checks that two slices of one row are apart, or one is inside the other."""
        for one in slices:
            for two in slices:
                if one["tid"] == two["tid"] and one is not two:
                    (a, b), (c, d) = [(each["ts"], each["ts"] + each["dur"]) for each in (one, two)]
                    test.assertTrue(b <= c or d <= a or (a <= c and d <= b) or (c <= a and b <= d), (one, two))


class Traces(Folder):
    """`trace-of-record` on written records."""

    def trace(self, text, *words):
        """Returns the slices of a record's trace."""
        done = run("trace-of-record", *words, text=text)
        self.assertEqual((done.returncode, done.stderr), (0, b""))
        return Rules.check(self, done.stdout)

    def test_vertices_are_slices_with_their_micro_steps_inside(self):
        slices = self.trace(RECORD)
        found = [(one["tid"], one["name"], one["ts"], one["ts"] + one["dur"]) for one in slices]
        self.assertEqual(found, [
            (0, "0 file", 1, 8), (0, "acted 0", 3, 4), (0, "fault 1 21", 6, 7),
            (1, "3 exec", 2, 9), (1, "ran 0 1", 4, 5), (1, "skipped 1", 5, 6),
            (0, "1 source", 9, 12), (0, "read", 10, 11),
            (2, "2 merge", 12, 14), (2, "merged 0", 13, 14),
        ])
        states = [one["args"]["state"] for one in slices if one["cat"] != "step"]
        self.assertEqual(states, ["failed", "cancelled", "done", "running"])

    def test_what_was_taken_back_is_left_out(self):
        text = RECORD + b"back 2\nfault 171 131\n3 step 1 -> ran 0 0\nstop\n"
        found = [(one["name"], one["ts"], one["ts"] + one["dur"]) for one in self.trace(text)]
        self.assertEqual(found, [("0 file", 1, 4), ("3 exec", 2, 4), ("ran 0 0", 3, 4)])
        self.assertEqual(self.trace(b""), [])

    def test_lines_of_no_record_are_refused(self):
        for text, cause in [
            (b"1 claim 0 0 -> file 1\n3 step 0 -> acted 0\n", "the event has the number 3, and 2 comes next: line 2"),
            (b"1 step 0 -> acted 0\n", "worker 0 runs nothing: line 1"),
            (b"1 claim 0 0 -> file 1\n2 claim 0 1 -> file 1\n", "worker 0 runs vertex 0 already: line 2"),
            (b"1 claim 0 0 -> acted 1\n",
             "not a line of a record: not a claim, step, settle or cancel with its reply: line 1"),
            (b"back 1\n", "there are only 0 events before: line 1"),
        ]:
            self.check_run(run("trace-of-record", text=text), 2, b"", f"{cause}\n".encode())

    def test_a_definition_gives_the_names(self):
        action = base.mkdir("/a")
        one = base.file_op(action)
        two = base.exec_op("/bin/sh", "-c", "cp a b || true", on=[one])
        metadata = base.part(2, base.part(1, "llb.customname") + base.part(2, "the first"))
        data = base.ending(one, two) + base.part(2, base.part(1, base.digest(one)) + base.part(2, metadata))
        place = self.file(b"definition", data)
        text = b"1 claim 0 0 -> file 1\n2 step 0 -> acted 0\n3 settle 0 -> 0 done\n4 claim 0 1 -> exec 2\n" \
            b"5 step 0 -> ran 0 1\n6 step 0 -> ran 1 0\n"
        names = [one["name"] for one in self.trace(text, "--definition", place)]
        self.assertEqual(names, [
            "0 file: the first", "mkdir /a (acted 0)", "1 exec: cp a b || true", "cp a b (ran 0 1)", "true (ran 1 0)",
        ])
        more = b"1 claim 0 2 -> file 1\n"
        done = run("trace-of-record", "--definition", place, text=more)
        self.check_run(done, 2, b"", b"the definition has no vertex 2\n")
        done = run("trace-of-record", "--definition", self.place(b"none"), text=text)
        self.assertEqual(done.returncode, 2)
        done = run("trace-of-record", "--definition", self.file(b"bad", b"\x0b"), text=text)
        self.assertEqual(done.returncode, 2)

    def test_the_record_of_a_run_has_a_slice_for_each_step(self):
        if base.llbm is None:
            raise unittest.SkipTest("the program llbm is needed (--llbm PROGRAM)")
        words = [base.llbm, "step", EXAMPLES / "tour.definition", f"source={EXAMPLES / 'tour.tree'}"]
        record = subprocess.run(words, input=b"status\ngo\ntree 0 0\nwork 0\n", capture_output=True).stdout
        slices = self.trace(record, "--definition", EXAMPLES / "tour.definition")
        self.assertEqual(len(slices), 3 + 8)


class Explained(Folder):
    """`explain-run` with the program."""

    def setUp(self):
        super().setUp()
        if base.llbm is None:
            raise unittest.SkipTest("the program llbm is needed (--llbm PROGRAM)")

    def explain(self, definition, *words):
        """Runs the tool."""
        return run("explain-run", "--llbm", base.llbm, definition, *words)

    def assembled(self, name):
        """Returns the file of the definition of an example."""
        text = (EXAMPLES / name / "definition.text").read_bytes()
        return self.file(b"definition", subprocess.run([base.llbm, "asm"], input=text, capture_output=True).stdout)

    def test_a_run_is_explained_step_by_step(self):
        done = self.explain(EXAMPLES / "tour.definition", f"source={EXAMPLES / 'tour.tree'}")
        self.assertEqual((done.returncode, done.stderr), (0, b""))
        lines = done.stdout.decode().splitlines()
        self.assertEqual(lines[:6], [
            "vertex 0 source: local://source", "  reads the local source", "  done",
            "vertex 1 file: mkdir /out", "  action 0: mkdir /out", "    result 0: added /out: directory 0755 0:0",
        ])
        for line in [
            "  command 1: concat bin/all /src/head /src/tail",
            r"    mount /: added /out/bin/all: file 0644 0:0, text of 13 bytes: hello,\nworld\n",
            "    mount /: changed /out/bin/all: mode 0644 -> 0444",
        ]:
            self.assertIn(line, lines)
        self.assertEqual(lines[-1], "the run is complete after 14 events, with the result 2.0")

    def test_a_summary_has_one_line_for_each_step_and_the_sizes_of_outputs(self):
        done = self.explain(EXAMPLES / "tour.definition", f"source={EXAMPLES / 'tour.tree'}", "--summary")
        self.assertEqual((done.returncode, done.stderr), (0, b""))
        lines = done.stdout.decode().splitlines()
        self.assertEqual(lines[:4], [
            "vertex 0 source: local://source", "  reads the local source",
            "  output 0: 2 directories, 2 files, 13 bytes", "  done",
        ])
        self.assertEqual(lines[9:], [
            "  command 0: mkdir -p bin (mount /: 1 added, +0 bytes)",
            "  command 1: concat bin/all /src/head /src/tail (mount /: 1 added, +13 bytes)",
            "  command 2: sha256 bin/all /tmp/sum (mount /tmp: 1 added, +65 bytes)",
            "  command 3: cp /tmp/sum bin/sum (mount /: 1 added, +65 bytes)",
            "  command 4: chmod 0444 bin/all (mount /: 1 changed, +0 bytes)",
            "  command 5: envfile env (mount /: 1 added, +7 bytes)", "  output 0: 3 directories, 3 files, 85 bytes",
            "  done", "the run is complete after 14 events, with the result 2.0",
        ])

    def test_a_failure_is_explained_by_its_rule(self):
        done = self.explain(self.assembled("failure"), f"empty={EXAMPLES / 'failure' / 'empty.tree'}")
        self.assertEqual((done.returncode, done.stderr), (1, b""))
        lines = done.stdout.decode().splitlines()
        self.assertEqual(lines[-2:], ["  command 1 (cp /none /b) failed: there is no file /none", "  failed"])

    def test_what_was_not_run_is_named(self):
        one = base.file_op(base.number(1, -1) + base.rm("/none"))
        place = self.file(b"definition", base.ending(one, base.file_op(base.mkdir("/a"), on=[one])))
        done = self.explain(place)
        self.assertEqual(done.stdout.decode().splitlines()[-2:], [
            "vertex 1 file: mkdir /a", "  not run: a vertex that it needs failed",
        ])
        self.assertEqual(done.returncode, 1)

    def test_at_most_so_many_paths_are_shown(self):
        tree = b"d 0755 0 0 /\n" + b"".join(b"f 0644 0 0 - /%d\n" % number for number in range(9))
        source = base.source("local://src")
        copy = base.number(1, -1) + base.part(4, base.part(1, "/") + base.part(2, "/to") + base.number(8, 1))
        place = self.file(b"definition", base.ending(source, base.file_op(copy, on=[source])))
        done = self.explain(place, f"src={os.fsdecode(self.file(b'tree', tree))}", "--paths", "3")
        lines = [line for line in done.stdout.decode().splitlines() if line.startswith("    ")]
        shown = [line.split(": ")[1] for line in lines]
        self.assertEqual(shown, ["added /to", "added /to/0", "added /to/1", "and 7 more paths"])

    def test_one_path_that_is_not_shown_is_counted_as_one(self):
        place = self.file(b"definition", base.ending(base.file_op(base.number(1, -1) + base.mkdir("/a"))))
        lines = self.explain(place, "--paths", "0").stdout.decode().splitlines()
        self.assertIn("    result 0: and 1 more path", lines)

    def test_what_is_refused_is_named(self):
        for words, cause in [
            (["/nowhere/x"], b"there is no such file or directory: /nowhere/x\n"),
            ([EXAMPLES / "tour.definition"], b"fault 121 source: 121 (NAME = source): "),
        ]:
            done = self.explain(*words)
            self.assertEqual((done.returncode, done.stdout), (2, b""))
            self.assertTrue(done.stderr.startswith(cause), done.stderr)
        self.assertTrue(done.stderr.endswith(b"; without a tree: source (vertex 0)\n"), done.stderr)
        done = self.explain(EXAMPLES / "tour.definition", "source=/dev/null", "x=/dev/null")
        self.assertIn(b"no local source has the name: x\n", done.stderr)
        done = run("explain-run", EXAMPLES / "tour.definition", "source", "--llbm", base.llbm)
        self.assertEqual((done.returncode, done.stdout), (2, b""))

    def test_a_dockerfile_is_named(self):
        folder = pathlib.Path(EXAMPLES / "from-buildkit" / "dockerfile")
        lines = self.explain(folder / "definition", f"context={folder / 'context.tree'}").stdout.decode().splitlines()
        self.assertIn("vertex 0 file: [build 1/3] WORKDIR /src (Dockerfile:2)", lines)
