"""Tests of the exit statuses that all tools have in common, and of inputs from standard input."""

import json

from tests import base
from tests.base import ROOT, Folder, run, run_into

TOUR = ROOT / "examples" / "tour.definition"
SHOWN = b"0 merge steps 0 outputs 1 inputs -\nresult 0.0\n"
FOREIGN = ROOT / "examples" / "foreign.llb"


class Statuses(Folder):
    """What is given wrongly is status 2, a device that fails is status 3."""

    def test_a_file_that_is_missing_or_a_directory_is_status_2(self):
        for place in [self.place(b"none"), self.place(b"none", b"none")]:
            for tool, *words in [
                ("adopt", place), ("adopt", "--rules", place, TOUR), ("adopt", TOUR, "-o", self.place(b"no", b"out")),
                ("lint", place), ("explain", "--definition", place, "fault", "1"), ("tree-of-tar", place),
                ("graph-of-show", "--definition", place), ("json-of-show", "--definition", place),
                ("diff-of-trees", place, TOUR), ("tree-of-directory", place), ("transcripts", place),
                ("fuzz", "1", "--llbm", place), ("measure", "--llbm", place),
                ("transcripts", "--llbm", place, ROOT / "README.md"), ("run", "--llbm", place),
                ("trace-of-record", "--definition", place), ("explain-run", place), ("tree-of-image", place),
                ("directory-of-tree", self.place(b"none", b"none", b"out")), ("impact", place, TOUR),
                ("impact", TOUR, TOUR, "--before", b"source=" + place), ("build", place, self.place(b"out")),
                ("tar-of-tree", self.place(b"none", b"none", b"out")), ("test", place),
            ]:
                done = run(tool, *words, text=SHOWN)
                self.assertEqual((done.returncode, done.stdout), (2, b""), (tool, words, done.stderr))
                self.assertTrue(done.stderr, tool)
        for tool in ["adopt", "lint", "tree-of-tar"]:
            self.assertEqual(run(tool, self.folder).returncode, 2, tool)
        place = self.place(b"none", b"out")
        done = run("adopt", TOUR, "-o", place)
        self.assertEqual(done.stderr, b"there is no such directory to write it in: " + place + b"\n")

    def test_a_directory_is_no_program(self):
        for tool, *words in [
            ("build", TOUR, self.place(b"out")), ("explain-run", TOUR), ("fuzz", "1"), ("measure", "chain"), ("run",),
            ("transcripts", ROOT / "README.md"), ("test", "statuses"),
        ]:
            done = run(tool, "--llbm", self.folder, *words, text=SHOWN)
            self.assertEqual((done.returncode, done.stdout), (2, b""), (tool, done.stderr))
            self.assertIn(b"not a program: " + self.folder, done.stderr, tool)

    def test_a_program_that_is_not_llbm_is_named(self):
        for tool, *words in [
            ("build", TOUR, self.place(b"out"), f"source={ROOT / 'examples'}"), ("explain-run", TOUR, "source=/none"),
            ("fuzz", "1"), ("measure", "chain"), ("transcripts", ROOT / "README.md"), ("run",), ("test", "statuses"),
        ]:
            option = ["--llbm", "/bin/true"]
            done = run(tool, *option, *words, text=SHOWN)
            self.assertEqual((done.returncode, done.stdout), (2, b""), (tool, done.stderr))
            self.assertIn(b"this is not the program llbm: /bin/true", done.stderr, tool)
        for tool, *words in [("install", self.place(b"here")), ("dist", "-o", self.folder)]:
            done = run(tool, "--llbm", "/bin/true", *words)
            self.assertEqual((done.returncode, done.stdout), (2, b""), (tool, done.stderr))
            self.assertIn(b"this is not the program llbm: /bin/true", done.stderr, tool)

    def test_a_full_device_is_status_3(self):
        for tool, *words in [
            ("adopt", TOUR, "--sources", "/dev/null"), ("lint", FOREIGN), ("explain", "fault", "1"),
            ("bigdef", "chain", "2"), ("bigtree", "1", "1"),
        ]:
            with open("/dev/full", "wb") as output:
                self.assertEqual(run_into(output, tool, *words).returncode, 3, tool)

    def test_standard_input_is_a_file_by_two_names(self):
        data = FOREIGN.read_bytes()
        wanted = run("lint", FOREIGN)
        for words in [(), ("-",), ("/dev/stdin",)]:
            done = run("lint", *words, text=data)
            self.assertEqual((done.returncode, done.stdout), (1, wanted.stdout), words)
            self.assertEqual(run("adopt", "--all", *words, text=data).returncode, 0, words)
        for words in [("-",), ("/dev/stdin",)]:
            done = run("explain-run", "--llbm", "/bin/true", *words, text=data)
            self.assertIn(b"this is not the program llbm: /bin/true", done.stderr)
        self.assertIn(b"entry 0", run("adopt", "--all", "-", "-o", "-", text=data).stderr)
        done = run("explain", "--definition", "-", "fault", "88", "0", "Source", text=data)
        self.assertIn(b"docker-image://docker.io/library/alpine", done.stdout)

    def test_only_one_input_is_standard_input(self):
        for tool, *words in [
            ("adopt", "-", "--rules", "-"), ("adopt", "--rules", "/dev/stdin"), ("explain", "--definition", "-"),
            ("graph-of-show", "--definition", "-"), ("json-of-show", "--definition", "/dev/stdin"),
        ]:
            self.check_run(run(tool, *words, text=SHOWN), 2, b"", b"only one input can come from standard input\n")


class Contents(Folder):
    """The object of a graph with its definition."""

    def test_each_vertex_has_its_op_and_its_names(self):
        one = base.source("local://a")
        op = base.exec_op("true", "x", on=[(one, 0)])
        described = base.part(1, "llb.customname") + base.part(2, "a name")
        metadata = base.part(1, base.digest(op)) + base.part(2, base.part(2, described))
        data = base.ending(one, op) + base.part(2, metadata)
        lines = b"0 source steps 1 outputs 1 inputs -\n1 exec steps 1 outputs 1 inputs 0.0\nresult 1.0\n"
        done = run("json-of-show", "--definition", self.file(b"d", data), text=lines)
        self.assertEqual((done.returncode, done.stderr), (0, b""))
        found = json.loads(done.stdout)["vertices"]
        self.assertEqual(found[0], {
            "number": 0, "kind": "source", "steps": 1, "outputs": 1, "inputs": [], "row": 0, "digest": base.digest(one),
            "local": "a", "op": {"source": {"identifier": "local://a"}},
        })
        self.assertEqual(found[1], {
            "number": 1, "kind": "exec", "steps": 1, "outputs": 1, "inputs": [{"vertex": 0, "output": 0}], "row": 1,
            "digest": base.digest(op), "name": "a name", "description": {"llb.customname": "a name"},
            "op": {
                "inputs": [{"digest": base.digest(one)}],
                "exec": {"meta": {"args": ["true", "x"]}, "mounts": [{"input": -1, "dest": "/"}]},
            },
        })

    def test_another_definition_is_refused(self):
        done = run("json-of-show", "--definition", TOUR, text=SHOWN)
        self.check_run(done, 2, b"", b"the definition has another graph than the lines\n")
