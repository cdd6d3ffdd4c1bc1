"""Tests of looking at definitions that the program refuses: `dump`, and what `graph-of-show`, `json-of-show` and
`explain` show of one.
"""

import json
import unittest

from llbm_tools.llb import whole_messages
from tests import base
from tests.base import ROOT, number, part, run

FOREIGN = ROOT / "examples" / "foreign.llb"
IMAGE, GIT = base.source("docker-image://alpine"), base.source("git://example.com/x")
COPIED = base.file_op(number(1, 0) + number(2, 1) + base.copy("/a", "/b"), on=[IMAGE, GIT])


class WholeMessages(unittest.TestCase):
    """Messages with all fields that BuildKit has, as Go's JSON has them."""

    def check(self, name, data, wanted):
        """Checks the object of a message."""
        self.assertEqual(whole_messages.message_in(name, data), wanted)

    def test_fields_that_the_program_skips_are_shown(self):
        platform = part(10, part(1, "amd64") + part(2, "linux"))
        wanted = {"Op": {"source": {"identifier": "x"}}, "platform": {"Architecture": "amd64", "OS": "linux"}}
        self.check("Op", base.source("x") + platform, wanted)
        secret = part(21, part(1, "token") + number(2, 1) + number(4, 0o400))
        wanted = {"input": -1, "output": 0, "mountType": 1, "secretOpt": {"ID": "token", "uid": 1, "mode": 256}}
        self.check("Mount", number(1, -1) + number(6, 1) + secret, wanted)
        self.check("DiffOp", part(1, number(1, 0)) + part(2, number(1, -1)), {"lower": {}, "upper": {"input": -1}})
        symlink = part(8, part(1, "a") + part(2, "b"))
        wanted = {"input": 0, "secondaryInput": 0, "output": 0, "Action": {"symlink": {"oldpath": "a", "newpath": "b"}}}
        self.check("FileAction", symlink, wanted)

    def test_numbers_of_inputs_and_the_oneof_are_always_shown(self):
        self.check("Input", part(1, "sha256:0"), {"digest": "sha256:0", "index": 0})
        self.check("Op", b"", {"Op": None})
        self.check("FileAction", b"", {"input": 0, "secondaryInput": 0, "output": 0, "Action": None})

    def test_maps_bytes_and_packed_numbers_are_as_in_json(self):
        attrs = part(2, part(1, "k") + part(2, "v")) + part(2, part(1, "k") + part(2, "w"))
        self.check("SourceOp", attrs, {"attrs": {"k": "w"}})
        self.check("OpMetadata", part(5, part(1, "cap") + number(2, 1)), {"caps": {"cap": True}})
        self.check("FileActionMkFile", part(3, b"\xff\x00"), {"data": "/wA="})
        self.check("Meta", part(12, b"\x00\x01") + number(12, 2), {"validExitCodes": [0, 1, 2]})

    def test_of_a_oneof_the_last_member_is_shown(self):
        second = base.file_op()
        self.check("Op", base.source("x") + second, {"Op": {"file": {}}})
        self.check("Op", second + base.source("x"), {"Op": {"source": {"identifier": "x"}}})

    def test_what_is_not_understood_is_listed(self):
        unknown = [{"field": 9, "value": 5}, {"field": 1, "value": 7}, {"field": 3, "value": "/w=="}]
        self.check("Op", number(9, 5) + number(1, 7) + part(3, b"\xff"), {"Op": None, "unknown": unknown})


class Dump(base.WithProgram):
    """The tool, on definitions that the program refuses."""

    def dumped(self, data, *words):
        """Returns the lines that the tool prints."""
        done = run("dump", *words, text=data)
        self.assertEqual((done.returncode, done.stderr), (0, b""))
        return done.stdout.decode().splitlines()

    def rows(self, data, *words):
        """Returns the first words of the lines that a query prints."""
        return [line.split(" ")[0] for line in self.dumped(data, *words)]

    def test_each_entry_has_its_fields_and_what_is_refused(self):
        lines = self.dumped(base.ending(IMAGE, GIT, COPIED))
        self.assertEqual(lines[0], f"%0 vertex 0 source {base.digest(IMAGE)}")
        self.assertEqual(lines[1:3], ["  source:", '    identifier: "docker-image://alpine"'])
        self.assertTrue(lines[3].startswith("  refused: fault 88 0 Source: A source other than a local one."), lines[3])
        self.assertIn("  input 1: output 0 of %1 (vertex 1)", lines)
        self.assertEqual(lines[-1], "  input 0: output 0 of %2 (vertex 2)")
        self.assertEqual(sum("refused:" in line for line in lines), 2)

    def test_what_is_no_op_or_no_entry_is_shown(self):
        broken, lost = b"\x0a\x05ab", base.merge(b"nothing")
        lines = self.dumped(base.ending(broken, lost))
        self.assertEqual(lines[0], f"%0 no op {base.digest(broken)}")
        self.assertIn("  no op: the bytes end inside a record", lines)
        self.assertIn(f"  input 0: output 0 of {base.digest(b'nothing')}, which is no entry", lines)
        self.assertTrue(any(line.startswith("  refused: fault 82 0 1: ") for line in lines), lines)
        self.assertTrue(any(line.startswith("  refused: fault 86 1 0: ") for line in lines), lines)

    def test_what_is_refused_of_the_whole_comes_last(self):
        self.assertTrue(self.dumped(base.definition(IMAGE))[-1].startswith("refused: fault 83: "))
        self.assertTrue(self.dumped(base.definition(IMAGE, b""))[-1].startswith("refused: fault 85: "))

    def test_bytes_that_are_no_definition_are_refused(self):
        cause = b"not a definition: the bytes end inside a record: standard input\n"
        self.check_run(run("dump", text=b"\x0a\x05"), 2, b"", cause)

    def test_names_and_metadata_are_shown(self):
        lines = self.dumped(FOREIGN.read_bytes())
        self.assertIn("  name: [1/3] FROM docker.io/library/alpine:3.19 (Dockerfile:1)", lines)
        self.assertIn('      llb.customname: "[1/3] FROM docker.io/library/alpine:3.19"', lines)
        self.assertIn('        ID: "token"', lines)

    def test_json_has_the_members_of_buildctl_and_more(self):
        first, *_, last = map(json.loads, self.dumped(FOREIGN.read_bytes(), "--json"))
        self.assertEqual(list(first)[:3], ["Op", "Digest", "OpMetadata"])
        source = {"source": {"identifier": "docker-image://docker.io/library/alpine:3.19"}}
        self.assertEqual(first["Op"], {"Op": source, "platform": {"Architecture": "amd64", "OS": "linux"}})
        name = "[1/3] FROM docker.io/library/alpine:3.19"
        self.assertEqual(first["OpMetadata"], {"description": {"llb.customname": name}})
        more = [first[member] for member in ("row", "vertex", "kind", "name", "place", "refused")]
        self.assertEqual(more, [0, 0, "source", name, "Dockerfile:1", ["fault 88 0 Source"]])
        self.assertEqual((last["kind"], last["vertex"], last["inputs"]), ("terminal", None, [{"row": 3, "output": 0}]))

    def test_queries_find_what_is_before_after_and_between(self):
        lone, made = base.file_op(base.mkdir("/x")), base.file_op(base.rm("/y"), on=[COPIED])
        data = base.definition(IMAGE, lone, GIT, COPIED, made, base.inputs(made))
        self.assertEqual(self.rows(data, "--before", "%4"), ["%0", "%2", "%3"])
        self.assertEqual(self.rows(data, "--after", base.digest(GIT)[7:17]), ["%3", "%4"])
        self.assertEqual(self.rows(data, "--between", "%0", "%4"), ["%0", "%3", "%4"])
        self.assertEqual(self.rows(data, "--before", "0"), [])
        self.assertEqual(self.rows(FOREIGN.read_bytes(), "--after", "[internal] load build context"), ["%3"])
        for words in [["--between", "%1", "%4"], ["--between", "%1", "%4", "--json"]]:
            self.check_run(run("dump", *words, text=data), 1, b"", b"there is no path: %4 does not need %1\n")
        self.check_run(run("dump", "--between", "3", "0", FOREIGN), 1, b"", b"there is no path: 0 does not need 3\n")

    def test_a_word_that_names_no_entry_or_several_is_refused(self):
        cause = b"no entry has this vertex, row (%K), digest (8 digits or more) or name: 7\n"
        self.check_run(run("dump", "--before", "7", FOREIGN), 2, b"", cause)
        held = part(2, part(1, "llb.customname") + part(2, "same"))
        named = b"".join(part(2, part(1, base.digest(one)) + part(2, held)) for one in (IMAGE, GIT))
        data = base.ending(IMAGE, GIT, COPIED) + named
        done = run("dump", "--after", "same", text=data)
        self.check_run(done, 2, b"", b"2 entries have this name or digest: same: %0, %1\n")

    def test_an_accepted_definition_is_printed_too(self):
        lines = self.dumped((ROOT / "examples" / "first-run.definition").read_bytes())
        self.assertIn('        data: "hi"', lines)
        self.assertFalse(any("refused" in line for line in lines))


class OthersOnRefused(base.WithProgram):
    """Other tools on definitions that the program refuses."""

    def test_a_graph_is_drawn_with_what_is_refused(self):
        done = run("graph-of-show", FOREIGN)
        self.assertEqual((done.returncode, done.stderr), (0, b""))
        text = done.stdout.decode()
        self.assertIn(r'label="0 source\n[1/3] FROM docker.io/library/alpine:3.19 (Dockerfile:1)\n', text)
        self.assertIn(r'\nrefused: 88 Source", style=filled, fillcolor=lightcoral];', text)
        self.assertIn('  e1 -> e3 [label="0"];\n', text)
        self.assertTrue(text.endswith('  e3 -> result [label="0"];\n}\n'))

    def test_entries_that_are_no_vertices_are_drawn(self):
        lost = base.merge(b"nothing")
        text = run("graph-of-show", "-", text=base.ending(b"\x0a\x05ab", lost)).stdout.decode()
        self.assertIn(r'e0 [shape=octagon, label="%0 no op\nthe bytes end inside a record\nrefused: 82 1"', text)
        self.assertIn(f'  "{base.digest(b"nothing")[:57]}..." -> e1 [label="0"];\n', text)

    def test_json_has_what_is_refused(self):
        found = json.loads(run("json-of-show", FOREIGN).stdout)
        self.assertEqual([entry["refused"][:1] for entry in found["entries"][:1]], [["fault 88 0 Source"]])
        self.assertEqual([entry["vertex"] for entry in found["entries"]], [0, 1, 2, 3])
        self.assertEqual((found["result"]["row"], found["refused"]), (3, []))
        found = json.loads(run("json-of-show", "-", text=base.definition(b"\x0a\x05ab", b"")).stdout)
        self.assertEqual((found["entries"][0]["op"], found["result"]), (None, None))
        self.assertEqual(found["entries"][0]["cause"], "the bytes end inside a record")

    def test_a_definition_is_taken_alone(self):
        for tool in ("graph-of-show", "json-of-show"):
            done = run(tool, FOREIGN, "--definition", FOREIGN)
            self.assertEqual((done.returncode, done.stdout), (2, b""), tool)
            self.assertIn(b"without --definition", done.stderr)

    def test_an_explanation_names_what_else_is_refused(self):
        done = run("explain", "--definition", FOREIGN, "fault", "88", "1", "SecretMount")
        also = ["also refused: fault 89 1 MountOutput", "also refused: fault 89 1 Script 71 apk"]
        self.assertEqual(done.stdout.decode().splitlines()[-2:], also)
