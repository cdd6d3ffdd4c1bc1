"""Tests of `impact --run`: which of the vertices that a changed source feeds made the same."""

import json
import os
import unittest

from llbm_tools import commands
from tests import base
from tests.base import Folder, run

LEFT = base.source("local://left")


def taken(path, dest="/"):
    """Returns a copy of what is at the paths of its second input that match a pattern onto the empty tree."""
    made = base.part(4, base.part(1, path) + base.part(2, dest) + base.number(4, -1) + base.number(9, 1))
    return base.number(1, -1) + base.number(2, 0) + made


def without(path):
    """Returns the actions that copy `/b` onto the empty tree, and remove what is at a path."""
    removed = base.number(1, 1) + base.number(2, -1) + base.rm(path)
    return [taken("/b") + base.number(3, -1), removed]


class Runs(Folder):
    """Runs of both definitions on two trees of one source."""

    def setUp(self):
        if base.llbm is None:
            raise unittest.SkipTest("the program llbm is needed (--llbm PROGRAM)")
        super().setUp()
        self.first, self.second = base.file_op(*without("/b/f"), on=[LEFT]), base.file_op(taken("/b"), on=[LEFT])
        self.data = base.ending(LEFT, self.first, self.second, base.merge(self.first, self.second))
        self.make(b"a/f", b"1")
        self.make(b"b/f", b"1")
        self.before = self.tree(b"before")
        self.make(b"b/f", b"2")
        self.after = self.tree(b"after")

    def tree(self, name):
        """Stores the text of the folder as it is now."""
        return self.file(name, self.read(b"in", "--owner", "0:0").stdout).decode()

    def impact(self, *words, old=None, new=None):
        """Runs the tool on two definitions, by default on one and the same."""
        places = [self.file(b"old", old or self.data), self.file(b"new", new or self.data)]
        return run("impact", "--run", "--llbm", base.llbm, *places, *words)

    def both(self, *words, **given):
        """Runs the tool with both trees of the source."""
        return self.impact("--before", f"left={self.before}", "--after", f"left={self.after}", *words, **given)

    def lines(self, done):
        """Returns the lines of a run that succeeded."""
        self.assertEqual((done.returncode, done.stderr), (0, b""))
        return done.stdout.decode().splitlines()

    def test_only_what_keeps_what_changed_is_changed(self):
        self.assertEqual(self.lines(self.both())[:6], [
            "result 3.0 changed", "0 source changed by left", "1 file same by left", "2 file changed by left",
            "3 merge changed by left", "4 vertices: 0 kept, 0 new, 0 cached, 1 same, 3 changed; 0 of OLD gone",
        ])

    def test_a_result_can_be_the_same_although_a_source_is_not(self):
        data = base.ending(LEFT, self.first)
        lines = self.lines(self.both(old=data, new=data))
        self.assertEqual(lines[:3], ["result 1.0 same", "0 source changed by left", "1 file same by left"])

    def test_unchanged_sources_keep_all(self):
        lines = self.lines(self.impact("--before", f"left={self.before}", "--after", f"left={self.before}"))
        self.assertEqual(lines[:2], ["result 3.0 same", "0 source kept"])
        self.assertIn("4 vertices: 4 kept", lines[5])

    def test_a_failure_on_one_side_is_a_change(self):
        data = base.ending(LEFT, base.file_op(taken("/b/f"), on=[LEFT]))
        os.unlink(self.place(b"in", b"b", b"f"))
        gone = self.tree(b"gone")
        words = ["--before", f"left={self.before}", "--after", f"left={gone}"]
        lines = self.lines(self.impact(*words, old=data, new=data))
        self.assertEqual(lines[:3], ["result 1.0 changed", "0 source changed by left", "1 file changed by left"])

    def test_the_same_failure_on_both_sides_is_no_change(self):
        data = base.ending(LEFT, base.file_op(*without("/none"), on=[LEFT]))
        lines = self.lines(self.both(old=data, new=data))
        self.assertEqual(lines[:3], ["result 1.0 same", "0 source changed by left", "1 file same by left"])

    def test_the_object_and_the_picture_have_the_words(self):
        found = json.loads(self.both("--json").stdout)
        self.assertEqual([one["impact"] for one in found["vertices"]], ["changed", "same", "changed", "changed"])
        self.assertEqual(found["result"]["impact"], "changed")
        self.assertEqual(found["counts"], {"kept": 0, "new": 0, "cached": 0, "same": 1, "changed": 3})
        shown = run("graph-of-show", "--impact", self.file(b"object", json.dumps(found).encode()), text=self.show())
        self.assertEqual(shown.returncode, 0, shown.stderr)
        self.assertEqual(shown.stdout.count(b"gold"), 3)
        self.assertEqual(shown.stdout.count(b"palegreen"), 1)

    def show(self):
        """Returns what the program shows of the definition."""
        lines = ["0 source steps 1 outputs 1 inputs -", "1 file steps 1 outputs 1 inputs 0.0"]
        lines += ["2 file steps 1 outputs 1 inputs 0.0", "3 merge steps 2 outputs 1 inputs 1.0 2.0", "result 3.0", ""]
        return "\n".join(lines).encode()

    def test_a_source_without_a_tree_is_refused(self):
        for option, other in [("--before", "--after"), ("--after", "--before")]:
            done = self.impact(option, f"left={self.before}")
            cause = f"--run needs a tree for each local source, and {other} has none for: left\n"
            self.check_run(done, 2, b"", cause.encode())

    def test_a_faulty_tree_is_refused(self):
        self.file(b"faulty", b"d 0755 0 0 /\nx\n")
        done = self.impact("--before", f"left={self.before}", "--after", f"left={self.place(b'faulty').decode()}")
        self.assertEqual((done.returncode, done.stdout), (2, b""))
        self.assertIn(b"faulty, line 2", done.stderr)

    def test_what_is_no_program_is_refused(self):
        places = [self.file(b"old", self.data), "--before", f"left={self.before}", "--after", f"left={self.after}"]
        done = run("impact", "--run", "--llbm", "/none", places[0], *places)
        self.assertEqual((done.returncode, done.stdout), (2, b""))
        self.assertIn(b"there is no such program: /none", done.stderr)


class Texts(Folder):
    """Texts of entries in the place of definitions, and what is said of other texts."""

    def setUp(self):
        if base.llbm is None:
            raise unittest.SkipTest("the program llbm is needed (--llbm PROGRAM)")
        super().setUp()
        self.text, self.tree = base.ROOT / "examples" / "tour.text", base.ROOT / "examples" / "tour.tree"

    def test_a_text_is_taken_where_a_definition_is(self):
        option = ["--llbm", base.llbm]
        for words in [
            ("explain-run", *option, self.text, f"source={self.tree}"),
            ("impact", *option, self.text, base.ROOT / "examples" / "tour.definition"),
            ("build", *option, self.text, self.place(b"out"), f"source={self.tree}"),
            ("debug", *option, self.text, f"source={self.tree}"),
        ]:
            self.assertEqual(run(*words).returncode, 0, words)

    def test_a_text_that_is_no_definition_is_named(self):
        place = self.file(b"other", b"FROM scratch\n")
        for words in [("explain-run", place), ("impact", place, self.text), ("build", place, self.place(b"out"))]:
            done = run(words[0], "--llbm", base.llbm, *words[1:])
            self.assertEqual((done.returncode, done.stdout), (2, b""), words)
            self.assertIn(b"not the bytes of a definition but a text: " + place, done.stderr, words)

    def test_a_text_of_a_tree_that_is_none_is_named_with_its_line(self):
        self.file(b"bad", b"d 0755 0 0 /\nx\n")
        done = run("explain-run", "--llbm", base.llbm, self.text, f"source={self.place(b'bad').decode()}")
        self.assertEqual((done.returncode, done.stdout), (2, b""))
        self.assertIn(self.place(b"bad") + b", line 2 (the local source source)\n", done.stderr)

    def test_a_foreign_definition_has_the_tool_that_adopts_it(self):
        done = run("explain-run", "--llbm", base.llbm, base.ROOT / "examples" / "foreign.llb")
        self.assertEqual((done.returncode, done.stdout), (2, b""))
        hint = f"{commands.shown('lint')} prints all, {commands.shown('adopt')} rewrites what can be"
        self.assertTrue(done.stderr.decode().endswith(f"({hint})\n"), done.stderr)
        place = base.ROOT / "examples" / "foreign.llb"
        for words in [("build", "--llbm", base.llbm, place, self.place(b"out")), ("run", "--llbm", base.llbm, "show")]:
            done = run(*words, text=place.read_bytes())
            self.assertEqual(done.returncode, 2, words)
            self.assertIn(f"  {hint}", done.stderr.decode().splitlines(), words)
