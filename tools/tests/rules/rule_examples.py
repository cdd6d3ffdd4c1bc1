"""Tests of BuildKit's rules: the table, its least examples, and the tools' notes and changes for each."""

import os
import re
import subprocess
import unittest

from llbm_tools.definitions import adopted_ops
from llbm_tools.llb.findings import findings_of
from llbm_tools.rules import notes, rules_program
from llbm_tools.rules.comparison import of_trees
from llbm_tools.rules.examples import ALWAYS, examples
from llbm_tools.trees import tree_maps
from tests import base
from tests.base import ROOT, Folder

PAGE = ROOT / "docs" / "BUILDKIT.md"


def compared(data, sources):
    """Returns the end of a comparison, and BuildKit's result without the root, None if there is none."""
    end, tree = of_trees(data, {name: tree_maps.lines_of(tree) for name, tree in sources.items()})
    return end, None if tree is None else b"".join(tree).decode().splitlines()[1:]


def names_of(data):
    """Returns the names of the notes of a definition."""
    return {one.name for one in notes.notes_of(data, findings_of(data, base.llbm), True)}


def names_of_rules():
    """Returns the names of the rules, in order."""
    return [one["name"] for one in rules_program.answers("texts") if one["kind"] == "rule"]


class Table(unittest.TestCase):
    """The table of the rules."""

    def setUp(self):
        base.skip_without_rules(self)

    def test_each_rule_but_the_length_of_a_path_has_an_example(self):
        self.assertEqual({one.rule for one in examples()}, set(names_of_rules()) - {"Length"})

    def test_the_page_of_formats_names_each_where_llbm_has_its_own_rule(self):
        text = (ROOT / "docs" / "FORMATS.md").read_text("utf-8")
        named = {name for names in re.findall(r"\[([A-Z]\w+(?:, [A-Z]\w+)*)\]", text) for name in names.split(", ")}
        self.assertEqual(named, set(names_of_rules()))

    def test_the_page_has_these_tables(self):
        page = PAGE.read_bytes()
        self.assertEqual(rules_program.output_of("page", given=page).decode("utf-8"), page.decode("utf-8"))


class Examples(Folder):
    """The least example of each rule."""

    def setUp(self):
        super().setUp()
        base.skip_without_rules(self)

    def test_buildkits_rules_make_of_each_what_it_says(self):
        for one in examples():
            self.assertEqual(compared(one.data, one.sources)[1], one.buildkit, one.shows)

    def test_the_program_makes_of_each_what_llbm_makes(self):
        if base.llbm is None:
            raise unittest.SkipTest("the program llbm is needed (--llbm PROGRAM)")
        for one in examples():
            words = []
            for name, tree in one.sources.items():
                place = self.file(name.encode(), b"".join(tree_maps.lines_of(tree)))
                words.append(f"{name}={os.fsdecode(place)}")
            done = subprocess.run([base.llbm, "run", *words], input=one.data, capture_output=True, timeout=base.GUARD)
            self.assertIn(done.returncode, (0, 1), done.stderr)
            lines = done.stdout.decode().splitlines()[1:] if done.returncode == 0 else None
            self.assertEqual(lines, one.llbm, one.shows)

    def test_each_has_a_note_of_its_rule(self):
        for one in examples():
            self.assertIn(one.rule, names_of(one.data), one.shows)

    def adopted(self, one, *trees):
        """Adopts an example, and returns the end of a comparison and BuildKit's result."""
        settings = adopted_ops.Settings(like_buildkit=True, trees=trees)
        return compared(adopted_ops.adopt(one.data, settings, base.llbm).data, one.sources)

    def test_adoption_makes_both_agree_where_the_example_says_so(self):
        for one in examples():
            end, there = self.adopted(one)
            self.assertEqual(end.agree, one.adopted == ALWAYS or one.buildkit == one.llbm, one.shows)
            if one.buildkit is not None:
                self.assertEqual(there, one.buildkit, one.shows)

    def test_adoption_by_the_trees_makes_both_agree_where_the_example_says_so(self):
        for one in examples():
            places = {}
            for number, (name, tree) in enumerate(one.sources.items()):
                places[name] = os.fsdecode(self.file(b"%d" % number, b"".join(tree_maps.lines_of(tree))))
            end, there = self.adopted(one, *places.items())
            self.assertEqual(end.agree, bool(one.adopted) or one.buildkit == one.llbm, one.shows)
            if one.buildkit is not None:
                self.assertEqual(there, one.buildkit, one.shows)
