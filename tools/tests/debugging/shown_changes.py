"""Tests of the differences of trees that the debugger shows."""

import unittest

from llbm_tools.debugging import shown_trees, tree_changes


class Comparisons(unittest.TestCase):
    """Differences of two trees, path by path."""

    def flat(self, *lines):
        """Returns a tree by path."""
        return dict(shown_trees.path_and_head(line) for line in [b"d 0755 0 0 /", *lines])

    def test_the_paths_of_a_difference_are_in_order(self):
        before = self.flat(b"d 0755 0 0 /a", b"f 0644 0 0 31 /a/b", b"f 0644 0 0 - /a-b", b"f 0644 0 0 - /c")
        after = self.flat(b"d 0700 0 0 /a", b"f 0644 1 2 32 /a/b", b"d 0755 0 0 /c", b"f 0600 0 0 - /a-b")
        found = tree_changes.compared("t", before, after, 10)
        self.assertEqual([(one.path, one.shown()) for one in found.changes], [
            ("/a", "changed mode 0755 -> 0700"),
            ("/a/b", "changed owner 0:0 -> 1:2, text of 1 byte: 1 -> text of 1 byte: 2"),
            ("/a-b", "changed mode 0644 -> 0600"),
            ("/c", "changed file 0644 0:0, 0 bytes -> directory 0755 0:0"),
        ])
        self.assertEqual(found.summary(), "4 changed")
        self.assertEqual(tree_changes.compared("t", before, before, 10).summary(), "nothing")

    def test_changes_beyond_the_limit_are_counted(self):
        after = self.flat(*(b"f 0644 0 0 - /%d" % number for number in range(9)))
        found = tree_changes.compared("t", self.flat(), after, 2)
        self.assertEqual(([one.path for one in found.changes], found.summary()), (["/0", "/1"], "9 added"))
