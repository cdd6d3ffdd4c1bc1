"""Tests of `diff-of-trees`."""

import hashlib
import json
import os

from tests.base import Folder, run, run_closed, run_into
from tests.trees.tar_tools import entry, other, tar, tarfile

NOTHING = b"left out: nothing\n"


def contents(content):
    """Returns the contents of a file as a line shows them."""
    return f"contents {len(content)} sha256:{hashlib.sha256(content).hexdigest()}"


class DiffOfTrees(Folder):
    """The differences between two trees."""

    def tree(self, name, *lines):
        """Writes a tree text with these lines below the root's."""
        return self.file(name, self.text(["d 0755 0 0 /", *lines]))

    def check_lines(self, first, second, *lines, errors=b"", words=()):
        """Checks that these lines are the differences between the trees."""
        done = run("diff-of-trees", *words, first, second)
        self.check_run(done, 1 if lines else 0, self.text(lines), errors)

    def test_equal_trees_have_no_differences(self):
        first = self.tree(b"first", "d 0755 1 2 /a", "f 0644 3 4 6869 /a/b")
        self.check_lines(first, first)
        self.check_lines(first, self.tree(b"second", "d 0755 1 2 /a", "f 0644 3 4 6869 /a/b"))

    def test_paths_of_one_tree_are_added_or_removed(self):
        first = self.tree(b"first", "d 0700 1 2 /a", "f 0644 0 0 6869 /a/b")
        second = self.tree(b"second", "f 0600 3 4 - /c d")
        removed = ["directory mode 0700 owner 1:2 /a", f"file mode 0644 owner 0:0 {contents(b'hi')} /a/b"]
        new = f"file mode 0600 owner 3:4 {contents(b'')} /c d"
        self.check_lines(first, second, *(f"removed {line}" for line in removed), f"added {new}")
        self.check_lines(second, first, *(f"added {line}" for line in removed), f"removed {new}")

    def test_changed_paths_have_the_changed_properties(self):
        one, two = contents(b"a"), contents(b"bc")
        new = two.removeprefix("contents ")
        for before, after, line in [
            ("f 0644 0 0 61", "f 0600 0 0 61", "mode 0644 -> 0600"),
            ("f 0644 0 0 61", "f 0644 0 7 61", "owner 0:0 -> 0:7"),
            ("f 0644 0 0 61", "f 0644 0 0 6263", f"{one} -> {new}"),
            ("f 0644 0 0 61", "d 0644 0 0", f"kind file -> directory {one} -> none"),
            ("d 0755 0 0", "f 0644 1 2 6263",
             f"kind directory -> file mode 0755 -> 0644 owner 0:0 -> 1:2 contents none -> {new}"),
            ("d 0755 0 0", "d 0700 0 0", "mode 0755 -> 0700"),
        ]:
            first, second = self.tree(b"first", f"{before} /x y"), self.tree(b"second", f"{after} /x y")
            self.check_lines(first, second, f"changed {line} /x y")

    def test_the_object_has_both_entries_of_each_path(self):
        first = self.tree(b"first", "f 0644 0 0 61 /a", "d 0755 0 0 /b")
        second = self.tree(b"second", "f 0600 0 0 61 /a", "d 0755 0 0 /c")
        done = run("diff-of-trees", "--json", first, second)
        self.assertEqual((done.returncode, done.stderr), (1, b""))
        file = {"kind": "file", "mode": "0644", "owner": "0:0", "contents": contents(b"a").removeprefix("contents ")}
        directory = {"kind": "directory", "mode": "0755", "owner": "0:0", "contents": "none"}
        self.assertEqual(json.loads(done.stdout), {
            "differences": [
                {"path": "/a", "change": "changed", "before": file, "after": {**file, "mode": "0600"}},
                {"path": "/b", "change": "removed", "before": directory, "after": None},
                {"path": "/c", "change": "added", "before": None, "after": directory},
            ],
            "removed": 1, "added": 1, "changed": 1,
        })
        none = {"differences": [], "removed": 0, "added": 0, "changed": 0}
        self.assertEqual(json.loads(run("diff-of-trees", "--json", first, first).stdout), none)

    def test_the_root_is_compared(self):
        first, second = self.file(b"first", b"d 0755 0 0 /\n"), self.file(b"second", b"d 0711 0 9 /\n")
        self.check_lines(first, second, "changed mode 0755 -> 0711 owner 0:0 -> 0:9 /")

    def test_lines_are_in_path_order(self):
        first = self.tree(b"first", "d 0755 0 0 /a", "d 0755 0 0 /a/b", "d 0755 0 0 /b")
        second = self.tree(b"second", "d 0700 0 0 /a", "d 0755 0 0 /a-b", "d 0755 0 0 /c")
        lines = ["changed mode 0755 -> 0700 /a", "removed directory mode 0755 owner 0:0 /a/b"]
        lines += ["added directory mode 0755 owner 0:0 /a-b", "removed directory mode 0755 owner 0:0 /b"]
        self.check_lines(first, second, *lines, "added directory mode 0755 owner 0:0 /c")

    def test_texts_directories_and_archives_can_be_mixed(self):
        self.make(b"a/b", b"hi", mode=0o640)
        lines = ["d 0755 OWN /a", "f 0640 OWN 6869 /a/b"]
        text = self.file(b"text", self.text(["d 0755 OWN /", *lines]))
        owner = tuple(map(int, self.mine.split()))
        given = tar(entry(".", owner=owner), entry("a", owner=owner), entry("a/b", b"hi", mode=0o640, owner=owner))
        archive = self.file(b"x.tar", given)
        directory = self.place(b"in")
        for first, second in [(text, directory), (directory, archive), (archive, text)]:
            self.check_lines(first, second)
        done = run("diff-of-trees", "-", archive, text=self.text(["d 0755 OWN /", *lines]))
        self.check_success(done)
        os.rename(directory, self.place(b"in.tar"))
        self.check_lines(self.place(b"in.tar"), archive)

    def test_directories_and_archives_can_have_one_owner(self):
        self.make(b"a", b"hi")
        archive = self.file(b"x.tar", tar(entry("a", b"hi", owner=(7, 8))))
        words = ["--owner", "1:2"]
        self.check_lines(self.place(b"in"), archive, words=words)
        text = self.tree(b"text", "f 0644 1 2 6869 /a")
        self.check_lines(text, archive, "changed owner 0:0 -> 1:2 /", words=words)

    def test_what_is_left_out_is_named_or_refused(self):
        archive = self.file(b"x.tar", tar(entry("a", b"a"), other("b", tarfile.SYMTYPE, linkname="a")))
        text = self.tree(b"text", "f 0644 0 0 61 /a")
        errors = b"left out: a symbolic link: /b\nleft out: 1 symbolic link\n"
        self.check_lines(text, archive, errors=errors)
        errors += b"refused: something was left out: " + archive + b"\n"
        self.check_run(run("diff-of-trees", "--strict", text, archive), 2, b"", errors)
        self.make(b"a", b"a")
        os.symlink(b"a", self.place(b"in", b"link"))
        done = run("diff-of-trees", "--strict", self.place(b"in"), text)
        errors = b"left out: a symbolic link: /link\nleft out: 1 symbolic link\nrefused: something was left out: "
        self.check_run(done, 2, b"", errors + self.place(b"in") + b"\n")

    def test_faulty_and_missing_trees_are_refused(self):
        good = self.tree(b"good", "f 0644 0 0 61 /a")
        bad = self.file(b"bad", b"d 0755 0 0 /\nd 0755 0 0 /b\nd 0755 0 0 /a\n")
        cause = b"the path does not come after that of the line before"
        errors = b"not the text of a tree: " + cause + b": " + bad + b", line 3\n"
        self.check_run(run("diff-of-trees", good, bad), 2, b"", errors)
        self.check_run(run("diff-of-trees", bad, good), 2, b"", errors)
        archive = self.file(b"x.tar", b"x")
        done = run("diff-of-trees", good, archive)
        self.assertEqual((done.returncode, done.stdout), (2, b""))
        self.assertTrue(done.stderr.endswith(b": " + archive + b"\n"))
        for name in [b"none", b"good/a"]:
            done = run("diff-of-trees", good, self.place(name))
            self.assertEqual((done.returncode, done.stdout), (2, b""), done.stderr)
        self.check_run(run("diff-of-trees", "-", "-"), 2, b"", b"only one input can come from standard input\n")
        for words in [[], [good], [good, good, good], ["--owner=0", good, good]]:
            self.assertEqual(run("diff-of-trees", *words).returncode, 2, words)

    def test_failing_standard_streams_are_reported(self):
        good = self.tree(b"good", "f 0644 0 0 61 /a")
        self.check_run(run_closed(0, "diff-of-trees", "-", good), 3, b"", b"standard input is closed\n")
        with open("/dev/full", "wb") as output:
            done = run_into(output, "diff-of-trees", good, self.tree(b"other"))
        errors = b"the differences could not be written: No space left on device\n"
        self.assertEqual((done.returncode, done.stderr), (3, errors))
