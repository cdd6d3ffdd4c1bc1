"""Tests of `llbm.trees` and `llbm.testing`: LIBLLBM=libllbm.so LLBM_TOOLS=llbm-tools python3 -m unittest test_testing."""

import importlib.util
import os
import pathlib
import subprocess
import sys
import tempfile
import unittest
from unittest import mock

from llbm import Machine, testing
from llbm.testing import Dir, Files, Image, fails, solve
from llbm.trees import Entry, Tree

EXAMPLES = pathlib.Path(__file__).resolve().parents[2] / "examples"
TEXT = "d 0755 0 0 /\nd 0711 7 5 /a\nf 4644 0 0 6869 /a/b c\nf 0600 0 0 - /a-\n"


def definition_of(*entries: str) -> bytes:
    """Assembles ops, given what is in each, and an op for the last one as the result."""
    ends = f'inputs {{\ndigest %{len(entries) - 1}\n}}'
    with Machine() as machine:
        return machine.assemble("".join(f"op {{\n{entry}\n}}\n" for entry in (*entries, ends)))


def mkfile(content: str, path: str = "/x") -> bytes:
    """Returns a definition of a file of 7:5 and mode 0600."""
    owner = "owner {\nuser {\nbyID 7\n}\ngroup {\nbyID 5\n}\n}"
    made = f'mkfile {{\npath "{path}"\nmode 384\ndata {content.encode().hex()}\n{owner}\ntimestamp -1\n}}'
    return definition_of(f"file {{\nactions {{\ninput -1\nsecondaryInput -1\n{made}\n}}\n}}")


def copied(path: str, identifier: str = "local://src", **attributes: str) -> bytes:
    """Returns a definition that copies what is at a path of a source to /."""
    attrs = "".join(
        f'attrs {{\nkey "local.{key}"\nvalue "{value}"\n}}\n' for key, value in sorted(attributes.items())
    )
    made = f'copy {{\nsrc "{path}"\ndest "/"\nmode -1\ndirCopyContents true\ntimestamp -1\n}}'
    copy = f"inputs {{\ndigest %0\n}}\nfile {{\nactions {{\ninput -1\n{made}\n}}\n}}"
    return definition_of(f'source {{\nidentifier "{identifier}"\n{attrs}}}', copy)


class Trees(unittest.TestCase):
    def test_a_tree_is_read_and_printed(self) -> None:
        tree = Tree.parse(TEXT)
        self.assertEqual(TEXT, tree.text())
        self.assertEqual(["/", "/a", "/a/b c", "/a-"], list(tree))
        self.assertEqual(Entry("/a/b c", False, 0o4644, 0, 0, b"hi"), tree["a/b c"])
        self.assertNotIn("/a/c", tree)

    def test_what_is_no_tree_is_refused(self) -> None:
        for text in ("x", "d 0755 0 0", "l 0777 0 0 /a", "f 0644 0 0 6 /a", "f 0644 0 0 - /", "f 0644 0 0 - /a\nf 0644 0 0 - /a/b"):
            with self.assertRaises(ValueError, msg=text):
                Tree.parse(text)

    def test_a_difference_has_a_line_for_each_side(self) -> None:
        other = Tree.parse("d 0755 0 0 /\nd 0755 7 5 /a\nf 4644 0 0 6869 /a/b c\nf 0644 0 0 ff /z\n")
        lines = ["- /a 0711 7:5 directory", "+ /a 0755 7:5 directory", "- /a- 0600 0:0 ''", "+ /z 0644 0:0 1 bytes, ff.."]
        self.assertEqual(lines, Tree.parse(TEXT).diff(other).splitlines())
        self.assertEqual("", other.diff(other))


class WithFolder(unittest.TestCase):
    def setUp(self) -> None:
        folder = tempfile.TemporaryDirectory(prefix="llbm-testing-")
        self.addCleanup(folder.cleanup)
        self.folder = pathlib.Path(folder.name)


class Solving(WithFolder):
    def test_what_is_made_is_checked(self) -> None:
        result = solve(mkfile("hi")).missing("/y")
        result.file("/x").equals("hi").equals(b"hi").mode(0o600).owner(7, 5)
        for words, check in [
            ("/x has not the content 'ho'", lambda: result.file("/x").equals("ho")),
            ("/x has not the mode 0644, but 0600", lambda: result.file("/x").mode(0o644)),
            ("/x has not the owner 0:0, but 7:5", lambda: result.file("/x").owner(0, 0)),
            ("there is something at /x: /x 0600", lambda: result.missing("/x")),
            ("there is nothing at /y in", lambda: result.file("/y")),
            ("/ is a directory, not a file with 'hi'", lambda: result.file("/").equals("hi")),
        ]:
            with self.assertRaisesRegex(AssertionError, words):
                check()

    def test_sources_are_given(self) -> None:
        (self.folder / "a").write_text("from a folder")
        (self.folder / "a").chmod(0o640)
        solve(copied("/a"), Dir("src", self.folder)).file("/a").equals("from a folder").mode(0o640).owner(0, 0)
        made = Files("src", {"a": "made", "c/d": b""})
        solve(copied("/"), made).missing("/b").file("/a").equals("made").mode(0o644)

    def test_a_link_in_a_source_is_refused(self) -> None:
        (self.folder / "a").symlink_to("b")
        with self.assertRaisesRegex(AssertionError, "a tree has only directories and files.*/a$"):
            solve(copied("/"), Dir("src", self.folder))

    def test_a_source_that_the_definition_has_not_is_an_error(self) -> None:
        long = "src" * 60
        solve(copied("/a", f"local://{long}"), Files(long, {"a": ""})).file("/a")
        for name in ("sr", "src2", f"{long}s"):
            with self.assertRaisesRegex(AssertionError, f"the definition has no local source {name}$"):
                solve(copied("/a"), Files("src", {"a": ""}), Files(name, {}))

    def test_checks_are_made_with_asserts_left_out(self) -> None:
        text = "from llbm import testing; testing.File(testing.Entry('/x', True, 0o755)).mode(0o700)"
        done = subprocess.run([sys.executable, "-O", "-c", text], cwd=pathlib.Path(__file__).parent, capture_output=True)
        self.assertIn(b"/x has not the mode 0700, but 0755", done.stderr)

    @unittest.skipUnless(testing.tools(), "there is no llbm-tools")
    def test_a_directory_stands_in_for_an_image(self) -> None:
        (self.folder / "a").write_text("of the image")
        definition = copied("/a", "docker-image://docker.io/library/alpine:3.19")
        solve(definition, Image("alpine:3.19", self.folder)).file("/a").equals("of the image")
        with self.assertRaisesRegex(AssertionError, "the definition has no image alpine:3.20"):
            solve(definition, Image("alpine:3.20", self.folder))

    @unittest.skipUnless(os.environ.get(testing.RULES), "there is no program llbm-rules")
    def test_filters_select_as_for_a_client(self) -> None:
        files = Files("src", {".git/HEAD": "x", "main.go": "y", "a/b.go": "z", "a/c.txt": ""})
        definition = copied("/", includepattern='[\\"**/*.go\\"]', excludepatterns='[\\"a/b*\\"]')
        result = solve(definition, files).missing("/.git").missing("/a/b.go").missing("/a/c.txt")
        result.file("/main.go").equals("y")
        solve(copied("/", followpaths='[\\"a/c.txt\\"]'), files).missing("/main.go").file("/a/c.txt")

    def test_a_golden_tree_is_written_and_compared(self) -> None:
        place = self.folder / "testdata" / "r.tree"
        with self.assertRaisesRegex(AssertionError, "there is no golden tree .*--update"):
            solve(mkfile("hi")).golden(place)
        with mock.patch.dict(os.environ, {testing.UPDATE: "1"}):
            solve(mkfile("hi")).golden(place)
        self.assertEqual("d 0755 0 0 /\nf 0600 7 5 6869 /x\n", place.read_text())
        solve(mkfile("hi"), folder=self.folder).golden("testdata/r.tree")
        with self.assertRaisesRegex(AssertionError, "- /x 0600 7:5 'hi'\n\\+ /x 0600 7:5 'ho'"):
            solve(mkfile("ho")).golden(place)

    @unittest.skipUnless(testing.tools(), "there is no llbm-tools")
    def test_a_failure_has_its_reason(self) -> None:
        fails(copied("/b.txt"), "/b.txt", Files("src", {}))
        fails(copied("/b.txt"), "a local source has no tree")
        with self.assertRaisesRegex(AssertionError, "(?s)failed 1 action 0.*/b.txt"):
            solve(copied("/b.txt"), Files("src", {}))
        with self.assertRaisesRegex(AssertionError, "does not fail with 'a', but makes\n(?s:.*)/x 0600"):
            fails(mkfile("hi"), "a")
        with self.assertRaisesRegex(AssertionError, "(?s)does not fail with 'none of this', but with.*/b.txt"):
            fails(copied("/b.txt"), "none of this", Files("src", {}))

    def test_the_program_solves_where_there_is_no_library(self) -> None:
        definition = copied("/b.txt")
        with mock.patch.dict(os.environ, {"LIBLLBM": "/none.so"}):
            if os.environ.get(testing.PROGRAM):
                solve(definition, Files("src", {"b.txt": "b"})).file("/b.txt").equals("b")
            with mock.patch.dict(os.environ, {testing.PROGRAM: "/none"}):
                with self.assertRaisesRegex(AssertionError, "LLBM names no program that starts: .*'/none'"):
                    solve(definition, Files("src", {}))
            with mock.patch.dict(os.environ):
                os.environ.pop(testing.PROGRAM, None)
                with self.assertRaisesRegex(unittest.SkipTest, "there is nothing to solve it with: .*LLBM names no"):
                    solve(b"")

    @unittest.skipUnless(os.environ.get(testing.RULES), "there is no program llbm-rules")
    def test_buildkit_makes_the_same(self) -> None:
        solve(mkfile("hi")).same_as_buildkit()


@unittest.skipUnless(importlib.util.find_spec("pytest"), "there is no pytest")
class Pytest(WithFolder):
    """The option and the fixtures of pytest, in a folder as a user has it."""

    def said(self, *words: str, status: int = 0, **given: str) -> str:
        """Runs pytest in the folder, checks its status, and returns what it prints."""
        path = os.pathsep.join([str(pathlib.Path(__file__).parent), os.environ.get("PYTHONPATH", "")])
        env = {**os.environ, "PYTHONPATH": path, "PYTHONDONTWRITEBYTECODE": "1", **given}
        line = [sys.executable, "-m", "pytest", "-q", "-p", "no:cacheprovider", *words]
        done = subprocess.run(line, cwd=self.folder, env=env, capture_output=True, text=True)
        self.assertEqual(status, done.returncode, done.stdout + done.stderr)
        return done.stdout

    def setUp(self) -> None:
        super().setUp()
        (self.folder / "conftest.py").write_text('pytest_plugins = ["llbm.testing"]\n')
        (self.folder / "below").mkdir()
        tests = 'def test_it(solve, fails):\n    fails(b"\\1", "fault 81")\n    solve(DATA).golden("a/r.tree")\n'
        (self.folder / "below" / "test_one.py").write_text(f"DATA = {mkfile('hi')!r}\n{tests}")
        self.golden = self.folder / "below" / "a" / "r.tree"

    def test_the_option_writes_golden_trees_beside_the_test(self) -> None:
        self.assertIn("there is no golden tree", self.said(status=1))
        self.said("--update")
        self.assertEqual("d 0755 0 0 /\nf 0600 7 5 6869 /x\n", self.golden.read_text())
        self.said()

    def test_a_failure_has_the_line_of_the_test_and_the_difference(self) -> None:
        self.golden.parent.mkdir()
        self.golden.write_text("d 0755 0 0 /\nf 0600 7 5 686f /x\n")
        said = self.said("-vv", status=1)
        self.assertRegex(said, r"(?m)^>       solve\(DATA\).golden\(")
        self.assertRegex(said, r"E +- /x 0600 7:5 'ho'\nE +\+ /x 0600 7:5 'hi'\n")
        self.assertNotIn("testing.py", said)

    def test_a_test_without_library_and_program_is_skipped_by_its_name(self) -> None:
        said = self.said("-rs", LIBLLBM="/none.so", LLBM="")
        self.assertRegex(said, r"SKIPPED \[1\] below/test_one.py:3: there is nothing .* LLBM names no program")


if __name__ == "__main__":
    unittest.main()
