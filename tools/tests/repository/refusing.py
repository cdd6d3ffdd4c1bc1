"""Tests of `refuse`, with programs that print what the tests would print."""

import os
import shutil
import sys

from tests.base import Folder, run


class Refuse(Folder):
    """The tool `refuse`, on programs that print what tests would."""

    def tests(self, *lines, refused=0, status=0, names=("one::calls",)):
        """Writes a program in place of the tests: it prints these lines, and is refused something `refused` times."""
        text = f"""#!{sys.executable}
import os, sys
if sys.argv[1:] == ["--list"]:
    print("\\n".join({[f"{name}: test" for name in names]!r}))
else:
    os.write(int(os.environ["REFUSED"]), b"." * {refused})
    print("\\n".join({lines!r}))
    sys.exit({status})
"""
        place = self.file(b"tests", text.encode())
        os.chmod(place, 0o755)
        return os.fsdecode(place)

    def refuse(self, *words):
        """Runs the tool, and returns its exit status and its lines."""
        if not shutil.which("rt"):
            self.skipTest("the toolchain is needed")
        done = run("refuse", *words)
        self.assertEqual(done.stderr, b"")
        return done.returncode, done.stdout.decode().splitlines()

    def test_calls_are_counted(self):
        tests = self.tests("refused 2 (27): put /a", "refused 0 (none): copy", refused=2)
        self.assertEqual(self.refuse(tests), (0, [
            "one::calls: passed, 2 refusals", "     2  27    put /a", "     0  none  copy",
            "2 refusals of 2 calls", "1 passed, 0 failed, 0 skipped",
        ]))

    def test_wrong_counts_and_bad_ends_fail(self):
        for lines, refused, status, wrong in [
            (["refused 0 (27): put /a"], 0, 0, "refused 0, which is wrong for 27: put /a"),
            (["refused 1 (none): copy"], 1, 0, "refused 1, which is wrong for none: copy"),
            (["refused 3 (27): put /a"], 2, 0, "2 refusals, but it reports 3"),
            (["a word"], 0, 0, "it names no call"),
            (["refused 1 (27): put /a", "growth 2 of put /a"], 1, 3, "growth 2 of put /a"),
            (["refused 1 (27): put /a"], 1, 3, "it ended with status 3"),
        ]:
            ended, lines_printed = self.refuse(self.tests(*lines, refused=refused, status=status))
            self.assertEqual((ended, lines_printed[-1]), (1, "0 passed, 1 failed, 0 skipped"), lines)
            self.assertIn(f"    {wrong}", lines_printed)

    def test_a_program_without_tests_fails(self):
        none = ["0 refusals of 0 calls", "0 passed, 0 failed, 0 skipped"]
        self.assertEqual(self.refuse(self.tests(names=())), (1, none))

    def test_command_lines_are_refused(self):
        for words in [("/none",), ("a", "b"), ("--nosuch",)]:
            done = run("refuse", *words)
            self.assertEqual((done.returncode, done.stdout), (2, b""), words)
            self.assertNotEqual(done.stderr, b"", words)
