"""Tests of `transcripts`: pages in all forms, pages that lie, and files that are left behind."""

import os
import pathlib
import shutil
import unittest

from llbm_tools import common
from tests import base
from tests.base import ROOT, run

MOST_LINES = 500
PAGE = """# A page

A text with `./llbm none` in it.

    $ ./llbm one < /dev/null
    one

    and more

and, of which nothing is shown,

    ./llbm two
    ./llbm three

and not

    rt ci

nor

    dev/dev unproved-program

nor

    ./gate

```
$ ./llbm four
four
$ llbm five | cat
five
```

    $ ./llbm wrong
    ! wrong
    status 3

A block of no command:

    text = { entry }
"""

TEST = """# A test

A file of tests makes its inputs.

    $ cat > input <<'END'
    $ no command

    END
    $ cat input | tr '$' '%'; ls
    % no command

    input
    $ llbm wrong
    ! wrong
    status 3
    $ llbm two \\
    | sed 's/o/!/'
    tw!
    $ llbm both; exit 4
    output
    ! errors
    !
    ! more
    status 4

A line is typed when what is above it is printed.

    $ llbm asks
    first?
    > 1
    1 and 2?
    >
     and 2?
    > no more
    ended
    ! asked
    status 5
"""

ANSWERS = """case $1 in
one) printf 'one\\n\\nand more\\n';;
two|four|five) echo $1;;
wrong) echo wrong >&2; exit 3;;
bad) exit 1;;
both) printf 'errors\\n\\nmore\\n' >&2; echo output;;
asks) echo 'first?'; while read -r line && [ "$line" != 'no more' ]; do echo "$line and 2?"; done
  echo asked >&2; echo ended; exit 5;;
esac"""


class Transcripts(base.WithPrograms):
    """The tool on pages and files of tests that are made for it."""

    def page(self, text, *names):
        """Writes a page, below folders with these names."""
        place = pathlib.Path(os.fsdecode(self.folder), *names, "page.md")
        place.parent.mkdir(parents=True, exist_ok=True)
        place.write_text(text)
        return place

    def transcripts(self, place, *words):
        """Runs the tool on a page or a folder, and returns its status and its lines."""
        done = run("transcripts", *words, "--llbm", self.program(ANSWERS), place)
        self.assertEqual(done.stderr, b"")
        return done.returncode, done.stdout.decode().splitlines()

    def check_causes(self, cases, *names):
        """Checks that each of these texts, which a page has one after another, differs for its cause."""
        status, lines = self.transcripts(self.page("\nand\n\n".join(text for text, _ in cases), *names))
        *lines, last = lines
        self.assertEqual([line.split(": ", 1)[1] for line in lines], [cause for _, cause in cases])
        self.assertEqual((status, last), (1, f"0 passed, {len(cases)} failed, 0 skipped"))

    def test_all_forms_of_a_page_are_run(self):
        status, lines = self.transcripts(self.page(PAGE))
        *lines, last = lines
        self.assertEqual((status, last), (0, "5 passed, 0 failed, 3 skipped"), lines)
        self.assertEqual([line.split(": ", 1)[1].split(",")[0] for line in lines], ["left out"] * 3)
        self.assertIn(":17: left out", lines[0])

    def test_all_forms_of_a_file_of_tests_are_run(self):
        self.page(TEST, "tests", "one")
        self.page(TEST, "tests", "two")
        for place in ("tests", "tests/one/page.md"):
            passed = 5 * (2 if place == "tests" else 1)
            found = self.transcripts(pathlib.Path(os.fsdecode(self.folder), place))
            self.assertEqual(found, (0, [f"{passed} passed, 0 failed, 0 skipped"]))

    def test_pages_that_lie_are_found(self):
        self.check_causes([
            ("    $ ./llbm two\n    three\n", "prints 'two\\n', not 'three\\n'"),
            ("    ./llbm bad\n", "status 1, not 0"),
            ("    ./llbm wrong\n", "status 3, not 0 (standard error: 'wrong\\n')"),
            ("    $ ./llbm wrong\n    ! wrong\n", "status 3, not 0 (standard error: 'wrong\\n')"),
            ("```\n$ ./llbm two\n```\n", "prints 'two\\n', not ''"),
        ])

    def test_files_of_tests_that_lie_are_found(self):
        asked = "$ llbm asks\n    first?\n    > 1\n    1 and {}?\n"
        self.check_causes([
            ("    $ llbm two\n", "prints 'two\\n', not ''"),
            ("    $ llbm two\n    two\n    and more\n", "prints 'two\\n', not 'two\\nand more\\n'"),
            ("    $ llbm bad\n", "status 1, not 0"), ("    $ llbm bad\n    status 2\n", "status 1, not 2"),
            ("    $ llbm wrong\n    status 3\n", "prints on standard error 'wrong\\n', not ''"),
            ("    $ llbm two\n    two\n    ! wrong\n", "prints on standard error '', not 'wrong\\n'"),
            ("    $ cat > input <<'END' && llbm bad\n    END\n", "status 1, not 0"),
            (f"    {asked.format(3)}", "to '1' it prints '1 and 2?\\n', not '1 and 3?\\n'"),
            (f"    {asked.format(2)}    > no more\n    ! asked\n    status 5\n", "prints 'ended\\n', not ''"),
            ("    $ llbm two\n    two\n    > 1\n    2\n", "to '1' it prints '', not '2\\n'"),
            ("    $ llbm both\n    output\n    > 1\n    > 2\n    ! errors\n",
             "prints on standard error 'errors\\n\\nmore\\n', not 'errors\\n'"),
        ], "tests")

    def test_files_of_tests_begin_in_empty_folders(self):
        self.page("    $ llbm one > a; ls\n    a\n", "tests", "one")
        self.page("    $ llbm one > b; ls\n    b\n", "tests", "two")
        self.assertEqual(self.transcripts(self.place(b"tests")), (0, ["2 passed, 0 failed, 0 skipped"]))

    def test_a_command_that_fails_in_a_pipe_has_its_status(self):
        self.page("    $ llbm wrong 2>&1 | cat\n    wrong\n    status 3\n", "tests")
        self.assertEqual(self.transcripts(self.place(b"tests")), (0, ["1 passed, 0 failed, 0 skipped"]))

    @unittest.skipUnless(shutil.which("git") and (ROOT / ".git").exists(), "the repository is not one of git")
    def test_files_of_a_page_are_written_to_a_copy_and_named_unless_git_ignores_them(self):
        name = "written-by-a-test-of-transcripts"
        written = f"    ./llbm two > {name}\n    ./llbm one >> README.md\n"
        found = self.transcripts(self.page(f"{written}\nand\n\n    mkdir -p out/a\n    ./llbm two > out/a/b\n"))
        lines = [f"{path}: made or changed by these commands, and not ignored by git" for path in ("README.md", name)]
        self.assertEqual(found, (1, [*lines, "2 passed, 2 failed, 0 skipped"]))
        self.assertFalse((ROOT / name).exists())

    def test_a_program_that_is_not_proved_has_its_own_place(self):
        page = self.page("    $ ./llbm 2> /dev/null\n    out/llbm-unproved\n")
        version = "llbm 1.0, not proved, compiled with x"
        program = self.file(b"unproved", f"#!/bin/sh\necho \"${{0#./}}\"; echo '{version}' >&2\n".encode())
        os.chmod(program, 0o755)
        done = run("transcripts", "--llbm", program, page)
        self.assertEqual((done.returncode, done.stdout), (0, b"1 passed, 0 failed, 0 skipped\n"))

    def test_the_version_says_whether_it_is_proved(self):
        page = self.page(f"    $ llbm --version 2>&1\n    llbm 1.0, proved with {common.PROVER}\n", "tests")
        for said, words, status in [
            ("proved with", (), 0), ("proved with", ("--unproved",), 1), (common.NOT_PROVED, ("--unproved",), 0),
            (common.NOT_PROVED, (), 1),
        ]:
            program = self.file(b"program", f"#!/bin/sh\necho 'llbm 1.0, {said} {common.PROVER}' >&2\n".encode())
            os.chmod(program, 0o755)
            self.assertEqual(run("transcripts", *words, "--llbm", program, page).returncode, status, (said, words))

    def test_pages_and_command_lines_are_refused(self):
        (pathlib.Path(os.fsdecode(self.folder)) / "none.md").mkdir()
        places = [self.page("no command\n"), self.place(b"none"), self.place(b"none.md"), self.file(b"bad", b"\xff")]
        for words in [(), *[("--llbm", self.program(ANSWERS), place) for place in places]]:
            done = run("transcripts", *words)
            self.assertEqual((done.returncode, done.stdout), (2, b""), words)

    def test_each_file_of_tests_begins_with_its_rule_and_is_short(self):
        pages = sorted((ROOT / "tests").glob("**/*.md"))
        self.assertGreater(len(pages), 40)
        for page in pages:
            title, gap, rule, *rest = page.read_text("utf-8").splitlines()
            self.assertTrue(title.startswith("# ") and not gap and rule[0].isupper(), page)
            self.assertTrue(" ".join([rule, *rest]).split("  ")[0].rstrip().endswith("."), page)
            self.assertLess(len(rest), MOST_LINES, page)

    def test_a_test_and_the_first_page_of_the_repository_are_as_the_program_prints(self):
        if base.llbm is None:
            self.skipTest("the program llbm is needed (--llbm PROGRAM)")
        words = ["--unproved"] * common.is_unproved(base.llbm)
        pages = [ROOT / "README.md", ROOT / "tests" / "command-line" / "version.md"]
        done = run("transcripts", *words, "--llbm", base.llbm, *pages)
        self.assertEqual((done.returncode, done.stderr), (0, b""), done.stdout)
