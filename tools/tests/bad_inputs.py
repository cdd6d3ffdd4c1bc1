"""Bad inputs: each tool says in one line, with the status for the cause, why it can't use what it is given.

The table has all tools. One loop gives each of them each bad input in the place of each of its inputs.
"""

import ast
import os
import pathlib
import subprocess
import unittest

from llbm_tools import commands
from tests import base
from tests.base import AS_NOBODY, IS_ROOT, ROOT, TOOLS, command, run, run_closed

TOUR = ROOT / "examples" / "tour.definition"
FIRST = ROOT / "examples" / "first-run.definition"
TREE = ROOT / "examples" / "tour.tree"
PAGE = ROOT / "README.md"
SHOWN = b"0 merge steps 0 outputs 1 inputs -\nresult 0.0\n"
CASES = ROOT / "examples" / "cases"
BAD, OUT, LLBM = "{bad}", "{out}", "{llbm}"
# Tools that leave it to the program to read the texts of trees.
BY_PROGRAM = ("explain-run", "as-buildkit", "debug")

# Tools that name what is no definition.
READ_DEFINITIONS = ("as-buildkit", "build", "debug", "dump", "explain-run", "impact")

# What an input is: a file; an archive or nothing else; a tree in any form; a definition whose faults are findings; the
# program llbm.
FILE, TEXT, ANY_TREE, FINDINGS, PROGRAM = "file", "text", "any tree", "findings", "program"

# Tools that read what they are given: for each input its kind, and the words with BAD in its place.
TOOLS_WITH_INPUTS = {
    "adopt": [(FILE, [BAD]), (FILE, [TOUR, "--rules", BAD]), (PROGRAM, ["--llbm", BAD, FIRST])],
    "as-buildkit": [
        (FILE, ["--llbm", LLBM, BAD]), (ANY_TREE, ["--llbm", LLBM, TOUR, f"source={BAD}"]),
        (PROGRAM, ["--llbm", BAD, FIRST]),
    ],
    "build": [
        (FILE, ["--llbm", LLBM, BAD, OUT]), (ANY_TREE, ["--llbm", LLBM, TOUR, OUT, f"source={BAD}"]),
        (PROGRAM, ["--llbm", BAD, FIRST, OUT]),
    ],
    "check": [("directory", ["--llbm", LLBM, BAD]), (PROGRAM, ["--llbm", BAD, CASES])],
    "daemon-tests": [(PROGRAM, ["--llbm", BAD])],
    "debug": [
        (FILE, ["--llbm", LLBM, BAD]), (ANY_TREE, ["--llbm", LLBM, TOUR, f"source={BAD}"]),
        (PROGRAM, ["--llbm", BAD, FIRST]),
    ],
    "diff-of-trees": [(ANY_TREE, [BAD, TREE]), (ANY_TREE, [TREE, BAD])],
    "dist": [(PROGRAM, ["--llbm", BAD, "-o", OUT])],
    "dump": [(FILE, [BAD]), (PROGRAM, ["--llbm", BAD, FIRST])],
    "explain": [
        (FILE, ["--definition", BAD, "failed", "1", "command", "0", "status", "1"]),
        (PROGRAM, ["--llbm", BAD, "--definition", FIRST, "fault", "88", "0", "Source"]),
    ],
    "explain-run": [
        (FILE, ["--llbm", LLBM, BAD]), (ANY_TREE, ["--llbm", LLBM, TOUR, f"source={BAD}"]),
        (PROGRAM, ["--llbm", BAD, FIRST]),
    ],
    "fuzz": [(PROGRAM, ["--llbm", BAD, "1"])],
    "graph-of-show": [(FILE, ["--definition", BAD]), (PROGRAM, ["--llbm", BAD, FIRST])],
    "impact": [
        (FILE, [BAD, TOUR]), (FILE, [TOUR, BAD]),
        (ANY_TREE, [TOUR, TOUR, "--before", f"source={BAD}", "--after", f"source={TREE}"]),
        (PROGRAM, ["--llbm", BAD, TOUR, TOUR]),
    ],
    "install": [(PROGRAM, ["--llbm", BAD, OUT])],
    "json-of-show": [(FILE, ["--definition", BAD]), (PROGRAM, ["--llbm", BAD, FIRST])],
    "lint": [(FINDINGS, [BAD]), (PROGRAM, ["--llbm", BAD, FIRST])],
    "measure": [(PROGRAM, ["--llbm", BAD])],
    "measure-daemons": [(PROGRAM, ["--llbm", BAD])],
    "page-tests": [(PROGRAM, ["--llbm", BAD])],
    "transcripts": [(FILE, ["--llbm", LLBM, BAD]), (PROGRAM, ["--llbm", BAD, PAGE])],
    "run": [(PROGRAM, ["--llbm", BAD, "show"])],
    "test": [(PROGRAM, ["--llbm", BAD, "statuses"])],
    "trace-of-record": [(FILE, ["--definition", BAD])],
    "page": [("directory", [BAD])],
    "tree-of-directory": [("directory", [BAD])],
    "tree-of-image": [(ANY_TREE, [BAD])],
    "tree-of-tar": [(TEXT, [BAD])],
}

# Tools that read standard input, with the words for that.
TOOLS_ON_STANDARD_INPUT = {
    "adopt": [], "as-buildkit": ["--llbm", LLBM, "-"], "build": ["--llbm", LLBM, "-", OUT],
    "diff-of-trees": ["-", TREE], "directory-of-tree": [OUT], "dump": [], "explain": [],
    "explain-run": ["--llbm", LLBM, "-"], "graph-of-show": [], "impact": ["-", TOUR], "json-of-record": [],
    "json-of-show": [], "lint": [], "tar-of-tree": [], "trace-of-record": [], "tree-of-image": [], "tree-of-tar": [],
}

# Tools whose words name no input, or programs and pages of the repository, which other tests give them.
OTHER_TOOLS = {
    "against-buildkit", "bigdef", "bigtree", "bindings", "claims", "daemon", "daemon-suite", "debug-adapter", "floors",
    "gate", "library", "lines", "minutes", "plants", "proved", "refuse", "style", "unproved-program", "wasm",
}

# Lines that a build prints while all goes well.
PROGRESS = (b"reading ", b"left out: ", b"running ", b"nothing is written")

# Values with which a message may begin that has a colon after them, since they say what is wrong.
CAUSES = {"cause", "fault", "in_words(fault)", "said[0]", "str(fault).lower()", "what"}


class Table(base.WithProgram):
    """Each tool with each bad input."""

    def setUp(self):
        super().setUp()
        self.llbm = self.file(b"llbm", base.FAKE_SHELL.encode() + b"echo 'fault 81 4' >&2\nexit 2\n")
        os.chmod(self.llbm, 0o755)

    def words(self, words, bad=b""):
        """Returns words with a bad input and the test's own places."""
        places = {BAD: bad, OUT: self.place(b"out"), LLBM: self.llbm}
        found = []
        for word in map(os.fsencode, words):
            for name, place in places.items():
                word = word.replace(name.encode(), place)
            found.append(word)
        return found

    def check(self, done, status, about):
        """Checks that a tool ended with this status and one line on standard error, and wrote nothing.

        Only `explain` has output, since it explains lines also without a definition.
        """
        lines = [line for line in done.stderr.splitlines() if not line.startswith(PROGRESS)]
        self.check_refused(done, status, about)
        self.assertEqual(len(lines), 1, (about, done.stderr))
        self.assertFalse(os.path.lexists(self.place(b"out")), about)

    def check_refused(self, done, status, about):
        """Checks that a tool ended with this status, without output, and that no message begins with a path."""
        output = done.stdout if "explain" in about else b""
        self.assertEqual((done.returncode, done.stdout), (status, output), (about, done.stderr))
        self.assertNotIn(b"Traceback", done.stderr, about)
        for line in done.stderr.splitlines():
            self.assertNotRegex(line, rb"^[^ ]*/[^ ]*(: |$)", about)
            self.assertFalse(line.startswith(self.folder), (about, line))

    def inputs(self):
        """Yields each tool that reads an input, with the kind of the input and the words."""
        for tool, inputs in TOOLS_WITH_INPUTS.items():
            for kind, words in inputs:
                yield tool, kind, words

    def test_the_table_has_all_tools(self):
        there = {command.old for command in commands.of_all()}
        self.assertEqual(there - {*TOOLS_WITH_INPUTS, *TOOLS_ON_STANDARD_INPUT, *OTHER_TOOLS}, set())

    def test_a_place_at_which_there_is_nothing(self):
        self.file(b"file", b"")
        for place in [self.place(b"none"), self.place(b"file", b"below")]:
            for tool, _, words in self.inputs():
                self.check(run(tool, *self.words(words, place), text=SHOWN), 2, (tool, place))

    def test_a_directory_in_the_place_of_a_file(self):
        for tool, kind, words in self.inputs():
            if kind in (FILE, TEXT, FINDINGS, PROGRAM):
                done = run(tool, *self.words(words, self.folder), text=SHOWN)
                self.check(done, 2, [tool])
                begin = b"not a program: " if kind == PROGRAM else b"is a directory: "
                self.assertTrue(done.stderr.startswith(begin + self.folder), (tool, done.stderr))

    def test_a_place_that_may_not_be_read(self):
        place = self.file(b"secret", TREE.read_bytes())
        os.chmod(place, 0)
        os.chmod(self.folder, 0o777)
        before = ["-c", AS_NOBODY] if IS_ROOT else []
        for tool, kind, words in self.inputs():
            if kind != "directory":
                done = run(tool, *self.words(words, place), text=SHOWN, before=before)
                self.check(done, 2, [tool])
                if kind != PROGRAM and (tool not in BY_PROGRAM or kind == FILE):
                    self.assertIn(b"permission denied: " + place, done.stderr, tool)

    def test_a_folder_that_may_not_be_written(self):
        above = self.place(b"above")
        os.mkdir(above, 0o555)
        os.chmod(self.folder, 0o755)
        before = ["-c", AS_NOBODY] if IS_ROOT else []
        for tool, *words in [
            ("build", "--llbm", self.llbm, FIRST, b"%b/out" % above),
            ("adopt", "--all", FIRST, "-o", b"%b/out" % above),
        ]:
            done = run(tool, *words, before=before)
            self.check_refused(done, 2, [tool])
            self.assertRegex(done.stderr, rb"(^|\n)permission denied: " + above + rb"(/out)?\n", tool)

    def test_a_tree_that_is_too_long(self):
        place = self.file(b"long", b"")
        os.truncate(place, 67_108_865)
        for tool in BY_PROGRAM if base.llbm else ():
            done = run(tool, "--llbm", base.llbm, TOUR, b"source=" + place)
            cause = b"too long: " + place + b", 67,108,865 bytes (the local source source)\n"
            self.check_run(done, 2, b"", cause)

    def test_bytes_that_are_nothing(self):
        for data in [b"\x00\xff\xfe" * 700, b""]:
            place = self.file(b"bytes", data)
            for tool, kind, words in self.inputs():
                done = run(tool, *self.words(words, place), text=SHOWN)
                if kind == FINDINGS:
                    self.assertEqual((done.returncode, len(done.stdout.splitlines())), (1, 1), tool)
                elif data or "--rules" not in words:
                    self.check_refused(done, 2, [tool])
                names_it = kind in (TEXT, FINDINGS) or kind == ANY_TREE and tool not in BY_PROGRAM
                if names_it or kind == FILE and tool in READ_DEFINITIONS:
                    self.assertIn(b": " + place, done.stderr, tool)

    def test_a_program_that_does_not_start_or_is_another(self):
        given = {
            b"bytes": (b"\x00\xff\xfe" * 700, b"the program does not start: "),
            b"empty": (b"", b"the program does not start: "),
            b"other": (b"#!/bin/sh\necho other 1.0 >&2\n", b"this is not the program llbm: "),
            b"failing": (
                b"#!/bin/sh\necho >&2\necho no memory >&2\necho more >&2\nexit 1\n",
                b"the program does not start: it ends with status 1 and prints no memory: ",
            ),
            b"killed": (b"#!/bin/sh\nkill -ABRT $$\n", b"the program does not start: it ends with signal 6: "),
        }
        for name, (data, begin) in given.items():
            place = self.file(name, data)
            os.chmod(place, 0o755)
            for tool, kind, words in self.inputs():
                if kind == PROGRAM:
                    done = run(tool, *self.words(words, place), text=SHOWN)
                    self.check(done, 2, (tool, name))
                    self.assertTrue(done.stderr.startswith(begin), (tool, done.stderr))

    def test_a_device_that_never_ends(self):
        os.symlink("/dev/zero", self.place(b"zero.tar"))
        for place in [b"/dev/zero", self.place(b"zero.tar")]:
            for tool, kind, words in self.inputs():
                done = run(tool, *self.words(words, place), text=SHOWN)
                self.check(done, 2, [tool])
                is_by_program = kind == ANY_TREE and tool in BY_PROGRAM
                if kind in (FILE, TEXT, ANY_TREE, FINDINGS) and not is_by_program:
                    self.assertTrue(done.stderr.startswith(b"is a device: " + place), (tool, done.stderr))

    def test_a_standard_input_that_is_a_device(self):
        for tool, words in TOOLS_ON_STANDARD_INPUT.items():
            with open("/dev/zero", "rb") as device:
                done = subprocess.run(
                    command(tool, *self.words(words)), stdin=device, capture_output=True, timeout=base.GUARD
                )
            self.check(done, 2, [tool])
            self.assertTrue(done.stderr.startswith(b"is a device: standard input\n"), (tool, done.stderr))

    def test_what_ends_is_no_device(self):
        text = TREE.read_bytes()
        for place in [b"/dev/stdin", b"/dev/fd/0", b"-"]:
            self.check_success(run("diff-of-trees", place, TREE, text=text))
            with open(TREE, "rb") as file:
                done = subprocess.run(command("diff-of-trees", place, TREE), stdin=file, capture_output=True)
            self.check_success(done)
        done = run("diff-of-trees", "/dev/null", TREE)
        self.check_run(done, 2, b"", b"not the text of a tree: the text is empty: /dev/null, line 1\n")

    def test_a_standard_input_that_is_closed(self):
        for tool, words in TOOLS_ON_STANDARD_INPUT.items():
            done = run_closed(0, tool, *self.words(words))
            self.check(done, 3, [tool])
            self.assertEqual(done.stderr.splitlines()[0], b"standard input is closed", tool)

    def test_a_standard_input_that_is_a_directory(self):
        for tool in (ROOT / "llbm-tools", ROOT / "dev" / "dev", TOOLS / "lint"):
            descriptor = os.open("/", os.O_RDONLY)
            done = subprocess.run([tool], stdin=descriptor, capture_output=True, timeout=base.GUARD)
            os.close(descriptor)
            self.assertEqual((done.returncode, done.stderr), (2, b"is a directory: standard input\n"), tool)

    def test_a_standard_input_with_bytes_that_are_nothing(self):
        for tool, words in TOOLS_ON_STANDARD_INPUT.items():
            done = run(tool, *self.words(words), text=b"\x00\xff\xfe" * 700)
            if tool == "lint":
                self.assertEqual((done.returncode, len(done.stdout.splitlines())), (1, 1))
            else:
                self.check_refused(done, 2, [tool])

    def test_an_output_that_its_reader_has_closed(self):
        for tool, *words in [
            ("lint", ROOT / "examples" / "foreign.llb"), ("impact", TOUR, TOUR), ("diff-of-trees", TREE, "-"),
            ("bigdef", "chain", "2"), ("bigtree", "1", "1"), ("tree-of-directory", ROOT / "examples"), ("tar-of-tree",),
            ("explain", "fault", "1"), ("json-of-show",), ("graph-of-show",),
        ]:
            text = b"d 0755 0 0 /\n" if tool in ("diff-of-trees", "tar-of-tree") else SHOWN
            reading, writing = os.pipe()
            os.close(reading)
            with open(writing, "wb") as output:
                done = subprocess.run(
                    command(tool, *words), input=text, stdout=output, stderr=subprocess.PIPE, timeout=base.GUARD
                )
            self.assertEqual((done.returncode, done.stderr), (3, b""), tool)


HOME = pathlib.Path(TOOLS, "llbm_tools")


class Messages(unittest.TestCase):
    """The messages in the code of the tools; the debugger answers expressions and requests, which it names first."""

    def begins(self, file):
        """Yields the number of a line, and the value before the colon with which the message of an error begins."""
        for node in ast.walk(ast.parse(file.read_text("utf-8"))):
            if not isinstance(node, ast.Raise) or not isinstance(node.exc, ast.Call):
                continue
            for message in (part for argument in node.exc.args for part in ast.walk(argument)):
                if isinstance(message, ast.JoinedStr) and isinstance(message.values[0], ast.FormattedValue):
                    _, *rest = message.values
                    if rest and isinstance(rest[0], ast.Constant) and rest[0].value.startswith(":"):
                        yield message.lineno, ast.unparse(message.values[0].value)

    def test_no_message_begins_with_a_name_or_a_path(self):
        files = [file for file in sorted(HOME.rglob("*.py")) if file.parent.name != "debugging"]
        found = [(file.name, *begin) for file in files for begin in self.begins(file) if begin[1] not in CAUSES]
        self.assertEqual(found, [])
