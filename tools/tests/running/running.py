"""Tests of `run`: what it adds to the lines of the program. The programs are scripts that print what a test wants."""

import os
import pty
import subprocess
import unittest

from llbm_tools import commands
from llbm_tools.running.program_words import Source, read_words
from tests import base
from tests.base import ROOT, Folder, command, run, run_closed

TOUR = ROOT / "examples" / "tour.definition"
TREE = b"d 0755 0 0 /\nf 0644 0 0 6 /a\n"


class CommandLine(unittest.TestCase):
    """The words of the program's command line."""

    def test_words_that_the_program_takes_are_read(self):
        words = read_words(["run", "a=x", "--workers", "2", "b=y=z", "a=w"])
        self.assertEqual(words.sources, (Source("a", "x"), Source("b", "y=z"), Source("a", "w")))
        self.assertEqual((words.refused, words.names()), ("", ["a", "b", "a"]))
        session = read_words(["step", "--workers=4294967295", "d", "a=x"])
        self.assertEqual((session.file, session.sources, session.refused), ("d", (Source("a", "x"),), ""))
        for given in [
            [], ["show"], ["show", "--findings"], ["show", "--plan"], ["show", "--matches", "d"], ["show", "--ops"],
            ["show", "--agrees", "t", "--older", "a=x", "--older=b=y"], ["asm"], ["dis"], ["run"], ["step", "d"],
        ]:
            self.assertEqual(read_words(given).refused, "", given)
        for given in [["--help"], ["-V"], ["run", "--help"], ["step", "-h"]]:
            self.assertTrue(read_words(given).asks, given)

    def test_the_refused_word_is_named(self):
        for given, cause in [
            (["frob"], "the first word 'frob' is no command: run, show, step, asm or dis"),
            (["a=x"], "the first word 'a=x' is no command: run, show, step, asm or dis"),
            (["show", "x"], "'x' is one word too many: show takes none"),
            (["show", "a=x"], "'a=x' is one word too many: show takes none"),
            (["show", "--agrees", "t", "--older", "x"], "'x' has no `=`: a local source is given as NAME=FILE"),
            (["asm", "x"], "'x' is one word too many: asm takes none"),
            (["show", "--older", "a=x"], "show takes --agrees and --older together"),
            (["show", "--agrees", "t"], "show takes --agrees and --older together"),
            (["dis", "--workers", "2"], "'--workers' is no option of dis"),
            (["run", "--frob"], "'--frob' is no option of run"),
            (["run", "--findings"], "'--findings' is no option of run"),
            (["show", "--findings", "--findings"], "--findings is given twice"),
            (["show", "--findings=x"], "--findings takes no value"),
            (["show", "--matches"], "--matches has no file after it"),
            (["show", "--plan", "--findings"], "show takes one option: --findings or --plan"),
            (["run", "--workers"], "--workers has no number after it"),
            (["run", "--workers", "x"], "'x' after --workers is not a number below 2^32"),
            (["run", "--workers=4294967296"], "'4294967296' after --workers is not a number below 2^32"),
            (["run", "--workers", "1", "--workers", "1"], "--workers is given twice"),
            (["run", "a"], "'a' has no `=`: a local source is given as NAME=FILE"),
            (["step"], "step needs the FILE of a definition"),
            (["step", "d", "a"], "'a' has no `=`: a local source is given as NAME=FILE"),
        ]:
            self.assertEqual(read_words(given).refused, cause)


class Run(Folder):
    """Runs of the tool."""

    def program(self, text, status=2):
        """Writes a program that prints this text on standard error, and then its standard input on standard output."""
        lines = [base.FAKE_SHELL, f"printf '%s\\n' '{text}' >&2" if text else "true", "cat", f"exit {status}", ""]
        place = self.file(b"program", "\n".join(lines).encode())
        os.chmod(place, 0o755)
        return place

    def added(self, line, *words, text=b"", status=2):
        """Returns the last lines that the tool prints below a line of the program, after those of the page."""
        done = run("run", "--llbm", self.program(line, status), *words, text=text)
        first, *others = done.stderr.decode().splitlines()
        self.assertEqual((done.returncode, done.stdout, first), (status, text, line))
        self.assertTrue(all(other.startswith("  ") for other in others), others)
        return [other[2:] for other in others]

    def test_nothing_is_added_to_a_run_that_succeeds(self):
        done = run("run", "--llbm", self.program("", 0), "run", text=b"abc\xff")
        self.check_success(done, b"abc\xff")

    def test_a_session_at_a_terminal_says_what_it_reads(self):
        said = "llbm step reads a command on each line, as next, back, go or quit"
        line = f"{said}; {commands.shown('debug')} has a prompt\n".encode()
        ends, terminal = pty.openpty()
        try:
            os.write(ends, b"\x04")
            words = command("run", "--llbm", self.program("", 0), "step", "definition")
            done = subprocess.run(words, stdin=terminal, capture_output=True, timeout=base.GUARD)
            self.check_success(done, b"", line)
            os.write(ends, b"\x04")
            words = command("run", "--llbm", self.program("", 0), "run")
            self.check_success(subprocess.run(words, stdin=terminal, capture_output=True, timeout=base.GUARD), b"")
        finally:
            os.close(ends)
            os.close(terminal)
        self.check_success(run("run", "--llbm", self.program("", 0), "step", "definition"), b"")

    def test_the_word_that_is_refused_is_named(self):
        self.assertEqual(self.added("fault 183", "asm", "x")[0], "'x' is one word too many: asm takes none")

    def test_the_file_that_cannot_be_read_is_named(self):
        none, tree = os.fsdecode(self.place(b"none")), os.fsdecode(self.file(b"tree", TREE))
        lines = self.added("fault 181", "run", f"a={tree}", f"b={none}", status=3)
        self.assertEqual(lines[0], f"there is no such file or directory: {none} (the local source b)")
        lines = self.added("fault 181", "step", none, status=3)
        self.assertEqual(lines[0], f"there is no such file or directory: {none} (the definition)")

    def test_the_faulty_line_of_a_tree_is_shown(self):
        good, tree = self.file(b"good", b"d 0755 0 0 /\n"), self.file(b"tree", TREE)
        words = [f"a={os.fsdecode(good)}", f"b={os.fsdecode(tree)}"]
        cause = "not the text of a tree: the content is neither lower-case hexadecimal nor -"
        line = f"{cause}: {os.fsdecode(tree)}, line 2: f 0644 0 0 6 /a (the local source b)"
        self.assertEqual(self.added("fault 31 2", "run", *words)[0], line)

    def test_the_faulty_line_of_a_text_is_shown(self):
        self.assertEqual(self.added("fault 161 2 Syntax", "asm", text=b"op {\n}}\n")[0], "line 2: }}")

    def test_a_text_in_the_place_of_a_definition_is_named(self):
        line = "not the bytes of a definition but a text: {}; `llbm asm` makes a definition of a text of entries,"
        self.assertTrue(self.added("fault 81 4", "run", text=b"op {\n}\n")[0].startswith(line.format("standard input")))
        place = os.fsdecode(self.file(b"text", b"op {\n}\n"))
        self.assertTrue(self.added("fault 81 4", "step", place)[0].startswith(line.format(place)))
        self.assertTrue(self.added("fault 81 4", "run", text=b"\x00\xff")[0].startswith("81"))

    def test_all_missing_sources_are_named(self):
        one, two = base.source("local://a"), base.source("local://b")
        data = base.ending(one, two, base.merge(one, two))
        lines = self.added("fault 121 a", "run", "c=/dev/null", "c=/dev/null", text=data)
        self.assertEqual(lines[:3], [
            "without a tree: a (vertex 0), b (vertex 1)", "no local source has the name: c",
            "given twice, and the later one is used: c",
        ])

    def test_a_source_that_no_word_can_name_is_named(self):
        data = base.ending(base.source("local://a=b"))
        lines = self.added("fault 121 a=b", "run", text=data)
        self.assertEqual(lines[:2], [
            "without a tree: a=b (vertex 0)",
            f"no word NAME=FILE names it, and {commands.shown('adopt')} gives it another name: a=b",
        ])

    def test_names_that_the_program_passes_over_are_named_after_its_lines(self):
        data = base.ending(base.source("local://a"))
        notes = b"no local source has the name: b\ngiven twice, and the later one is used: a\n"
        for words in (["run"], ["run", "--workers", "2"], ["step", os.fsdecode(self.file(b"definition", data))]):
            done = run("run", "--llbm", self.program("", 0), *words, "a=x", "b=y", "a=z", text=data)
            self.check_success(done, data, notes)
        done = run("run", "--llbm", self.program("fault 31 1"), "run", "b=/dev/null", text=data)
        self.assertTrue(done.stderr.endswith(b"\nno local source has the name: b\n"), done.stderr)
        self.assertEqual(done.returncode, 2)

    def test_closed_input_is_closed_for_the_program(self):
        lines = [base.FAKE_PYTHON, "sys.exit(7 if sys.stdin is None else 8)", ""]
        place = self.file(b"program", "\n".join(lines).encode())
        os.chmod(place, 0o755)
        for words in (["run"], ["show"], ["step", "/none"]):
            self.assertEqual(run_closed(0, "run", "--llbm", place, *words).returncode, 7)

    def test_the_path_that_is_none_is_named(self):
        bad = "/" + "n" * 256
        data = base.ending(base.file_op(base.copy("/a", bad)))
        lines = self.added("failed 0 action 0 fault 26", "run", text=data, status=1)
        self.assertEqual(lines[-1], f"not a path: {bad!r}")
        self.assertIn(f"action 0: copy /a -> {bad}", lines)

    def test_a_page_of_the_program_is_printed_without_the_fault(self):
        program = self.program("fault 183\nUsage: llbm")
        for words in [("--help",), ("-V",), ("run", "--help")]:
            self.check_success(run("run", "--llbm", program, *words), b"Usage: llbm\n")
        done = run("run", "--llbm", program, "step", "-h")
        lines = done.stdout.decode().splitlines()
        self.assertEqual((done.returncode, lines[:3]), (0, ["Usage: llbm", "", "Commands on standard input:"]))
        self.assertEqual(lines[3:5], ["  next", "      Does the event that the program chooses."])

    def test_help_is_that_of_the_tool_and_needs_no_program(self):
        for word in ("-h", "--help"):
            done = run("run", word)
            self.assertEqual((done.returncode, done.stderr), (0, b""))
            usage = b"usage: llbm-tools run [--llbm PROGRAM] [--record FOLDER] [--no-filters] [WORD ...]\n"
            self.assertTrue(done.stdout.startswith(usage), done.stdout)
            self.assertIn(b"  asm   Writes the definition of the entries", done.stdout)

    def test_a_wrong_program_is_refused(self):
        for word, cause in [("/none", "there is no such program"), (self.folder, "not a program")]:
            done = run("run", "--llbm", word, "show")
            self.assertEqual((done.returncode, done.stdout), (2, b""))
            self.assertIn(f"{cause}: {os.fsdecode(word)}; --llbm PROGRAM before the other words".encode(), done.stderr)

    def test_input_that_is_closed_or_a_pipe_goes_to_the_program(self):
        self.assertEqual(run_closed(0, "run", "--llbm", self.program("fault 181", 3), "show").returncode, 3)
        with open(TOUR, "rb") as given:
            done = subprocess.run(
                command("run", "--llbm", self.program("", 0), "show"), stdin=given, capture_output=True,
                timeout=base.GUARD,
            )
        self.check_success(done, TOUR.read_bytes())

    def test_the_program_itself_is_explained(self):
        if base.llbm is None:
            self.skipTest("the program llbm is needed (--llbm PROGRAM)")
        data = TOUR.read_bytes()
        done = run("run", "--llbm", base.llbm, "run", "x=/dev/null", text=data)
        self.assertEqual((done.returncode, done.stdout, done.stderr.splitlines()[0]), (2, b"", b"fault 31 1"))
        done = run("run", "--llbm", base.llbm, text=data)
        self.assertEqual((done.returncode, done.stderr.splitlines()[0]), (2, b"fault 121 source"))
        self.assertEqual(done.stderr.splitlines()[1], b"  without a tree: source (vertex 0)")
        failing = base.ending(base.exec_op("cp", "/none", "/b"))
        done = run("run", "--llbm", base.llbm, "run", text=failing)
        lines = [b"failed 0 command 0 status 1", b"  command 0 (cp /none /b) failed: there is no file /none"]
        self.assertEqual((done.returncode, done.stderr.splitlines()[:2]), (1, lines))
        failing = base.ending(base.file_op(base.number(1, -1) + base.rm("/none")))
        done = run("run", "--llbm", base.llbm, "run", text=failing)
        self.assertIn(b"\n  action 0 (rm /none) failed: nothing is at /none\n", done.stderr)
