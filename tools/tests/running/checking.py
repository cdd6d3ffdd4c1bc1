"""Tests of `check`: cases in folders, what differs, and the forms of its output."""

import json
import os
import pathlib
import shutil
import unittest
from xml.etree import ElementTree

from tests import base
from tests.base import ROOT, Folder, run, run_into

CASES = ROOT / "examples" / "cases"
TREE = "d 0755 0 0 /\nd 0755 0 0 /app\nf 0644 7 0 68656c6c6f0a /app/a.txt\n"


class Check(Folder):
    """A copy of the cases that are stored as an example."""

    def setUp(self):
        if base.llbm is None:
            raise unittest.SkipTest("the program llbm is needed (--llbm PROGRAM)")
        super().setUp()
        self.cases = pathlib.Path(os.fsdecode(self.folder)) / "cases"
        shutil.copytree(CASES, self.cases)
        self.copied, self.missing = self.cases / "copied-with-an-owner", self.cases / "missing-file"

    def check(self, *words):
        """Runs the tool on the cases."""
        return run("check", "--llbm", base.llbm, self.cases, *words)

    def check_lines(self, status, lines, *words):
        """Runs the tool, and checks its status and its lines."""
        done = self.check(*words)
        self.assertEqual((done.returncode, done.stderr), (status, b""))
        self.assertEqual(done.stdout.decode().splitlines(), lines)


class Outcomes(Check):
    """What passes and what fails."""

    def test_stored_cases_pass(self):
        self.check_lines(0, ["2 passed, 0 failed"])

    def test_a_tree_that_is_otherwise_is_shown_path_by_path(self):
        (self.copied / "stdout").write_text(TREE.replace("0644 7 0", "0600 0 0") + "d 0755 0 0 /b\n")
        self.check_lines(1, [
            "failed copied-with-an-owner", "    changed mode 0600 -> 0644 owner 0:0 -> 7:0 /app/a.txt",
            "    removed directory mode 0755 owner 0:0 /b", "1 passed, 1 failed",
        ])

    def test_a_status_and_messages_that_are_otherwise_are_shown(self):
        (self.missing / "status").unlink()
        (self.missing / "stderr").write_text("failed 1 action 0 fault 22\n")
        self.check_lines(1, [
            "failed missing-file", "    status: 0 -> 1", "    stderr: -failed 1 action 0 fault 22",
            "    stderr: +failed 1 action 0 fault 21", "1 passed, 1 failed",
        ])

    def test_a_source_can_be_a_text_or_an_archive(self):
        text = run("tree-of-directory", "--owner", "0:0", self.copied / "context").stdout
        (self.copied / "context.tree").write_bytes(text)
        (self.copied / "context.tar").write_bytes(run("tar-of-tree", text=text).stdout)
        for name in ("context.tree", "context.tar"):
            (self.copied / "args").write_text(f"run\ncontext={name}\n")
            self.check_lines(0, ["1 passed, 0 failed"], "--only", "copied")

    def test_of_a_directory_filters_select(self):
        base.skip_without_rules(self)
        place = self.copied / "definition.text"
        filters = 'attrs {\n key "local.excludepatterns"\n value "[\\"src/a.txt\\"]"\n }\n'
        identifier = 'identifier "local://context"\n'
        place.write_text(place.read_text().replace(identifier, identifier + filters))
        done = self.check("--only", "copied")
        self.assertIn("    status: 0 -> 1", done.stdout.decode().splitlines())
        self.check_lines(0, ["1 passed, 0 failed"], "--only", "copied", "--no-filters")
        # Of a session the definition is in a file.
        assembled = run("run", "--llbm", base.llbm, "asm", text=place.read_bytes()).stdout
        (self.copied / "definition").write_bytes(assembled)
        (self.copied / "args").write_text("step\ndefinition\ncontext=context\n")
        (self.copied / "stdin").write_text("next\n" * 7)
        self.assertEqual(self.check("--update").returncode, 0)
        self.check_lines(0, ["1 passed, 0 failed"], "--only", "copied")
        self.assertEqual(self.check("--no-filters", "--only", "copied").returncode, 1)

    def test_a_definition_can_be_stored_as_bytes(self):
        shutil.copy(ROOT / "examples" / "tour.definition", self.copied / "stdin")
        (self.copied / "args").write_text("show\n")
        lines = ["0 source steps 1 outputs 1 inputs -", "1 file steps 1 outputs 1 inputs -"]
        lines += ["2 exec steps 6 outputs 1 inputs 1.0 0.0", "result 2.0", ""]
        (self.copied / "stdout").write_text("\n".join(lines))
        self.check_lines(0, ["2 passed, 0 failed"])

    def test_cases_are_chosen_by_their_paths(self):
        self.check_lines(0, ["1 passed, 0 failed"], "--only", "missing")


class Updates(Check):
    """New answers."""

    def test_an_answer_is_stored_and_then_passes(self):
        (self.copied / "stdout").unlink()
        (self.missing / "status").unlink()
        done = self.check("--update")
        self.assertEqual((done.returncode, done.stderr), (0, b""))
        self.assertEqual(done.stdout.decode().splitlines()[-1], "0 passed, 2 updated")
        self.assertEqual((self.copied / "stdout").read_text(), TREE)
        self.assertEqual((self.missing / "status").read_text(), "1\n")
        self.assertFalse((self.copied / "status").exists())
        self.check_lines(0, ["2 passed, 0 failed"])

    def test_nothing_is_written_without_a_difference(self):
        before = {file: file.stat().st_mtime_ns for file in self.cases.rglob("*")}
        self.check_lines(0, ["2 passed, 0 updated"], "--update")
        self.assertEqual({file: file.stat().st_mtime_ns for file in self.cases.rglob("*")}, before)


class Forms(Check):
    """JSON and XML."""

    def test_the_object_has_all_cases(self):
        (self.missing / "status").write_text("0\n")
        done = self.check("--json")
        found = json.loads(done.stdout)
        self.assertEqual((done.returncode, found["passed"], found["failed"], found["updated"]), (1, 1, 1, 0))
        self.assertEqual(found["cases"], [
            {"name": "copied-with-an-owner", "outcome": "passed", "lines": []},
            {"name": "missing-file", "outcome": "failed", "lines": ["status: 0 -> 1"]},
        ])

    def test_the_xml_has_all_cases(self):
        (self.missing / "status").write_text("0\n")
        place = self.place(b"cases.xml").decode()
        self.assertEqual(self.check("--junit", place).returncode, 1)
        suite = ElementTree.parse(place).getroot()
        self.assertEqual((suite.tag, suite.get("tests"), suite.get("failures")), ("testsuite", "2", "1"))
        cases = [(one.get("name"), [failure.text for failure in one]) for one in suite]
        self.assertEqual(cases, [("copied-with-an-owner", []), ("missing-file", ["status: 0 -> 1"])])


class Refusals(Check):
    """Cases that can't be run, and bad words."""

    def test_a_case_that_can_not_be_run_fails_with_its_cause(self):
        (self.copied / "definition.text").write_text("op {\n")
        (self.missing / "status").write_text("one\n")
        done = self.check()
        self.assertEqual((done.returncode, done.stderr), (1, b""))
        lines = done.stdout.decode().splitlines()
        self.assertRegex(lines[1], r"^    fault .* \(the text in definition\.text\)$")
        self.assertEqual(lines[2:], ["failed missing-file", "    status is not a number", "0 passed, 2 failed"])

    def test_a_source_that_can_not_be_read_fails_with_its_cause(self):
        (self.copied / "context.tar").write_bytes(b"no archive")
        (self.copied / "args").write_text("run\ncontext=context.tar\n")
        done = self.check()
        self.assertEqual(done.returncode, 1)
        self.assertIn(b"(the local source context)", done.stdout)

    def test_a_folder_without_cases_is_refused(self):
        self.check_run(run("check", "--llbm", base.llbm, "/none"), 2, b"", b"there is no such directory: /none\n")
        cause = b"there is no case, a folder with a file args, below: " + self.place(b"none") + b"\n"
        os.mkdir(self.place(b"none"))
        self.check_run(run("check", "--llbm", base.llbm, self.place(b"none")), 2, b"", cause)
        cause = b"there is no case, a folder with a file args whose path has the text 'nothing', below: "
        cause += self.folder + b"\n"
        self.check_run(run("check", "--llbm", base.llbm, self.folder, "--only", "nothing"), 2, b"", cause)
        self.assertEqual(run("check", "--jobs", "0", self.folder).returncode, 2)

    def test_an_output_that_can_not_be_written_is_a_failure(self):
        with open("/dev/full", "wb") as output:
            done = run_into(output, "check", "--llbm", base.llbm, self.cases)
        cause = b"the output could not be written: No space left on device\n"
        self.assertEqual((done.returncode, done.stderr), (3, cause))
        done = self.check("--junit", "/none/cases.xml")
        self.check_run(done, 2, b"", b"there is no such file or directory: /none/cases.xml\n")
