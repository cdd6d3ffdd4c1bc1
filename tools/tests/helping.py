"""Tests of the two doors, of --help and --version of all commands, and of which program they run."""

import os
import re
import shutil
import subprocess
import unittest
from unittest import mock

from llbm_tools import commands, common
from tests import base
from tests.base import ROOT, TOOLS, Folder, run, run_closed, run_into

USERS = ROOT / "llbm-tools"
DOORS = {"llbm-tools": (USERS, commands.of_users()), "dev/dev": (ROOT / "dev" / "dev", commands.of_maintainers())}


class Words(unittest.TestCase):
    """Both go to standard output with status 0, and a write that fails is status 3."""

    def test_all_commands_have_both(self):
        for door, (_, known) in DOORS.items():
            for command in known:
                name = f"{door} {command.words}"
                for word, begin in [("--help", f"usage: {name} "), ("--version", f"{name}, of llbm 1.0, for ")]:
                    if (command.words, word) == ("run", "--version"):
                        continue
                    done = run(command.words, word)
                    self.assertEqual((done.returncode, done.stderr), (0, b""), (name, word))
                    shown = " ".join(done.stdout[:200].decode().split()) + " "
                    self.assertTrue(shown.startswith(begin), (name, word, shown))

    def at(self, door, *words):
        """Runs a door."""
        return subprocess.run([door, *words], capture_output=True, text=True, timeout=base.GUARD)

    def test_the_doors_have_both(self):
        for name, (door, known) in DOORS.items():
            for word in ("--help", "-h", "help"):
                done = self.at(door, word)
                self.assertEqual((done.returncode, done.stderr), (0, ""))
                for command in known:
                    self.assertRegex(done.stdout, f"(?m)^  {command.words} +{re.escape(command.about)}$")
            self.assertTrue(self.at(door, "--version").stdout.startswith(f"{name}, of llbm 1.0, for "))

    def test_help_of_a_command_and_of_a_word_with_which_several_begin(self):
        done = [self.at(USERS, *words) for words in (["help", "tree", "from", "tar"], ["tree", "from", "tar", "-h"])]
        self.assertEqual(done[0].stdout, done[1].stdout)
        done = self.at(USERS, "tree", "--help")
        self.assertEqual((done.returncode, done.stderr), (0, ""))
        self.assertIn("  tree to tar  ", done.stdout)
        self.assertNotIn("explain", done.stdout)

    def test_what_is_no_command_is_refused(self):
        usage = "usage: llbm-tools COMMAND [WORD ..]; llbm-tools --help prints the commands\n"
        for words, cause in [
            ([], "a command is missing: llbm-tools .."),
            (["tree", "from"], "a command is missing: llbm-tools tree from .."),
            (["nosuch", "x"], "there is no such command: nosuch"),
            (["tree", "of"], "there is no such command: tree of"),
            (["tree", "form", "tar"], "there is no such command: tree form"),
            (["buidl"], "there is no such command: buidl; there is: build"),
            (["tree-of-tar"], "there is no such command: tree-of-tar; it is now: tree from tar"),
            (["gate", "x"], "there is no such command: gate; it is one of dev/dev"),
        ]:
            done = self.at(USERS, *words)
            self.assertEqual((done.returncode, done.stdout, done.stderr), (2, "", f"{usage}{cause}\n"), words)

    def test_each_old_name_starts_its_command(self):
        files = {place.name: place for place in TOOLS.iterdir() if place.is_file()}
        self.assertEqual({command.old for command in commands.of_all()}, set(files))
        self.assertEqual(len({place.read_bytes() for place in files.values()}), 1)
        for name in ("tree-of-tar", "json-of-show", "daemon-suite", "lint"):
            self.assertTrue(self.at(files[name], "--help").stdout.startswith(f"usage: {name} "), name)

    def test_a_hint_has_the_name_by_which_the_tools_are_called(self):
        installed, path = ["/opt/bin/llbm-build", "/opt/bin/llbm-tools"], os.environ["PATH"]
        for started, on_path, hint in [
            (str(USERS), "/bin", f"{USERS} adopt"), (str(USERS), str(ROOT), "llbm-tools adopt"),
            (installed[0], path, "/opt/bin/llbm-adopt"), (installed[1], path, "/opt/bin/llbm-tools adopt"),
        ]:
            with mock.patch.object(commands, "started_as", started), mock.patch.dict(os.environ, PATH=on_path):
                with mock.patch.object(os, "getcwd", lambda: "/usr"):
                    self.assertEqual(commands.shown("adopt"), hint)

    def test_what_can_not_be_written_is_a_failure(self):
        for tool in ("lint", "build", "check", "gate", "debug adapter"):
            for word, what in [("--help", b"the help"), ("--version", b"the version")]:
                with open("/dev/full", "wb") as output:
                    done = run_into(output, tool, word)
                cause = what + b" could not be written: No space left on device\n"
                self.assertEqual((done.returncode, done.stderr), (3, cause), tool)
                done = run_closed(1, tool, word)
                cause = what + b" could not be written: standard output is closed\n"
                self.assertEqual((done.returncode, done.stderr), (3, cause), tool)

    def test_run_prints_the_version_of_its_program(self):
        if base.llbm is None:
            self.skipTest("the program llbm is needed (--llbm PROGRAM)")
        done = run("run", "--version")
        self.assertEqual((done.returncode, done.stderr), (0, b""))
        self.assertTrue(done.stdout.startswith(b"llbm 1.0, "))
        with open("/dev/full", "wb") as output:
            done = run_into(output, "run", "--version")
        cause = b"the version could not be written: No space left on device\n"
        self.assertEqual((done.returncode, done.stderr), (3, cause))

    def test_a_reader_that_leaves_is_no_cause_for_words(self):
        done = subprocess.run(
            f"{USERS} build --help | head -n 0; exit ${{PIPESTATUS[0]}}", shell=True, executable="/bin/bash",
            capture_output=True, timeout=base.GUARD,
        )  # fmt: skip
        self.assertIn((done.returncode, done.stderr), [(0, b""), (3, b"")])


class Programs(Folder):
    """The program that is named comes first, then that of the variable LLBM, then that of the folder, then PATH's."""

    def place(self, word, **environment):
        """Returns the place of the program with a word and an environment."""
        script = f"from llbm_tools import common; print(common.program_place({word!r}))"
        known = {**{name: value for name, value in os.environ.items() if name != "LLBM"}, **environment}
        command = [shutil.which("python3") or "python3", "-c", script]
        done = subprocess.run(command, cwd=TOOLS, env=known, capture_output=True, text=True, timeout=base.GUARD)
        self.assertEqual((done.returncode, done.stderr), (0, ""))
        return done.stdout.strip()

    def test_the_order_of_places(self):
        self.assertEqual(self.place("/a", LLBM="/b"), "/a")
        self.assertEqual(self.place(None, LLBM="/b"), "/b")
        self.assertEqual(self.place(None), self.place(None, LLBM=""))

    def test_a_program_that_is_named_by_the_variable_is_not_told_to_be_unproved(self):
        fake = os.path.join(os.fsdecode(self.folder), "llbm")
        with open(fake, "w", encoding="utf-8") as file:
            file.write(f"#!/bin/sh\necho 'llbm 1.0, {common.NOT_PROVED} Rattle' >&2; exit 2\n")
        os.chmod(fake, 0o755)
        done = run("run", "show", env={**os.environ, "LLBM": fake})
        self.assertNotIn(b"the program is not proved", done.stderr)
        self.assertIn(b"llbm 1.0", done.stderr)
