"""Tests of how the program and the tools start: the script `llbm`, and the compiled modules that are kept."""

import os
import pathlib
import resource
import shutil
import subprocess
import sys
import tempfile
import unittest

from tests import base
from tests.base import IS_ROOT, ROOT, TOOLS, Folder

SHOWS = "#!/bin/sh\n[ $# = 0 ] || printf '%s;' {name} \"$@\"; cat; echo error >&2; exit {status}\n"
MAKES = """#!/bin/sh
echo made
cat
mkdir -p "${0%/*}/../out"
cp "$0.made" "${0%/*}/../out/llbm-unproved"
"""
AS_NOBODY = """
import importlib.machinery, os, stat, sys, types
os.setgroups([])
os.setgid(65534)
os.setuid(65534)
sys.path.insert(0, sys.argv[1])
from llbm_tools import word
print(word.WORD)
"""
PROVED, UNPROVED, MAKER = "crates/llbm/out/llbm", "out/llbm-unproved", "dev/dev"


class Script(Folder):
    """The script at the top of the repository, in a folder with programs that print their words and input."""

    def setUp(self):
        super().setUp()
        self.top = pathlib.Path(os.fsdecode(self.place(b"top")))
        self.top.mkdir()
        shutil.copy(ROOT / "llbm", self.top)

    def put(self, path, text):
        """Writes a script below the folder."""
        place = self.top / path
        place.parent.mkdir(parents=True, exist_ok=True)
        place.write_text(text, "utf-8")
        place.chmod(0o755)

    def put_program(self, path, name, status=0):
        """Writes a program with a name."""
        self.put(path, SHOWS.format(name=name, status=status))

    def run_it(self, *words, script=None, text=b"input", folder=None):
        """Runs the script with these words."""
        return subprocess.run(
            [script or self.top / "llbm", *words], input=text, capture_output=True, timeout=base.GUARD, cwd=folder
        )

    def test_the_proved_program_comes_first(self):
        self.put_program(UNPROVED, "unproved")
        self.put_program(PROVED, "proved")
        self.check_success(self.run_it("show"), b"proved;show;input", b"error\n")

    def test_words_input_and_status_are_those_of_the_program(self):
        self.put_program(UNPROVED, "unproved", 3)
        words = ["run", "a b", "", "*", "--workers", "2", "c=d"]
        self.check_run(self.run_it(*words), 3, b"unproved;run;a b;;*;--workers;2;c=d;input", b"error\n")
        self.check_run(self.run_it(), 3, b"input", b"error\n")

    def test_on_a_terminal_a_line_says_what_step_reads(self):
        self.put(UNPROVED, "#!/bin/sh\n")
        said = b"llbm step reads a command on each line, as next, back, go or quit; llbm-tools debug has a prompt\n"
        for word, lines in (("step", said), ("run", b"")):
            master, child = os.openpty()
            with open(master, "wb"), open(child, "rb") as terminal:
                words = [self.top / "llbm", word]
                done = subprocess.run(words, stdin=terminal, capture_output=True, timeout=base.GUARD)
            self.check_success(done, b"", lines)

    def test_it_is_found_through_a_link_and_from_every_folder(self):
        self.put_program(UNPROVED, "unproved")
        link = pathlib.Path(os.fsdecode(self.place(b"link")))
        link.symlink_to("top/llbm")
        output, errors = b"unproved;show;input", b"error\n"
        self.check_success(self.run_it("show", script=link), output, errors)
        self.check_success(self.run_it("show", script="./llbm", folder=self.top), output, errors)
        words = ["sh", "llbm", "show"]
        done = subprocess.run(words, input=b"input", capture_output=True, timeout=base.GUARD, cwd=self.top)
        self.check_success(done, output, errors)

    def test_a_program_is_made_if_there_is_none(self):
        self.put(MAKER, MAKES)
        self.put_program(f"{MAKER}.made", "unproved")
        said = b"llbm: there is no program yet; dev/dev unproved-program makes out/llbm-unproved, in about a minute\n"
        self.check_success(self.run_it("dis"), b"unproved;dis;input", said + b"made\nerror\n")
        self.check_success(self.run_it("dis"), b"unproved;dis;input", b"error\n")

    def test_the_status_of_a_program_that_is_not_made_is_passed_on(self):
        self.put(MAKER, "#!/bin/sh\necho cause >&2; exit 2\n")
        done = self.run_it("show")
        self.assertEqual((done.returncode, done.stdout, done.stderr.splitlines()[-1]), (2, b"", b"cause"))


class Kept(Folder):
    """Compiled modules, in a copy of the tools with a cache folder of its own."""

    def setUp(self):
        super().setUp()
        self.tools = pathlib.Path(os.fsdecode(self.place(b"tools")))
        self.modules = self.tools / "llbm_tools"
        self.modules.mkdir(parents=True)
        for name in ("__init__.py", "compiled.py"):
            shutil.copy(TOOLS / "llbm_tools" / name, self.modules)
        self.write_module("one")
        (self.tools / "tool").write_text("from llbm_tools import word\nprint(word.WORD)\n", "utf-8")
        self.cache = pathlib.Path(os.fsdecode(self.place(b"cache")))
        self.kept = self.cache / "llbm" / "compiled"

    def write_module(self, word):
        """Writes the module that the tool imports."""
        (self.modules / "word.py").write_text(f"WORD = {word!r}\n", "utf-8")

    def run_it(self, most=resource.RLIM_INFINITY, **settings):
        """Runs the tool, whose files may get so many bytes each, and returns what it prints and what Python says of the
        modules that it loads."""
        cache = {"XDG_CACHE_HOME": str(self.cache)}
        names = ("PYTHONDONTWRITEBYTECODE", "PYTHONPYCACHEPREFIX")
        settings = {**{name: value for name, value in os.environ.items() if name not in names}, **cache, **settings}
        done = subprocess.run(
            [sys.executable, "-S", "-v", self.tools / "tool"],
            capture_output=True, timeout=base.GUARD, env=settings, text=True,
            preexec_fn=lambda: resource.setrlimit(resource.RLIMIT_FSIZE, (most, resource.RLIM_INFINITY)),
        )  # fmt: skip
        self.assertEqual(done.returncode, 0, done.stderr)
        return done.stdout, done.stderr

    def compiled(self, folder):
        """Returns the names of the compiled modules below a folder."""
        return sorted(file.name.partition(".")[0] for file in folder.rglob("*.pyc"))

    def test_they_are_beside_the_tools_where_python_keeps_them(self):
        self.run_it()
        self.assertEqual(self.compiled(self.tools), ["__init__", "compiled", "word"])
        self.assertFalse(self.cache.exists())

    def test_they_are_in_the_cache_folder_where_python_keeps_none(self):
        for _ in range(2):
            printed, said = self.run_it(PYTHONDONTWRITEBYTECODE="1")
            self.assertEqual(printed, "one\n")
        self.assertRegex(said, r"word\.\S+\.pyc matches")
        self.assertEqual((self.compiled(self.kept), self.compiled(self.tools)), (["word"], []))

    @unittest.skipUnless(IS_ROOT, "only root can run the tool as another user")
    def test_they_are_in_the_cache_folder_if_the_tools_cannot_be_written(self):
        os.chmod(self.folder, 0o755)
        self.cache.mkdir()
        os.chown(self.cache, 65534, 65534)
        done = subprocess.run(
            [sys.executable, "-S", "-c", AS_NOBODY, self.tools], capture_output=True, timeout=base.GUARD,
            env={"XDG_CACHE_HOME": str(self.cache)},
        )
        self.check_success(done, b"one\n")
        self.assertEqual((self.compiled(self.kept), self.compiled(self.tools)), (["word"], []))

    def test_a_changed_module_is_compiled_again(self):
        self.run_it(PYTHONDONTWRITEBYTECODE="1")
        self.write_module("other")
        self.assertEqual(self.run_it(PYTHONDONTWRITEBYTECODE="1")[0], "other\n")

    def test_a_module_that_is_not_written_whole_is_not_kept(self):
        for settings in ({}, {"PYTHONDONTWRITEBYTECODE": "1"}):
            self.write_module("one")
            self.run_it(**settings)
            self.write_module("three")
            for most in (1, 100, resource.RLIM_INFINITY):
                self.assertEqual(self.run_it(most, **settings)[0], "three\n")
            folders = [file.parent for place in (self.tools, self.cache) for file in place.rglob("word.*.pyc")]
            for folder in folders:
                self.assertEqual([file.suffix for file in folder.glob("word.*")], [".pyc"])

    def test_a_folder_that_others_can_write_is_not_used(self):
        self.kept.mkdir(parents=True)
        self.kept.chmod(0o777)
        self.assertEqual(self.run_it(PYTHONDONTWRITEBYTECODE="1")[0], "one\n")
        self.assertEqual(self.compiled(self.cache), [])

    def test_a_place_that_is_set_for_all_modules_comes_first(self):
        place = os.fsdecode(self.place(b"place"))
        self.run_it(PYTHONPYCACHEPREFIX=place)
        self.assertIn("word", self.compiled(pathlib.Path(place)))
        self.assertFalse(self.cache.exists())


class Imports(unittest.TestCase):
    """What a command imports."""

    def imported(self, *words):
        """Returns the names of the modules that a tool imports."""
        done = base.run(*words, before=("-X", "importtime"))
        self.assertEqual(done.returncode, 0, done.stderr)
        return {line.rpartition("|")[2].strip() for line in done.stderr.decode().splitlines() if "import time:" in line}

    def test_what_is_not_needed_is_not_imported(self):
        slow = {"dataclasses", "inspect", "multiprocessing", "socket", "tarfile", "zipfile"}
        for name in ("build", "lint", "explain", "dump"):
            self.assertEqual(self.imported(name, "--help") & slow, set(), name)

    def test_a_small_build_does_not_import_what_others_need(self):
        if base.llbm is None:
            self.skipTest("the program llbm is needed (--llbm PROGRAM)")
        with tempfile.TemporaryDirectory() as folder:
            definition = ROOT / "examples" / "first-run.definition"
            found = self.imported("build", "--llbm", base.llbm, definition, f"{folder}/result")
        slow = {"dataclasses", "inspect", "multiprocessing", "socket", "zipfile"}
        self.assertEqual(found & {*slow, "llbm_tools.definitions.faults", "llbm_tools.images.oci_layout"}, set())
