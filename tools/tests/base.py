"""What the tests share: runs of the tools, temporary folders, and definitions that are made for a test."""

import hashlib
import os
import pathlib
import subprocess
import sys
import tempfile
import time
import unittest

from llbm_tools import commands, common
from llbm_tools.rules import rules_program
from tests import forking

TOOLS = pathlib.Path(__file__).resolve().parent.parent
ROOT = TOOLS.parent
IS_ROOT = os.geteuid() == 0

AS_NOBODY = f"""
import argparse, ctypes, hashlib, importlib, os, platform, sys, tempfile
sys.argv = sys.argv[1:]
sys.path.insert(0, {str(TOOLS)!r})
from llbm_tools import commands, doors
for module in (doors.found(commands.of_all(), sys.argv[1:])[0].module, "building.one_build", "trees.archived_sources"):
    importlib.import_module(f"llbm_tools.{{module}}")
argparse.ArgumentParser().format_help()
os.setgroups([])
os.setgid(65534)
os.setuid(65534)
sys.exit(doors.main())
"""

# The begin of a fake program, in two languages: by its version it is llbm, and it plans as the program does.
FAKE_SHELL = """#!/bin/sh
[ "$*" = --version ] && { echo 'llbm 1.0, a fake' >&2; exit 2; }
[ "$*" = 'show --plan' ] && exec "$LLBM" show --plan
"""
FAKE_PYTHON = f"""#!{sys.executable}
import os, sys
if sys.argv[1:] == ["--version"]:
    sys.exit("llbm 1.0, a fake")
if sys.argv[1:2] == ["show"] and sys.argv[2:3] in (["--plan"], ["--matches"], ["--findings"]):
    os.execv(os.environ["LLBM"], sys.argv)
"""

# How many seconds a program that a test waits for may take: more than ten times what any takes on a slow host. No test
# asserts how long something takes; where this is over, the test has got no answer.
GUARD = 3000
PAUSE = 0.02

runs = 0
llbm: str | None = None


class NoAnswer(Exception):
    """What a test waits for is not there when its time is over."""


def wait_until(is_so, what):
    """Waits until something is so; `what` says for what."""
    end = time.monotonic() + GUARD
    while not is_so():
        if time.monotonic() > end:
            raise NoAnswer(f"waited {GUARD} s for {what}")
        time.sleep(PAUSE)


def command(tool, *words, before=()):
    """Returns the line that runs a command, by its words or by its old name, without site packages; counts the run."""
    global runs
    runs += 1
    old = commands.old_name(tool)
    python, *line = commands.line_of(old.words if old else tool, *words)
    return [python, "-S", *before, *line]


def run(tool, *words, text=b"", before=(), **settings):
    """Runs a tool with these words, and this text on standard input."""
    line = command(tool, *words, before=before)
    if not before and settings.keys() <= {"env", "cwd"} and (done := forking.run(line[2:], text, GUARD, **settings)):
        return done
    return subprocess.run(line, input=text, capture_output=True, timeout=GUARD, **settings)


def run_into(output, tool, *words):
    """Runs a tool with an open file as its standard output."""
    return subprocess.run(command(tool, *words), stdout=output, stderr=subprocess.PIPE, timeout=GUARD)


def run_closed(descriptor, tool, *words):
    """Runs a tool with a closed standard stream."""
    return subprocess.run(
        command(tool, *words), capture_output=True, timeout=GUARD, preexec_fn=lambda: os.close(descriptor)
    )


def skip_without_rules(case):
    """Skips a test that needs the program with BuildKit's rules, which Go builds from packages."""
    try:
        rules_program.place()
    except rules_program.Missing:
        case.skipTest("the program llbm-rules is needed (dev/dev daemon builds it)")


def is_slow():
    """Returns whether the program is compiled without proof, and so without optimization."""
    return llbm is not None and common.is_unproved(llbm)


def skip_if_slow(case):
    """Skips a test that takes minutes with a program without proof."""
    if is_slow():
        case.skipTest("a program without proof is too slow")


def cases(most):
    """Returns how many of so many random cases are tried: with a program without proof a third."""
    return most // 3 if is_slow() else most


class Folder(unittest.TestCase):
    """A test with a temporary folder."""

    def setUp(self):
        holder = tempfile.TemporaryDirectory(prefix="tools-test-")
        self.addCleanup(holder.cleanup)
        self.folder = os.fsencode(holder.name)
        self.mine = b"%d %d" % (os.geteuid(), os.stat(self.folder).st_gid)

    def place(self, *names):
        """Returns the path of these names below the folder."""
        return os.path.join(self.folder, *names)

    def file(self, name, content):
        """Writes a file, and returns its path."""
        place = self.place(name)
        pathlib.Path(os.fsdecode(place)).write_bytes(content)
        return place

    def make(self, name, content=None, mode=None):
        """Makes a file with this content below `in`, or a directory for None."""
        place = self.place(b"in", name)
        os.makedirs(place if content is None else os.path.dirname(place), exist_ok=True)
        if content is not None:
            pathlib.Path(os.fsdecode(place)).write_bytes(content)
        os.chmod(place, mode or (0o755 if content is None else 0o644))

    def text(self, lines):
        """Returns the text of these lines; OWN is replaced by the owner of the files that the test makes."""
        return "".join(line + "\n" for line in lines).encode().replace(b"OWN", self.mine)

    def check_run(self, done, status, output, errors=b""):
        """Checks the exit status, the output, and the text on standard error of a run."""
        self.assertEqual((done.returncode, done.stderr), (status, errors))
        if done.stdout != output:
            self.fail(f"{done.stdout[:2000]} is not {output[:2000]}")

    def check_accepted(self, place):
        """Checks that `lint` finds no fault in a definition; there may be notes."""
        done = run("lint", place)
        self.assertEqual((done.returncode, done.stderr), (0, b""))
        self.assertFalse([line for line in done.stdout.splitlines() if not line.startswith(b"note ")])

    def check_success(self, done, output=b"", errors=b""):
        """Checks that the run ended with status 0, and its output."""
        self.check_run(done, 0, output, errors)

    def write(self, text, name=b"out", **settings):
        """Runs the tool that makes a directory of a text."""
        return run("directory-of-tree", self.place(name), text=text, **settings)

    def read(self, name=b"out", *words):
        """Runs the tool that makes a text of a directory."""
        return run("tree-of-directory", *words, self.place(name))


class WithProgram(Folder):
    """A test that needs the program, which all tools that it runs use too."""

    def setUp(self):
        if llbm is None:
            self.skipTest("the program llbm is needed (--llbm PROGRAM)")
        super().setUp()


class WithPrograms(Folder):
    """A test with shell programs."""

    def program(self, *lines):
        """Writes a shell program with these lines."""
        name = f"program-{len(os.listdir(self.folder))}"
        place = self.file(name.encode(), "\n".join([FAKE_SHELL, *lines, ""]).encode())
        os.chmod(place, 0o755)
        return os.fsdecode(place)


def varint(number):
    """Returns the varint of a number; a negative one has 64 bits."""
    number %= 1 << 64
    found = bytearray()
    while number > 127:
        found.append(number & 127 | 128)
        number >>= 7
    return bytes(found) + bytes([number])


def number(field, value):
    """Returns the record of a number."""
    return varint(field << 3) + varint(value)


def part(field, value):
    """Returns the record of a string, of bytes or of a message."""
    value = value.encode() if isinstance(value, str) else value
    return varint(field << 3 | 2) + varint(len(value)) + value


def digest(entry):
    """Returns the digest by which inputs name an entry."""
    return "sha256:" + hashlib.sha256(entry).hexdigest()


def inputs(*named):
    """Returns the inputs of an op: entries, or pairs of an entry and an output."""
    pairs = [one if isinstance(one, tuple) else (one, 0) for one in named]
    return b"".join(part(1, part(1, digest(entry)) + number(2, output)) for entry, output in pairs)


def source(identifier):
    """Returns a source op."""
    return part(3, part(1, identifier))


def file_op(*actions, on=()):
    """Returns a file op with these actions and inputs."""
    return inputs(*on) + part(4, b"".join(part(2, action) for action in actions))


def copy(src, dest):
    """Returns a copy."""
    return part(4, part(1, src) + part(2, dest))


def mkfile(path):
    """Returns a mkfile without content."""
    return number(1, -1) + part(5, part(1, path))


def mkdir(path):
    """Returns a mkdir."""
    return number(1, -1) + part(6, part(1, path))


def rm(path):
    """Returns an rm."""
    return part(7, part(1, path))


def exec_op(*args, on=()):
    """Returns an exec of these words on these inputs, with an empty tree at the root."""
    meta = part(1, b"".join(part(1, arg) for arg in args))
    return inputs(*on) + part(2, meta + part(2, number(1, -1) + part(3, "/")))


def merge(*on):
    """Returns a merge of these inputs."""
    return inputs(*on) + part(6, b"".join(part(1, number(1, place)) for place in range(len(on))))


def definition(*entries):
    """Returns a definition with these entries."""
    return b"".join(part(1, entry) for entry in entries)


def ending(*entries):
    """Returns a definition with these entries and a terminal; the last entry is the result."""
    return definition(*entries, inputs(entries[-1]))
