"""Tests that small definitions of large trees take neither the memory of the daemon nor what other builds need."""

import re
import signal
import subprocess

from llbm_tools.llb.messages import definition_of, edge, encoded, made
from llbm_tools.measuring import large_definition
from llbm_tools.measuring.large_definition import file_op, mkfile
from tests import base
from tests.daemon import daemon_clients

# What the daemon may take, in kB: the kernel counts the most of it (VmHWM). Each of these takes 30 to 50 MB.
MOST = 200_000
BESIDE = 20
WIDE = 1000


def ending(entries):
    """Returns the definition whose result is the last entry."""
    return definition_of([*entries, encoded(made("Op", inputs=(edge(entries[-1]),)))])


def merges(width, depth):
    """Returns merges of merges, each of which names the one before many times."""
    entries = [file_op([], mkfile("/f", b""))]
    for _ in range(depth):
        entries.append(large_definition.merge(entries[-1:] * width))
    return ending(entries)


def copy(dest, on, output):
    """Returns the action that copies the first input into a new directory."""
    values = made("FileActionCopy", src="/", dest=dest, mode=-1, createDestPath=True, timestamp=-1)
    return made("FileAction", input=on, secondaryInput=0, output=output, copy=values)


def doubled(times):
    """Returns file ops that each copy the tree before twice."""
    entries = [file_op([], mkfile("/f", b""))]
    for _ in range(times):
        entries.append(file_op(entries[-1:], copy("/a", -1, -1), copy("/b", 1, 0)))
    return ending(entries)


def chain(count, path="/f"):
    """Returns file ops that each make a file on the one before, of one path or of paths of their own."""
    entries = []
    for number in range(count):
        action = mkfile(path.format(number), b"%d" % number, on=0 if number else -1)
        entries.append(file_op(entries[-1:], action))
    return ending(entries)


def layers(count):
    """Returns merges of many trees, each a change of one tree with many files."""
    files = [mkfile(f"/f{number}", b"", on=number - 1, output=-1) for number in range(count)]
    base = file_op([], *files, mkfile("/last", b"", on=count - 1))
    entries = [base, *(file_op([base], mkfile(f"/f{number}", b"x", on=0)) for number in range(count))]
    entries.append(large_definition.merge(entries[1:]))
    entries.append(large_definition.merge(entries[-1:] * WIDE))
    return ending(entries)


class Hostile(daemon_clients.WithDaemon):
    """Definitions that stand for much, with other builds beside."""

    def most(self):
        """Returns the most memory that the daemon had, in kB."""
        with open(f"/proc/{self.process}/status", encoding="ascii") as status:
            return int(re.search(r"^VmHWM:\s+(\d+) kB$", status.read(), re.M)[1])

    def start(self, definition):
        """Starts a build."""
        line = [self.programs["buildctl"], "--addr", self.address, "build", "--progress=plain"]
        build = subprocess.Popen(line, stdin=subprocess.PIPE, stdout=subprocess.DEVNULL, stderr=subprocess.PIPE)
        self.addCleanup(build.stderr.close)
        self.addCleanup(build.kill)
        build.stdin.write(definition)
        build.stdin.close()
        return build

    def beside(self, definition):
        """Starts a build, and returns it after others, each of which has to end well."""
        hostile = self.start(definition)
        for number in range(BESIDE):
            done = self.client("build", "--progress=plain", given=chain(2, f"/{number}-{{}}"))
            self.assertEqual(done.returncode, 0, done.stderr)
        return hostile

    def test_what_llbm_builds_takes_little_of_the_daemon(self):
        for definition in (
            merges(WIDE, 3), merges(100, 4), merges(2, 40), doubled(4), chain(2000), chain(500, "/f{}"), layers(200)
        ):  # fmt: skip
            with self.daemon():
                hostile = self.beside(definition)
                printed = hostile.stderr.read()
                self.assertEqual(hostile.wait(), 0, printed[-500:])
                self.assertLess(self.most(), MOST)

    def test_what_has_no_end_takes_little_of_the_daemon_and_ends_with_its_client(self):
        with self.daemon():
            hostile = self.beside(doubled(40))
            base.wait_until(lambda: daemon_clients.children_of(self.process), "the program")
            hostile.send_signal(signal.SIGKILL)
            hostile.wait()
            base.wait_until(lambda: not daemon_clients.children_of(self.process), "the end of the program")
            self.assertLess(self.most(), MOST)
