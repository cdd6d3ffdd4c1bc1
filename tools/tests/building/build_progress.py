"""Tests of `build --progress`, with a fake program in place of llbm."""

import signal
import subprocess
import unittest

from llbm_tools.building import progress
from tests import base
from tests.base import command, part, run
from tests.building.building import Builds

FAKE = f"""{base.FAKE_PYTHON}
import os, signal, time
words = [word.partition("=")[0] if "=" in word else word for word in sys.argv[1:]]
with open("given", "a") as file:
    file.write(" ".join(words[:1] + words[2:] if words[0] == "step" else words) + "\\n")
if sys.argv[1] != "step":
    sys.exit(77)
answers, unended = dict(next=[], go=[], graph=[open("shown").read().rstrip("\\n")]), []
exec(open("does").read())
for line in sys.stdin:
    with open("given", "a") as file:
        file.write(line)
    command = line.strip()
    if command in answers:
        if not answers[command]:
            sys.exit(0)
        sys.stdout.write(answers[command].pop(0) + "\\n")
    if command not in unended:
        sys.stdout.write("\\n")
    sys.stdout.flush()
"""

SHOWN = "0 source steps 1 outputs 1 inputs -\n1 file steps 1 outputs 2 inputs 0.0\nresult 1.1\n"
SOURCE = """
answers["next"] += ["1 claim 0 0 -> source 1", "4 claim 0 1 -> file 1", "end"]
answers["go"] += ["2 step 0 -> read\\n3 settle 0 -> 0 done\\nstop"]
"""
DONE = SOURCE + """
answers["go"] += ["5 step 0 -> acted 0\\n6 settle 0 -> 1 done\\nstop"]
answers["tree 1 1"] = ["d 0755 0 0 /\\nf 0640 0 0 6869 /a"]
"""
FAILED = SOURCE + """
answers["go"] += ["5 step 0 -> fault 0 21\\n6 settle 0 -> 1 failed\\nstop"]
answers["status"] = ["0 done\\n1 failed action 0 fault 21"]
"""
COMMANDS = "graph\nnext\nclear\nbreak settle 0\ngo\nnext\nclear\nbreak settle 1\ngo\nnext\n"


def named(entry, name):
    """Returns the record of a definition that gives a name to an entry."""
    description = part(2, part(1, "other") + part(2, "x")) + part(2, part(1, "llb.customname") + part(2, name))
    return part(2, part(1, base.digest(entry)) + part(2, description))


class Names(unittest.TestCase):
    """Names in a definition's metadata."""

    def setUp(self):
        self.one, self.two = base.source("local://a"), base.file_op(base.rm("/a"), on=[base.source("local://a")])
        self.given = base.ending(self.one, self.two)

    def test_names_are_found_by_vertex(self):
        self.assertEqual(progress.names_in(self.given), {})
        given = named(self.two, "second") + self.given + named(b"none", "none") + named(self.one, "first \N{BULLET}")
        self.assertEqual(progress.names_in(given), {0: "first \N{BULLET}", 1: "second"})

    def test_the_last_of_several_names_is_used(self):
        given = self.given + named(self.one, "old") + named(self.one, "new")
        self.assertEqual(progress.names_in(given), {0: "new"})

    def test_metadata_that_cannot_be_parsed_is_skipped(self):
        broken = part(2, part(1, base.digest(self.two)) + part(2, b"\x0a"))
        self.assertEqual(progress.names_in(self.given + named(self.one, "a") + broken), {0: "a"})
        self.assertEqual(progress.names_in(self.given + named(self.one, "a") + part(2, b"\x0a")), {0: "a"})
        for given in [b"\x0a", b"", b"\xff" * 20]:
            self.assertEqual(progress.names_in(given), {})

    def test_an_entry_can_have_no_name(self):
        metadata = part(2, part(1, base.digest(self.one)) + part(2, part(2, part(1, "llb.customname"))))
        self.assertEqual(progress.names_in(self.given + metadata), {})


class Progress(Builds):
    """Builds with progress, which run a session."""

    fake = FAKE

    def setUp(self):
        super().setUp()
        self.set_graph(SHOWN)

    def set_graph(self, text):
        """Sets the graph that the program shows."""
        (self.at / "shown").write_text(text)

    def check_nothing_is_left(self, also=()):
        """Checks that there is no result and no temporary file."""
        super().check_nothing_is_left({"shown", *also})

    def follow(self, *words):
        """Runs a build with progress."""
        return self.build("--progress", "definition", "out", *words)

    def test_there_is_a_line_for_each_vertex(self):
        self.make(b"a", b"a")
        self.set_behavior(DONE)
        self.file(b"definition", self.given + named(self.files, "copy\nit") + named(self.origin, "x" * 101))
        done = self.follow("src=in", "--workers", "3")
        self.assertEqual((done.returncode, done.stdout), (0, b""))
        lines = ["reading src from in", "left out: nothing", "running definition"]
        lines += [f"[1/2] vertex 0 source done: {'x' * 97}...", r"[2/2] vertex 1 file done: copy\nit"]
        self.assertEqual(done.stderr.decode().splitlines(), [*lines, "writing out", "out is written"])
        given = f"step --looks --ends --workers 3 src\n{COMMANDS}tree 1 1\n"
        self.assertEqual((self.at / "given").read_text(), given)
        self.assertEqual((self.at / "out/a").read_text(), "hi")
        self.check_nothing_is_left({"out"})

    def test_the_default_is_one_worker(self):
        self.set_behavior(DONE)
        self.assertEqual(self.follow().returncode, 0)
        self.assertIn("step --looks --ends --workers 1\n", (self.at / "given").read_text())

    def test_a_failure_is_reported_as_by_a_run(self):
        self.set_behavior(FAILED)
        words = ["failed", "1", "action", "0", "fault", "21"]
        explained = run("explain", "--definition", self.place(b"definition"), *words)
        meaning = [f"  {line}" for line in explained.stdout.decode().splitlines()]
        lines = ["running definition", "[1/2] vertex 0 source done", "[2/2] vertex 1 file failed"]
        self.check_end(self.follow(), 1, *lines, "failed 1 action 0 fault 21", *meaning, "nothing is written")
        # A second session, which finds out why, begins after the first one.
        self.assertIn(f"{COMMANDS}status\nstep ", (self.at / "given").read_text())

    def test_a_refusal_is_reported_as_by_a_run(self):
        self.set_graph("")
        for line, status in [("fault 121 src", 2), ("fault 83", 2), ("fault 123", 3)]:
            self.set_behavior(f'sys.stderr.write("{line}\\n")\nsys.exit({status})\n')
            explained = run("explain", "--definition", self.place(b"definition"), *line.split(" "))
            meaning = [f"  {text}" for text in explained.stdout.decode().splitlines()]
            meaning += ["  without a tree: src (vertex 0)"] * (line == "fault 121 src")
            self.check_end(self.follow(), status, "running definition", line, *meaning, "nothing is written")

    def test_a_session_that_ends_too_early_is_an_error(self):
        early = "the session ended before the result was out"
        self.set_behavior("sys.exit(0)")
        self.check_end(self.follow(), 3, "running definition", early)
        cut = 'sys.exit(sys.stdout.write("5 st") * 0) if line == "break settle 1\\n" else line'
        self.set_behavior(SOURCE + f"sys.stdin = ({cut} for line in sys.stdin)\n")
        self.check_end(self.follow(), 3, "running definition", "[1/2] vertex 0 source done", early)
        self.set_behavior(DONE + 'answers["tree 1 1"] = []\n')
        lines = ["[1/2] vertex 0 source done", "[2/2] vertex 1 file done"]
        self.check_end(self.follow(), 3, "running definition", *lines, early)
        self.set_behavior(DONE)
        self.set_graph("no graph")
        lines = ["[1/?] vertex 0 source done", "[2/?] vertex 1 file done"]
        self.check_end(self.follow(), 3, "running definition", *lines, early)

    def test_a_killed_session_has_the_status_of_its_signal(self):
        self.set_behavior("os.kill(os.getpid(), signal.SIGKILL)")
        self.check_end(self.follow(), 137, "running definition", "nothing is written")
        killed = 'sys.stdin = (line if line == "next\\n" else os.kill(os.getpid(), 9) for line in sys.stdin)'
        self.set_behavior(SOURCE + killed)
        self.check_end(self.follow(), 137, "running definition", "nothing is written")

    def test_an_unexpected_answer_is_an_error(self):
        explained = run("explain", "fault", "174").stdout.decode().splitlines()
        meaning = [f"  {line}" for line in explained]
        claim = 'answers["next"] += ["1 claim 0 0 -> source 1"]\n'
        for does, lines in [
            ('answers["next"] += ["fault 174"]', ["fault 174", *meaning]),
            (claim + 'answers["go"] += ["fault 174"]', ["fault 174", *meaning]),
            (claim + 'answers["go"] += ["2 settle 0 -> 1 done\\nstop"]', ["stop"]),
        ]:
            self.set_behavior(does)
            end = "the session gave an unexpected answer"
            self.check_end(self.follow(), 3, "running definition", *lines, end)

    def test_a_result_that_is_not_a_tree_is_refused(self):
        self.set_behavior(DONE + 'answers["tree 1 1"] = ["none"]\n')
        done = self.follow()
        self.assertEqual(done.returncode, 2)
        line = b"neither d MODE UID GID PATH nor f MODE UID GID CONTENT PATH: line 1"
        self.assertEqual(done.stderr.splitlines()[-2:], [line, b"nothing is written"])
        self.check_nothing_is_left()

    def test_the_result_can_be_an_archive(self):
        self.set_behavior(DONE)
        done = self.build("--progress", "definition", "out.tar")
        self.assertEqual(done.returncode, 0)
        wanted = run("tar-of-tree", text=b"d 0755 0 0 /\nf 0640 0 0 6869 /a\n").stdout
        self.assertEqual((self.at / "out.tar").read_bytes(), wanted)
        self.check_nothing_is_left({"out.tar"})

    def test_an_interrupt_leaves_nothing(self):
        self.set_behavior(SOURCE + 'answers["go"], unended = ["2 step 0 -> read"], ["go"]\n')
        words = ["--llbm", self.llbm, "--progress", "definition", "out"]
        child = subprocess.Popen(command("build", *words), stderr=subprocess.PIPE, **self.settings)
        self.addCleanup(child.stderr.close)
        while not (self.at / "given").exists() or "go\n" not in (self.at / "given").read_text():
            self.assertIsNone(child.poll())
        child.send_signal(signal.SIGTERM)
        self.assertEqual(child.stderr.read(), b"running definition\ninterrupted: nothing is written\n")
        self.assertEqual(child.wait(base.GUARD), 128 + signal.SIGTERM)
        self.check_nothing_is_left()
