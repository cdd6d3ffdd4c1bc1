"""Tests of `debug`, the debugger at a prompt: what its commands print, and that the run stays exact."""

import importlib.util
import os
import pty
import select
import subprocess
import unittest

from tests import base
from tests.base import ROOT, Folder, run

TOUR, TREE = str(ROOT / "examples/tour.definition"), f"source={ROOT / 'examples/tour.tree'}"
FAILURE, EMPTY = str(ROOT / "examples/failure/definition.text"), f"empty={ROOT / 'examples/failure/empty.tree'}"
DOCKERFILE = ROOT / "examples/from-buildkit/dockerfile"


class Prompt(Folder):
    """A debugger whose commands come from a text."""

    def setUp(self):
        if base.llbm is None:
            raise unittest.SkipTest("the program llbm is needed (--llbm PROGRAM)")
        super().setUp()

    def lines(self, *commands, given=(TOUR, TREE)):
        """Returns what the commands print, line by line, without the line at the beginning."""
        text = "".join(f"{command}\n" for command in commands).encode()
        done = run("debug", "--llbm", base.llbm, *given, text=text)
        self.assertEqual((done.returncode, done.stderr), (0, b""))
        return done.stdout.decode().splitlines()[1:]


class Moving(Prompt):
    """Forwards and backwards."""

    def test_each_event_is_in_words(self):
        self.assertEqual(self.lines("next 6"), [
            "1 claim 0: 0 source: local://source", "2 step 0: vertex 0 reads the local source",
            "3 settle 0: vertex 0 done", "4 claim 0: 1 file: mkdir /out", "5 step 0: vertex 1 action 0: mkdir /out",
            "6 settle 0: vertex 1 done",
        ])

    def test_an_empty_line_moves_on(self):
        self.assertEqual(self.lines("next", "where", "", "")[2:], [
            "2 step 0: vertex 0 reads the local source", "3 settle 0: vertex 0 done",
        ])

    def test_the_way_back_ends_at_the_beginning(self):
        lines = self.lines("next 3", "back 2", "back 9", "back")
        self.assertEqual(lines[3:], ["back 2", "back 1", "back 0", "the run is at its beginning"])

    def test_the_end_has_the_result(self):
        self.assertEqual(self.lines("go"), ["the run is complete after 14 events, with the result 2.0"])

    def test_workers_do_their_own_events(self):
        lines = self.lines("step 1", "step", "finish 1", "where", given=(TOUR, TREE, "--workers", "2"))
        self.assertEqual(lines, [
            "1 claim 1: 0 source: local://source", "2 claim 0: 1 file: mkdir /out",
            "3 step 1: vertex 0 reads the local source", "4 settle 1: vertex 0 done",
            "worker 0: 1 file: mkdir /out, 0 of 1 steps", "worker 1: idle",
        ])

    def test_events_of_a_session_can_be_done(self):
        lines = self.lines("do claim 0 1", "do cancel 0", "do step 7", "do next")
        self.assertEqual(lines[:3], [
            "1 claim 0: 1 file: mkdir /out", "2 cancel 0: vertex 1 is given up", "fault 171 131",
        ])
        self.assertEqual(lines[-1], "this is none of claim W V, step W, settle W and cancel W")


class Stopping(Prompt):
    """Breakpoints."""

    def test_a_vertex_stops_the_run_both_ways(self):
        lines = self.lines("break 2", "go", "go", "rewind", "rewind")
        claimed = lines[1]
        self.assertEqual(claimed.split(": ")[0], "7 claim 0")
        self.assertEqual(lines[2:], [
            "stopped: claim of vertex 2", "the run is complete after 14 events, with the result 2.0", claimed,
            "stopped: claim of vertex 2", "stopped: the beginning of the run",
        ])

    def test_a_settle_stops_the_run(self):
        lines = self.lines("break 1 settle", "go")
        self.assertEqual(lines[1:], ["6 settle 0: vertex 1 done", "stopped: settle of vertex 1"])

    def test_a_path_stops_the_run_where_it_changes(self):
        lines = self.lines("break path /out/bin/all", "go", "go", "go", "rewind", "rewind")
        stops = [line for line in lines if line.startswith("stopped: ")]
        made = "stopped: mount /: added /out/bin/all: file 0644 0:0, text of 13 bytes: hello,\\nworld\\n"
        changed = "stopped: mount /: changed /out/bin/all: mode 0644 -> 0444"
        self.assertEqual(stops, [made, changed, changed, made])

    def test_a_line_of_a_dockerfile_stops_the_run(self):
        given = (str(DOCKERFILE / "definition"), f"context={DOCKERFILE / 'context.tree'}")
        commands = ["break line Dockerfile:4", "go", "break line Dockerfile:99", "break line none:1"]
        lines = self.lines(*commands, given=given)
        self.assertEqual(lines[0], "breakpoint 1: line Dockerfile:4 (vertex 3)")
        self.assertTrue(lines[1].endswith("RUN mkdir -p out && concat out/all one two (Dockerfile:4)"), lines[1])
        self.assertEqual(lines[3:], [
            "no entry comes from this line", "the definition was not made from none, but from Dockerfile",
        ])

    def test_breakpoints_are_listed_and_removed(self):
        lines = self.lines("break", "break 1", "break path /a", "delete 1", "break", "delete 1", "go")
        self.assertEqual(lines, [
            "there are no breakpoints", "breakpoint 1: 1 (vertex 1)", "breakpoint 2: path /a", "breakpoint 2: path /a",
            "there is no breakpoint 1", "the run is complete after 14 events, with the result 2.0",
        ])

    def test_a_failure_stops_the_run(self):
        why = "command 1 (cp /none /b) failed: there is no file /none"
        lines = self.lines("break failures", "go", "why", "go", given=(FAILURE, EMPTY))
        self.assertEqual(lines[1:3], [f"7 settle 0: vertex 1 failed: {why}", "stopped: vertex 1 failed"])
        self.assertTrue(lines[3].endswith(f": {why}"), lines[3])
        self.assertTrue(lines[4].endswith(f"failed: {why}"), lines[4])


class Looking(Prompt):
    """What is shown of a run that has stopped."""

    def test_a_difference_has_its_paths(self):
        self.assertEqual(self.lines("diff", "next 5", "diff")[0], "the run is at its beginning")
        self.assertEqual(self.lines("next 5", "diff")[5:], [
            "action 0: mkdir /out", "  result 0: added /out: directory 0755 0:0",
        ])

    def test_a_path_has_its_events(self):
        lines = self.lines("break path /out/bin/all", "go", "who /out/bin", "who /none", "who")
        self.assertEqual(lines[3:], [
            "9 step 0: vertex 2 command 1: concat bin/all /src/head /src/tail",
            "  mount /: added /out/bin/all: file 0644 0:0, text of 13 bytes: hello,\\nworld\\n",
            "8 step 0: vertex 2 command 0: mkdir -p bin", "  mount /: added /out/bin: directory 0755 0:0",
            "no step so far changed what is at /none", "who PATH: the path is missing",
        ])

    def test_a_tree_has_all_entries(self):
        trees = ["tree 0.0", "tree 2.0:/out/bin/all", "tree 2.0:/none", "tree 9"]
        lines = self.lines("go", *trees, "print 0.0:/text/head")
        self.assertEqual(lines[1:5], [
            "/  0755 0:0, 1 name", "/text/  0755 0:0, 2 names", "/text/head  0644 0:0, text of 7 bytes: hello,\\n",
            "/text/tail  0644 0:0, text of 6 bytes: world\\n",
        ])
        self.assertEqual(lines[5:8], [
            "/out/bin/all  0444 0:0, text of 13 bytes: hello,\\nworld\\n", "nothing is at /none",
            "tree TREE: V.I:/path, work W I:/path or cache K I:/path",
        ])
        self.assertEqual(lines[8:], ["text of 7 bytes:", "hello,", ""])

    def test_the_text_of_an_entry_has_the_next_step(self):
        lines = self.lines("next 4", "list")[4:]
        self.assertEqual([line.strip() for line in lines if line.startswith(">")][0].split()[-2:], ["actions", "{"])

    def test_a_command_is_tried_and_changes_nothing(self):
        lines = self.lines("next 8", "tree work 0 0", "try append /out/x hi && cp /out/none /b", "tree work 0 0", "go")
        before, after = lines[8:11], lines[-4:-1]
        self.assertEqual(before, after)
        self.assertEqual(lines[11:-4], [
            "command 0: append /out/x hi", "  mount /: added /out/x: file 0644 0:0, text of 3 bytes: hi\\n",
            "command 1 (cp /out/none /b) failed: there is no file /out/none",
        ])
        self.assertEqual(lines[-1], "the run is complete after 14 events, with the result 2.0")

    def test_a_command_is_tried_on_an_output(self):
        lines = self.lines("next 6", "try mkdir /out/a", "try gzip a")
        self.assertEqual(lines[6:8], ["command 0: mkdir /out/a", "  mount /: added /out/a: directory 0755 0:0"])
        self.assertIn("fault 89", lines[8])

    def test_the_cause_of_what_did_not_fail_is_refused(self):
        self.assertEqual(self.lines("why", "next", "why 1")[0], "no vertex has failed")
        self.assertIn("vertex 0 has not failed: it is done", self.lines("go", "why 0", given=(FAILURE, EMPTY)))


class Refusals(Prompt):
    """What is refused."""

    def test_unknown_words_are_refused(self):
        self.assertEqual(self.lines("jump", "next x", "step 9", "break none", "delete x", "tree 0.0"), [
            "the command jump is not known; help prints all", "not a number: x", "there is no worker 9",
            "no vertex has the name, the digest, the number or the label 'none'", "not a number: x",
            "there is no tree tree 0 0 now",
        ])

    def test_every_command_of_the_help_is_known(self):
        words = [line.split()[0] for line in self.lines("help") if line.startswith("  ")]
        self.assertGreater(len(words), 20)
        for word in {word.rstrip(",") for word in words} - {"quit"}:
            self.assertNotIn("is not known", "".join(self.lines(word)), word)

    def test_what_can_not_be_launched_is_refused(self):
        for given, cause in [((TOUR,), "fault 121"), (("/none",), "/none"), (("-",), "has to be in a file")]:
            done = run("debug", "--llbm", base.llbm, *given, text=b"next\n")
            self.assertEqual((done.returncode, done.stdout), (2, b""))
            self.assertIn(cause, done.stderr.decode())


class Terminals(Prompt):
    """A prompt at a terminal."""

    def started(self):
        """Starts a debugger at a terminal, and returns the end of it, once the prompt is there, and the process."""
        master, slave = pty.openpty()
        command = base.command("debug", "--llbm", base.llbm, TOUR, TREE)
        child = subprocess.Popen(command, stdin=slave, stdout=slave, stderr=subprocess.PIPE, close_fds=True)
        os.close(slave)
        self.addCleanup(os.close, master)
        self.addCleanup(child.stderr.close)
        self.read_to(master, b"(llbm) ")
        return master, child

    def test_a_terminal_has_a_prompt(self):
        master, child = self.started()
        os.write(master, b"next\n")
        self.read_to(master, b"local://source\r\n(llbm) ")
        os.write(master, b"quit\n")
        self.assertEqual(child.wait(base.GUARD), 0)

    @unittest.skipUnless(importlib.util.find_spec("readline"), "there is no readline")
    def test_commands_and_paths_are_completed(self):
        master, child = self.started()
        os.write(master, b"ne\t 3\n")
        self.read_to(master, b"vertex 0 done\r\n(llbm) ")
        os.write(master, b"bre\tpa\t/text\n")
        self.read_to(master, b"breakpoint 1: path /text\r\n(llbm) ")
        os.write(master, b"tree 0.0:/te\th\t\n")
        self.read_to(master, b"tree 0.0:/text/head")
        os.write(master, b"quit\n")
        self.assertEqual(child.wait(base.GUARD), 0)

    def read_to(self, master, end):
        """Reads what the terminal shows up to these bytes."""
        shown = b""
        while end not in shown:
            if not select.select([master], [], [], base.GUARD)[0]:
                raise base.NoAnswer(f"waited {base.GUARD} s for {end!r} after {shown!r}")
            shown += os.read(master, 4096)
