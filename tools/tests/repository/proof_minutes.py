"""Tests of `minutes`, with shell programs in place of `rt` and of the prover, and of how the gate prints its table."""

import contextlib
import io
import os
import re
import signal
import subprocess
import sys
import unittest
from unittest import mock

from llbm_tools.repository import minutes
from tests import base
from tests.base import ROOT, Folder, run
from tests.repository.gating import loaded

# What uses the processor for a while, as Python under the name of the prover runs it. If the environment has ENDS, a
# path, it then makes a file beside it, and ends when the path is there.
SPINS = b"""import os, sys, time
end = time.process_time() + 0.2
while time.process_time() < end:
    pass
ends = os.environ.get("ENDS")
while ends and not os.path.exists(ends):
    if not os.path.exists(f"{ends}-{os.getpid()}"):
        open(f"{ends}-{os.getpid()}", "x").close()
    time.sleep(0.01)
"""
RT = """#!/bin/sh
cd "$(dirname "$0")"
./rattle spins check --crate-name one src/lib.rt &
./rattle spins check --crate-name one src/lib.rt --test &
(cd held/rt-edit-7 && ../../rattle ../../spins check --crate-name two src/lib.rt) &
wait
echo "rt: all proved"
echo "5 passed, {failed} failed"
exit {status}
"""
LAST = re.compile(r"([0-9.]+) processor minutes, ([0-9.]+) on the clock with ([0-9]+) processors")


class Lines(unittest.TestCase):
    """What is read of a process, and how the table is printed."""

    def test_a_process_is_read_by_its_line(self):
        words = ["7", "(a) b (c)", "S", "3", *["0"] * 9, "250", "150", *["0"] * 6, "99", "0"]
        self.assertEqual(minutes.process_in(" ".join(words)), (3, "99", 400 / minutes.TICKS))

    def test_a_process_of_the_prover_works_on_a_crate(self):
        words = ["/kit/bin/rattle", "check", "--crate-name", "llb_tree", "src/lib.rt"]
        for given, folder, part in [
            (words, "/r/crates/llb_tree", ("llb_tree", "proof")),
            ([*words, "--test"], "/r/crates/llb_tree", ("llb_tree", "tests")),
            ([*words, "--test"], "/tmp/rt-edit-3/crates/llb_tree", ("llb_tree", "edits")),
            (["/bin/sh", *words], "/r", ("(other)", "proof")), (words[:3], "/r", ("(other)", "proof")),
            ([], "/r", ("(other)", "proof")), (["rt", "ci"], "/r", ("(other)", "proof")),
        ]:
            self.assertEqual(minutes.part_of(given, folder), part)

    def test_all_processes_below_one_are_found(self):
        known = {number: minutes.Process(parent, "0", 0) for number, parent in [(1, 0), (5, 1), (6, 5), (7, 6), (8, 1)]}
        self.assertEqual(sorted(minutes.below([5], known)), [5, 6, 7])
        self.assertEqual(sorted(minutes.below([5, 6, 9], known)), [5, 6, 7])
        self.assertEqual(list(minutes.below([9], known)), [])

    def test_the_dearest_crate_is_the_first(self):
        row = dict.fromkeys(minutes.KINDS, 0.0)
        table = {"(other)": {**row, "proof": 0.25}, "a": {**row, "proof": 1.5, "edits": 2.0}}
        table["b"] = {**row, "tests": 4.0}
        with mock.patch("os.sched_getaffinity", return_value={0, 1}):
            lines = minutes.lines_of(table, 6.5)
        self.assertEqual(lines, [
            "crate            proof   tests   edits     sum   processor minutes",
            "b                  0.0     4.0     0.0     4.0",
            "a                  1.5     0.0     2.0     3.5",
            "(other)            0.2     0.0     0.0     0.2",
            "all                1.8     4.0     2.0     7.8",
            "7.8 processor minutes, 6.5 on the clock with 2 processors",
        ])

    def test_a_unit_is_the_proofs_of_eight_crates(self):
        table = {crate: {"proof": 0.5, "tests": 1.0, "edits": 2.5} for crate in minutes.UNIT}
        table["llb_board"] = {"proof": 4.0, "tests": 0.0, "edits": 2.0}
        self.assertEqual(minutes.units_of(table), ["9.5 units of 4.00 minutes"])
        for row in [{"proof": 0.0, "tests": 1.0, "edits": 1.0}, None]:
            lacks = {**table, "llb_mount": row} if row else {name: table[name] for name in table if name != "llb_mount"}
            self.assertEqual(minutes.units_of(lacks), [])


class Minutes(Folder):
    """The tool with programs."""

    def fake(self, status=0, failed=0):
        """Writes the programs, and returns the one in place of `rt`."""
        os.makedirs(self.place(b"held", b"rt-edit-7"), exist_ok=True)
        self.file(b"spins", SPINS)
        if not os.path.lexists(self.place(b"rattle")):
            os.symlink(os.path.realpath(sys.executable), self.place(b"rattle"))
        place = self.file(b"rt", RT.format(status=status, failed=failed).encode())
        os.chmod(place, 0o755)
        return os.fsdecode(place)

    def watched(self, program):
        """Looks at a run of a program when each process below it has used the processor, and returns the seconds by
        crate and kind."""
        ends = os.fsdecode(self.place(b"ends"))
        known = {**os.environ, "ENDS": ends}
        with subprocess.Popen([program, "ci"], stdout=subprocess.DEVNULL, env=known) as child:
            watch = minutes.Watch(child.pid)
            base.wait_until(lambda: sum(b"ends-" in name for name in os.listdir(self.folder)) == 3, "three processes")
            watch.look()
            self.file(b"ends", b"")
        return {(crate, kind): row[kind] * 60 for crate, row in watch.table().items() for kind in minutes.KINDS}

    def test_proofs_tests_and_edits_are_told_apart(self):
        seconds = self.watched(self.fake())
        for crate, kind, takes in [
            ("one", "proof", True), ("one", "tests", True), ("two", "edits", True), ("one", "edits", False),
            ("two", "proof", False), ("two", "tests", False),
        ]:
            self.assertEqual(seconds[crate, kind] > 0, takes, (crate, kind, seconds))

    def test_the_table_follows_on_the_output(self):
        for status in (0, 5):
            done = run("minutes", "--pause", "0.1", self.fake(status=status), "ci")
            self.assertEqual((done.returncode, done.stderr), (status, b""))
            proved, counts, *lines = done.stdout.decode().splitlines()
            self.assertEqual((proved, counts), ("rt: all proved", "5 passed, 0 failed"))
            self.assertEqual(lines[0].split(), ["crate", "proof", "tests", "edits", "sum", "processor", "minutes"])
            self.assertEqual(lines[-2].split()[0], "all")
            self.assertEqual(LAST.fullmatch(lines[-1])[1], lines[-2].split()[4])

    def test_a_command_that_a_signal_ends_or_that_is_missing(self):
        ends = self.file(b"ends", b"#!/bin/sh\nkill -9 $$\n")
        os.chmod(ends, 0o755)
        self.assertEqual(run("minutes", ends).returncode, 128 + signal.SIGKILL)
        self.check_run(run("minutes", "/none"), 2, b"", b"there is no such file or directory: /none\n")
        self.assertEqual(run("minutes", "--pause", "x", "/bin/true").returncode, 2)

    def test_an_interrupt_ends_the_command(self):
        child = subprocess.Popen(
            base.command("minutes", "sleep", "100000"), stdout=subprocess.DEVNULL, stderr=subprocess.DEVNULL
        )
        base.wait_until(lambda: child.pid in [one.parent for one in minutes.processes().values()], "the command")
        child.send_signal(signal.SIGTERM)
        self.assertEqual(child.wait(base.GUARD), 130)

    def gate(self, part, *changes):
        """Runs a part of the gate in which `rt ci` is another command; returns the counts, the lines and the table."""
        gate = loaded("gate")
        gate.PROOFS = [part, "ci"]
        with contextlib.ExitStack() as stack:
            for change in changes:
                stack.enter_context(change)
            out = stack.enter_context(contextlib.redirect_stdout(io.StringIO()))
            table = []
            counts = gate.run_part(gate.proofs(), table)
        return counts, out.getvalue().splitlines(), table

    def test_the_gate_keeps_the_table_of_the_proofs(self):
        counts, lines, table = self.gate(self.fake(status=1, failed=2))
        self.assertEqual(counts, (5, 2, 0))
        self.assertEqual(lines[:2], ["rt: all proved", "5 passed, 2 failed"])
        self.assertIn(": 5 passed, 2 failed, 0 skipped (", lines[2])
        self.assertEqual(table[0].split()[:2], ["crate", "proof"])
        self.assertTrue(LAST.fullmatch(table[-1]), table)

    def test_a_table_that_fails_does_not_fail_the_gate(self):
        for change in [
            mock.patch.object(minutes.Watch, "lines", side_effect=ValueError),
            mock.patch("threading.Thread.start", side_effect=RuntimeError),
            mock.patch.object(minutes, "processes", side_effect=OSError),
        ]:
            counts, lines, _ = self.gate(self.fake(), change)
            self.assertEqual(counts, (5, 0, 0))
            self.assertIn(": 5 passed, 0 failed, 0 skipped (", lines[-1])

    def test_other_parts_of_the_gate_have_no_table(self):
        gate = loaded("gate")
        table = []
        with contextlib.redirect_stdout(io.StringIO()):
            gate.run_part(gate.Part([self.fake(), "ci"]), table)
        self.assertEqual(table, [])
        self.assertEqual(gate.PROOFS, ["rt", "ci"])
        self.assertTrue((ROOT / "tools" / "minutes").exists())
