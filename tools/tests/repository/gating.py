"""Tests of `gate`."""

import contextlib
import importlib.util
import io
import os
import pathlib
import re
import signal
import subprocess
import sys
import tempfile
import unittest
from unittest import mock

from llbm_tools.commands import old_name
from llbm_tools.counts import Counts, total
from llbm_tools.repository import gate_parts, proof_jobs
from llbm_tools.repository.gate_parts import Part
from tests import base
from tests.base import ROOT


def loaded(name):
    """Loads a tool's module anew, so that a test can change it."""
    spec = importlib.util.find_spec(f"llbm_tools.{old_name(name).module}")
    module = importlib.util.module_from_spec(spec)
    spec.loader.exec_module(module)
    return module


# Uses the processor for 0.6 seconds at least, in a process that it starts.
SPINS = """import os, time
child = os.fork()
while not child and time.process_time() < 0.6:
    pass
child and os.wait()
"""
RESULT = "test result: {}. {} passed; {} failed; {} ignored; 0 filtered out"


def printed(work):
    """Returns what some work returns, and the lines that it prints."""
    with contextlib.redirect_stdout(io.StringIO()) as out:
        found = work()
    return found, out.getvalue().splitlines()


def ended(gate):
    """Runs a gate, whose handler of SIGTERM is gone afterwards; returns its status and its lines."""
    handler = signal.getsignal(signal.SIGTERM)
    try:
        return printed(gate.main)
    finally:
        signal.signal(signal.SIGTERM, handler)


class Parts(base.WithPrograms):
    """Parts that are run, and their counts."""

    def test_the_last_line_with_counts_counts(self):
        for lines, status, *found in [
            ([], 0, 1, 0), ([], 1, 0, 1), (["190 passed, 0 failed"], 0, 190, 0),
            (["3 passed, 2 failed, 4 skipped"], 1, 3, 2, 4), (["3 passed, 0 failed, 0 skipped"], 1, 3, 1),
            (["5 passed, 0 failed"], 0, 5, 0), (["190 passed, 0 failed (162 edits refused)"], 0, 190, 0),
            (["1 passed, 1 failed", "2 passed, 0 failed"], 0, 2, 0), (["6 passed, 0 failed, 1 skipped"], 0, 6, 0, 1),
            ([RESULT.format("ok", 71, 0, 2), "run=ended status=0 proved=no"], 0, 71, 0, 2),
            ([RESULT.format("FAILED", 70, 1, 0), "run=ended status=101 proved=no"], 101, 70, 1, 0),
            (["run=none proved=no"], 6, 0, 1),
            ([RESULT.format("FAILED", 60, 1, 0), "run=no-answer proved=no"], 6, 60, 1),
        ]:
            self.assertEqual(gate_parts.Ended(status, 0.0, lines).counts(), (*found, *[0] * (3 - len(found))), lines)

    def test_a_part_that_passes_has_one_line(self):
        part = Part([self.program("echo said", "echo 3 passed, 0 failed, 1 skipped")])
        counts, lines = printed(lambda: gate_parts.run(part))
        self.assertEqual(counts, (3, 0, 1))
        self.assertRegex(lines[0], r"^.*/program\S*: 3 passed, 0 failed, 1 skipped \([0-9.]+ processor minutes\)$")
        self.assertEqual(len(lines), 1)

    def test_the_line_of_a_part_with_many_words_is_short(self):
        _, (line,) = printed(lambda: gate_parts.run(Part(["/bin/true", *["word"] * 100])))
        self.assertRegex(line, r"^/bin/true word .*\.\.\.: 1 passed, 0 failed, 0 skipped \(")
        self.assertLess(len(line), 160)

    def test_a_part_that_fails_shows_what_it_printed_but_not_what_is_expected(self):
        wants = "==7==WARNING: AddressSanitizer failed to allocate 0x100000000 bytes"
        part = Part([self.program(f"echo '{wants}' >&2", "echo wrong", "exit 3")])
        for work in (lambda: gate_parts.run(part), lambda: total(gate_parts.run_together([part], 1))):
            counts, lines = printed(work)
            self.assertEqual((counts, lines[1:]), ((0, 1, 0), ["    wrong"]))

    def test_the_time_of_a_part_is_that_of_its_processes(self):
        part = Part([sys.executable, "-c", SPINS])
        for work in (lambda: gate_parts.run(part), lambda: total(gate_parts.run_together([part], 1))):
            found = re.search(r"\(([0-9.]+) processor minutes\)$", printed(work)[1][-1])
            self.assertGreaterEqual(float(found[1]), 0.01)

    def test_parts_that_run_together_are_all_counted(self):
        says = [Part([self.program(f"echo '{number} passed, 0 failed'")]) for number in (3, 4, 5)]
        given = [*says, Part([self.program("exit 7")]), Part(["/none"])]
        counts, lines = printed(lambda: sorted(gate_parts.run_together(given, 2)))
        self.assertEqual(counts, [(0, 1, 0), (0, 1, 0), (3, 0, 0), (4, 0, 0), (5, 0, 0)])
        self.assertEqual(len(lines), 6)
        self.assertIn("    there is no such file or directory: /none", lines)


class Gate(base.WithPrograms):
    """The parts of the gate, and its last lines."""

    def test_parts_run_on_one_program_or_on_both(self):
        gate = loaded("gate")
        for given, programs in [("/p", ["/p"]), (None, list(map(str, gate.PROGRAMS)))]:
            after = given is not None
            words = gate.argparse.Namespace(llbm=given, after=after, fuzz=7, seed="3")
            commands = [part.command for part in gate.parts_of(words)]
            self.assertEqual(["rt", "ci"] in commands, given is None)
            for name in ("refuse", "library", "bindings"):
                self.assertIn(gate.tool(name).command, commands)
            for program in programs:
                self.assertIn(gate.tool("transcripts", "--llbm", program, "tests", *gate.EXAMPLES).command, commands)
            self.assertIn(gate.tool("transcripts", "--llbm", programs[0], *gate.PAGES).command, commands)
            self.assertEqual(commands[-1][2:], ["fuzz", "--cases", "7", "--llbm", programs[0], "--seed", "3"])
            daemon = gate.tool("daemon tests", "--llbm", programs[0]).command
            words = ["--start", "--count", "20", *gate.FIXED, "--llbm", programs[0]]
            beside = gate.tool("against-buildkit", *words).command
            test = gate.tool("test", "--llbm", programs[0]).command
            self.assertEqual(sorted([daemon, beside, test], key=commands.index), [daemon, beside, test])

    def checks(self, processors, free, group=()):
        """Returns how many checks run at a time with so many processors, kB of free memory, and files of a group."""
        folder = pathlib.Path(tempfile.mkdtemp(dir=os.fsdecode(self.folder)))
        for name, text in [("meminfo", f"MemFree: 1 kB\nMemAvailable: {free} kB"), *group]:
            (folder / name).parent.mkdir(exist_ok=True)
            (folder / name).write_text(f"{text}\n")
        with (
            mock.patch("os.sched_getaffinity", return_value=set(range(processors))),
            mock.patch.multiple(proof_jobs, MEMORY=folder / "meminfo", GROUPS=folder),
        ):
            return proof_jobs.checks_at_once()

    def test_a_check_gets_a_processor_and_its_memory(self):
        for processors, free, jobs in [(4, 24, 4), (2, 24, 2), (8, 24, 4), (4, 12, 2), (4, 3, 1), (1, 24, 1)]:
            self.assertEqual(self.checks(processors, 1_000_000 * free), jobs, (processors, free))
        with mock.patch.multiple(proof_jobs, MEMORY=pathlib.Path("/none"), GROUPS=pathlib.Path("/none")):
            self.assertEqual(proof_jobs.checks_at_once(), len(os.sched_getaffinity(0)))

    def test_a_control_group_limits_the_checks(self):
        period = ("cpu/cpu.cfs_period_us", "100000")
        for group, jobs in [
            ([("cpu.max", "max 100000")], 8), ([("cpu.max", "250000 100000")], 2), ([("cpu.max", "50000 100000")], 1),
            ([("cpu/cpu.cfs_quota_us", "-1"), period], 8), ([("cpu/cpu.cfs_quota_us", "300000"), period], 3),
            ([("memory.max", "max"), ("memory.stat", "anon 7")], 8),
            ([("memory.max", "17500000000"), ("memory.stat", "file 9\nanon 500000000")], 3),
            ([("memory/memory.limit_in_bytes", "12000000000"), ("memory/memory.stat", "total_rss 5")], 2),
        ]:
            self.assertEqual(self.checks(8, 100_000_000, group), jobs, group)

    def test_rt_ci_is_told_how_many_checks_to_run_unless_it_was(self):
        gate = loaded("gate")
        gate.PROOFS = [self.program("echo $RT_JOBS passed, 0 failed")]
        for known, jobs in [({}, 3), ({"RT_JOBS": "7"}, 7)]:
            with mock.patch.dict(os.environ), mock.patch.object(proof_jobs, "checks_at_once", lambda: 3):
                os.environ.pop("RT_JOBS", None)
                os.environ.update(known)
                counts, _ = printed(lambda: gate.run_part(gate.proofs(), []))
                self.assertEqual(counts.passed, jobs)

    def test_the_quick_parts_do_not_prove(self):
        gate = loaded("gate")
        others = gate.parts_of_crates()
        self.assertEqual({tuple(part.command[:3]) for part in others}, {("rt", "try", "--test")})
        self.assertEqual(sorted(part.folder.name for part in others), ["llb_examples", "llb_refusals", "llbm"])
        self.assertTrue(all(part.folder.is_dir() for part in others))
        quick = [part.shown().partition(" --")[0] for part in gate.parts_that_are_quick(7, "3")]
        self.assertEqual(quick, [f"dev/dev {name}" for name in ("transcripts", "daemon tests", "test", "fuzz")])
        transcripts = next(gate.parts_that_are_quick(7, "3")).command
        self.assertIn("tests/actions", transcripts)
        self.assertNotIn("tests/limits", transcripts)

    def run_quick(self, *words):
        """Runs the quick gate with parts that say that they pass; returns its status, its gate_parts, and its lines."""
        gate, ran = loaded("gate"), []

        def run(part):
            ran.append(part.shown())
            return Counts(2)

        together = mock.Mock(side_effect=lambda given, jobs: map(run, given))
        with (
            mock.patch.multiple(gate_parts, run=run, run_together=together),
            mock.patch.object(sys, "argv", ["gate", "--quick", *words]),
        ):
            status, lines = ended(gate)
        return status, ran, lines

    def test_more_adds_parts(self):
        _, quick, lines = self.run_quick()
        self.assertTrue(lines[0].startswith("not done: proofs, "))
        self.assertTrue(lines[1].startswith("with --more: "))
        self.assertEqual(lines[2], f"{2 * len(quick)} passed, 0 failed, 14 skipped")
        _, more, lines = self.run_quick("--more")
        self.assertEqual(quick, [part for part in more if part in quick])
        self.assertEqual(len(more) - len(quick), 11)
        self.assertEqual(lines[1:], [f"{2 * len(more)} passed, 0 failed, 3 skipped"])

    def run_main(self, *words, whole=()):
        """Runs the gate with these counts, and lines of a table, in place of its parts; returns its status, its lines,
        and its receipts."""
        gate, receipts = loaded("gate"), []
        gate.parts_of = lambda options: whole
        gate.run_part = lambda part, table: table.extend(part[3:]) or Counts(*part[:3])
        gate.keep_receipt = lambda: receipts.append("receipt")
        with mock.patch.object(sys, "argv", ["gate", *words]):
            status, lines = ended(gate)
        return status, lines, receipts

    def test_the_last_line_has_the_sums(self):
        self.assertEqual(self.run_main(whole=[(2, 0), (3, 0)]), (0, ["5 passed, 0 failed, 0 skipped"], ["receipt"]))
        self.assertEqual(self.run_main(whole=[(2, 1), (3, 0)]), (1, ["5 passed, 1 failed, 0 skipped"], []))
        self.assertEqual(self.run_main(whole=[(2, 0, 1)])[1], ["2 passed, 0 failed, 1 skipped"])
        lines = self.run_main(whole=[(2, 0, 0, "crate", "all"), (3, 0)])[1]
        self.assertEqual(lines, ["crate", "all", "5 passed, 0 failed, 0 skipped"])
        self.assertEqual(self.run_main("--after", whole=[(2, 0)])[2], [])
        self.assertEqual(self.run_main("--llbm", "/p", whole=[(2, 0)])[2], [])

    def test_command_lines_are_refused(self):
        for words in [("--nosuch",), ("--quick", "--after"), ("--quick", "--llbm", "/p"), ("--more",)]:
            done = subprocess.run([ROOT / "gate", *words], capture_output=True, timeout=base.GUARD)
            self.assertEqual((done.returncode, done.stdout), (2, b""), words)


class Scripts(unittest.TestCase):
    """The scripts at the top of the repository."""

    def test_the_gate_can_be_run(self):
        self.assertTrue(os.access(pathlib.Path(ROOT, "gate"), os.X_OK))

    def test_the_gate_is_found_by_a_link_and_from_any_folder(self):
        with tempfile.TemporaryDirectory() as folder:
            link = pathlib.Path(folder, "link")
            link.symlink_to(ROOT / "gate")
            for place in (link, ROOT / "gate"):
                done = subprocess.run([place, "--help"], cwd=folder, capture_output=True, text=True, timeout=base.GUARD)
                self.assertEqual((done.returncode, done.stderr), (0, ""), place)
                self.assertTrue(done.stdout.startswith("usage: dev/dev gate "), done.stdout)
