"""Tests of `fuzz`, and of its messages and rules."""

import os
import pathlib
import random
import re
import unittest

from llbm_tools.definitions import faults
from llbm_tools.fuzzing import applet_calls, run_checks
from llbm_tools.fuzzing import changed_inputs as fuzz_changed
from llbm_tools.fuzzing import made_inputs as fuzz_made
from llbm_tools.fuzzing.limited_runs import Ran
from llbm_tools.fuzzing.run_checks import Broken, Rules, Session, tree_fault
from llbm_tools.llb import definition, messages, scripts
from llbm_tools.llb.messages import Raw, encoded, made
from tests import base
from tests.base import ROOT, Folder, run, run_closed

EXAMPLES = ROOT / "examples"


def first_op():
    """Returns the op of the first run."""
    mkfile = made("FileActionMkFile", path="/a", mode=420, data=b"hi", timestamp=-1)
    action = made("FileAction", input=-1, secondaryInput=-1, mkfile=mkfile)
    return made("Op", file=made("FileOp", actions=(action,)))


class Applets(base.WithProgram):
    """The calls of applets on the page of formats."""

    def test_cells_have_calls(self):
        for cell, calls in [
            ("`true`, `false`", [("true",), ("false",)]), ("`chmod MODE P`", [("chmod", "MODE", "P")]),
            ("`test -e P`, `-f P`", [("test", "-e", "P"), ("test", "-f", "P")]), ("`write P W`", [("write", "P", "W")]),
            ("`concat OUT A ...`", [("concat", "P", "P"), ("concat", "P", "P", "P")]),
        ]:
            self.assertEqual(list(applet_calls.calls_in(cell)), calls)

    def test_all_calls_are_scripts(self):
        words = {applet_calls.PATH: "/a", applet_calls.WORD: "b", applet_calls.MODE: "0755"}
        calls = [tuple(words.get(word, word) for word in call) for call in applet_calls.calls()]
        self.assertEqual((scripts.faults_of(calls, base.llbm), len({call[0] for call in calls})), ({}, 13))


class Messages(unittest.TestCase):
    """Messages as bytes, as texts, and as records."""

    def test_the_first_run_has_the_stored_bytes(self):
        op = first_op()
        ops = [op, made("Op", inputs=(messages.edge(encoded(op)),))]
        data = messages.definition_of([encoded(one) for one in ops])
        self.assertEqual(data, (EXAMPLES / "first-run.definition").read_bytes())
        self.assertEqual(messages.text_of(ops), (EXAMPLES / "first-run.text").read_bytes())

    def test_defaults_are_left_out_except_messages_and_members(self):
        self.assertEqual(made("UserOpt", byID=0), [(2, 0)])
        self.assertEqual(made("MergeInput", input=0), [])
        self.assertEqual(made("ChownOpt", user=[], group=None), [(1, [])])
        self.assertEqual(made("Meta", args=("", "a"), cwd=""), [(1, b""), (1, b"a")])

    def test_parsed_records_have_the_same_bytes(self):
        for place in EXAMPLES.glob("*.definition"):
            for entry in definition.entries_of(place.read_bytes()):
                self.assertEqual(encoded(messages.parsed("Op", entry)), entry)
        mixed = b"\x09" + b"\x01" * 8 + b"\x0d" + b"\x02" * 4 + b"\x0a\x01\xff"
        apart = messages.parsed("Op", mixed)
        self.assertEqual(apart, [(1, Raw(mixed[:9])), (1, Raw(mixed[9:14])), (1, b"\xff")])
        self.assertEqual(encoded(apart), mixed)

    def test_inputs_name_changed_entries(self):
        below = encoded(first_op())
        above = encoded(made("Op", inputs=(messages.edge(below),)))
        top = encoded(made("Op", inputs=(messages.edge(above, 3), messages.edge(below))))
        after = messages.with_new_digests([below, above, top], [b"\x32\x00", above, top])
        self.assertEqual(after[0], b"\x32\x00")
        self.assertEqual(after[1], encoded(made("Op", inputs=(messages.edge(after[0]),))))
        wanted = made("Op", inputs=(messages.edge(after[1], 3), messages.edge(after[0])))
        self.assertEqual(after[2], encoded(wanted))

    def test_an_entry_that_would_name_itself_keeps_the_digest(self):
        below = encoded(first_op())
        own = encoded(made("Op", inputs=(messages.edge(below),)))
        self.assertEqual(messages.with_new_digests([below], [own]), [own])


class RandomInputs(unittest.TestCase):
    """Random inputs and changes."""

    def test_random_definitions_are_graphs_and_random_trees_are_valid(self):
        for seed in range(200):
            ops = fuzz_made.ops(random.Random(seed))
            data = messages.definition_of([encoded(op) for op in ops])
            definition.graph_of(definition.entries_of(data))
            self.assertIsNone(tree_fault(fuzz_made.tree(random.Random(seed))))

    def test_equal_seeds_make_equal_changes(self):
        data = (EXAMPLES / "tour.definition").read_bytes()
        text = (EXAMPLES / "tour.text").read_bytes()
        changes = set()
        for seed in range(50):
            one, other = random.Random(seed), random.Random(seed)
            changed = fuzz_changed.changed_definition(one, data)
            self.assertEqual(changed, fuzz_changed.changed_definition(other, data))
            self.assertEqual(
                fuzz_changed.changed_text(one, text, "text"), fuzz_changed.changed_text(other, text, "text")
            )
            changes.add(changed)
        self.assertGreater(len(changes), 40)


class RunRules(unittest.TestCase):
    """The rules that runs have to meet."""

    def test_a_tree_text_has_its_first_fault(self):
        root = b"d 0755 0 0 /\n"
        for text, fault in [
            (root, None), (root + b"f 0644 0 4294967295 - /a\n", None), (b"", "31 1"), (b"d 0755 0 0 /", "31 1"),
            (root + b"f 0644 0 0 6 /a\n", "31 2"), (root + b"d 0755 0 4294967296 /a\n", "31 2"),
            (root + b"d 0755 00 0 /a\n", "31 2"), (root + b"d 0755 0 0 /a/\n", "31 2"),
            (b"f 0644 0 0 - /\n", "31 1"), (root + b"d 0755 0 0 /" + b"n" * 256 + b"\n", "31 2"),
            (root + b"d 0755 0 0 /..\n", "31 2"), (root + b"d 0755 0 0 /" + b"a/" * 128 + b"a\n", "31 2"),
            (b"d 0755 0 0 /a\n", "32 1"), (root + root, "32 2"),
            (root + b"d 0755 0 0 /a-b\nd 0755 0 0 /a\n", "32 3"),
            (root + b"d 0755 0 0 /a\nd 0755 0 0 /a/b\nd 0755 0 0 /a-b\n", None),
            (root + b"f 0644 0 0 - /a\nf 0644 0 0 - /a/b\n", "33 3"), (root + b"d 0755 0 0 /a/b\nx", "33 2"),
        ]:
            self.assertEqual(tree_fault(text), fault, text)

    def test_allowed_runs_pass_and_others_fail(self):
        rules = Rules(faults.read_page())
        for words, status, out, err in [
            (("run",), 0, b"x", b""), (("run",), 1, b"", b"failed 0 action 1 fault 21\nfailed 2 command 0 status 1\n"),
            (("run",), 2, b"", b"fault 89 0 Script 71 a\nb\n"), (("step", "d"), 2, b"x\n", b"fault 185\n"),
            (("show",), 3, b"x", b"fault 182\n"),
        ]:
            rules.check(Ran(words, b"", status, out, err))
        for status, out, err, cause in [
            (None, b"", b"", "time"), (-11, b"", b"", "signal 11"), (4, b"", b"", "status 4"),
            (2, b"x", b"fault 83\n", "output"), (1, b"x", b"failed 0 action 1 fault 21\n", "output"),
            (0, b"", b"fault 83\n", "status 0"), (2, b"", b"", "no line"), (2, b"", b"fault 83", "no line"),
            (2, b"", b"fault 83\nfault 83\n", "does not know"), (2, b"", b"failed 0 action 1 fault 21\n", "status 2"),
            (2, b"", b"fault 9999\n", "does not know"), (2, b"", b"fault 181\n", "fault 181 with status 2"),
            (3, b"", b"fault 83\n", "fault 83 with status 3"), (2, b"", b"\xff\n", "UTF-8"),
        ]:
            with self.assertRaisesRegex(Broken, cause):
                rules.check(Ran(("run",), b"", status, out, err))

    def test_the_first_fault_that_is_listed_is_the_one_that_is_printed(self):
        two = b"fault 86 0 0\nfault 89 1 NoKind\n"
        for status, err, listed_status, listed in [
            (2, b"fault 86 0 0\n", 2, two), (0, b"", 0, b""), (3, b"fault 182\n", 0, b""), (0, b"", 3, b""),
        ]:
            run_checks.check_findings(Ran(("show",), b"", status, b"", err), Ran((), b"", listed_status, listed, b""))
        for status, err, listed_status, listed, cause in [
            (2, b"fault 89 1 NoKind\n", 2, two, "another fault"), (2, b"fault 86 0 0\n", 2, b"", "another fault"),
            (0, b"", 2, two, "with status 2"), (2, b"fault 86 0 0\n", 0, b"", "with status 0"),
            (0, b"", 0, two, "another"),
        ]:
            with self.assertRaisesRegex(Broken, cause):
                ran = Ran((), b"", listed_status, listed, b"")
                run_checks.check_findings(Ran(("show",), b"", status, b"", err), ran)

    def test_a_consistent_session_passes(self):
        text = b"0 ready\n1 claim 0 0 -> file 1\n0 running 0\nback 0\n0 ready\nfault 172\n0 ready\n"
        session = Session(1, text)
        for count in [0, 1, 0, 0]:
            session.answer()
            session.status()
            self.assertEqual(session.count, count)

    def test_inconsistent_sessions_fail(self):
        for text, cause in [
            (b"0 ready\n1 claim 0 0 -> file 1\n0 running 0\nback 0\n0 waiting\n", "after the same 0 events"),
            (b"0 ready\n2 claim 0 0 -> file 1\n", "event 2 where event 1"), (b"1 ready\n", "of all vertices"),
            (b"0 ready\n1 claim 0 0 -> file 1\n0 running 0\nback 1\n", "back 1 where 0"), (b"", "missing"),
        ]:
            session = Session(1, text)
            with self.assertRaisesRegex(Broken, cause):
                for _ in range(4):
                    session.answer()
                    session.status()

    def test_cache_mounts_are_found(self):
        cache = made("Mount", dest="/c", mountType=3, cacheOpt=made("CacheOpt", ID="k"))
        for mounts, ids in [((cache,), [b"k"]), ((made("Mount", dest="/"),), [])]:
            op = made("Op", exec=made("ExecOp", mounts=mounts))
            self.assertEqual(run_checks.caches_in(messages.definition_of([encoded(op)])), ids)
        self.assertIsNone(run_checks.caches_in(b"\x0a"))


class Fuzz(Folder):
    """Runs of the tool on programs that break a rule."""

    def program(self, *lines):
        """Writes a shell program with these lines."""
        place = self.file(b"program", "\n".join([base.FAKE_SHELL, *lines, ""]).encode())
        os.chmod(place, 0o755)
        return os.fsdecode(place)

    def fuzz(self, program, *words, cases=3):
        """Runs the tool with the seed 1."""
        keep = os.fsdecode(self.place(b"stored"))
        return run("fuzz", "--llbm", program, "--seed", "1", "--cases", str(cases), "--keep", keep, *words)

    def test_broken_rules_are_found(self):
        for line, cause, *words in [
            ("exit 4", "status 4"), ("kill -9 $$", "signal 9"),
            ("echo x; echo fault 83 >&2; exit 2", "output with status 2"),
            ("echo wrong >&2; exit 2", "standard error with status 2"),
            ("echo fault 9999 >&2; exit 2", "does not know"), ("echo fault 181 >&2; exit 2", "fault 181 with status 2"),
            ("exec sleep 3600", "end in time", "--patience", "1"),
        ]:
            done = self.fuzz(self.program(line), *words, cases=2)
            self.assertEqual((done.returncode, done.stderr), (1, b""), line)
            lines = done.stdout.decode().splitlines()
            self.assertEqual(lines[0], "seed 1")
            self.assertRegex(lines[1], rf"^case 0 \(\w+\): .*{re.escape(cause)}.*: stored in /")
            self.assertRegex(lines[-2], "^2 cases in [0-9]+ seconds with seed 1$")
            self.assertEqual(lines[-1], "0 passed, 2 failed, 0 skipped")

    def test_a_finding_is_stored_with_its_command(self):
        done = self.fuzz(self.program("exit 9"), cases=1)
        stored = pathlib.Path(os.fsdecode(self.place(b"stored"))) / "case-1-0"
        self.assertIn(f"stored in {stored}", done.stdout.decode())
        command = (stored / "command").read_text().splitlines()[-1]
        self.assertRegex(command, r"/program .* < input-0$")
        self.assertTrue((stored / "input-0").is_file())
        self.assertRegex((stored / "cause").read_text(), r"^\w+: status 9\n$")

    def test_a_seed_makes_the_same_cases(self):
        logs = []
        for _ in range(2):
            log = self.file(b"log", b"")
            self.fuzz(self.program(f"echo $* >> {os.fsdecode(log)}; cat >> {os.fsdecode(log)}"), cases=12)
            logs.append(pathlib.Path(os.fsdecode(log)).read_bytes())
        self.assertEqual(logs[0], logs[1])
        self.assertGreater(len(logs[0]), 1000)

    def test_jobs_share_the_cases(self):
        done = self.fuzz(self.program("exit 4"), "--jobs", "2", cases=7)
        numbers = sorted(map(int, re.findall(r"^case ([0-9]+) ", done.stdout.decode(), re.MULTILINE)))
        self.assertEqual((done.returncode, numbers), (1, list(range(7))))

    def test_command_lines_are_refused(self):
        for words in [(), ("0",), ("x",), ("1", "--jobs", "0"), ("1", "--cases", "-1"), ("1", "--llbm", "/none")]:
            done = run("fuzz", *words)
            self.assertEqual((done.returncode, done.stdout), (2, b""), words)
        done = run_closed(1, "fuzz", "1", "--llbm", self.program("exit 0"))
        self.assertEqual((done.returncode, done.stderr), (3, b"standard output is closed\n"))

    def test_the_program_obeys_the_rules(self):
        if base.llbm is None:
            self.skipTest("the program llbm is needed (--llbm PROGRAM)")
        done = self.fuzz(base.llbm, cases=40)
        self.assertEqual((done.returncode, done.stderr), (0, b""), done.stdout)
        lines = rb"^seed 1\n40 cases in [0-9]+ seconds with seed 1\n40 passed, 0 failed, 0 skipped\n$"
        self.assertRegex(done.stdout, lines)

    def test_workers_that_print_something_else_are_found(self):
        if base.llbm is None:
            self.skipTest("the program llbm is needed (--llbm PROGRAM)")
        lines = [f'{base.llbm} "$@" || exit', '[ "$2" != --workers ] || echo "d 0755 0 0 /more"']
        done = self.fuzz(self.program(*lines), "--memory", "0", cases=60)
        self.assertEqual(done.returncode, 1)
        self.assertIn(b"several workers print something else than one", done.stdout)
