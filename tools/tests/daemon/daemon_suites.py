"""Tests of the lists of BuildKit's tests, of `daemon-suite`, which runs them, and of `daemon-tests`."""

import argparse
import collections
import contextlib
import io
import os
import pathlib
from unittest import mock

from llbm_tools.daemon import daemon_suite, daemon_tests, go_building, suite_lists
from llbm_tools.daemon.suite_lists import Listed, Package
from tests import base
from tests.base import Folder, run

PAIR = Package("two", "two", ["a", "b"])
PRINTED = "    --- {}: TestSuite/{} (0.10s)\n"
# A stand-in for tests: it prints what the variable SAID has, for as long as LASTS says.
TESTS = """#!/bin/sh
sleep "${LASTS:-0}" &
echo "$*"
printf '%b' "$SAID"
wait
"""


def listed(does, text="", variant=""):
    """Returns a test that has to do this."""
    return Listed("client", "TestX", variant, "plain", does, text)


class Lists(Folder):
    """The lists of tests."""

    def test_a_line_has_all_variants_that_no_other_line_has(self):
        text = "# a comment\n[plain]\nTestX passes\n\n[outside]\nTestY refused fault 88\nTestY/b skips\n"
        self.assertEqual(
            suite_lists.read(text, PAIR),
            [
                Listed("two", "TestX", "a", "plain", "passes", ""),
                Listed("two", "TestX", "b", "plain", "passes", ""),
                Listed("two", "TestY", "a", "outside", "refused", "fault 88"),
                Listed("two", "TestY", "b", "outside", "skips", ""),
            ],
        )

    def test_lines_that_say_nothing_are_refused(self):
        for line in ("TestX", "TestX fails", "TestX passes since", "TestX refused", "TestX differs", "x passes"):
            with self.assertRaises(suite_lists.Malformed, msg=line):
                suite_lists.read(f"[plain]\n{line}\n", PAIR)
        for text in ("TestX passes\n", "[plain]\nTestX passes\nTestX skips\n"):
            with self.assertRaises(suite_lists.Malformed, msg=text):
                suite_lists.read(text, PAIR)

    def test_the_lists_have_the_functions_that_llbm_has_all_for(self):
        functions = collections.defaultdict(set)
        for test in suite_lists.listed():
            functions[test.package, test.function].add((test.section, test.does))
        self.assertEqual(len(functions), 374)
        inside = [does for does in functions.values() if {section for section, _ in does} <= set(daemon_suite.SECTIONS)]
        self.assertEqual(len(inside), 71)
        passing = [does for does in inside if {does for _, does in does} - {"skips"} == {"passes"}]
        self.assertGreaterEqual(len(passing), 60)


class Outcomes(Folder):
    """What a test has done, by what it printed."""

    def fault(self, test, ending, more=""):
        """Returns how a test that ended so differs from its list."""
        name = "TestX/worker=llbmd" + (f"/{test.variant}" if test.variant else "")
        return daemon_suite.fault_of(test, more + (PRINTED.format(ending, name) if ending else ""))

    def test_each_kind_has_its_ending(self):
        for does, ending in [("passes", "PASS"), ("hollow", "PASS"), ("skips", "SKIP"), ("refused", "FAIL")]:
            for other in ("PASS", "FAIL", "SKIP"):
                fault = self.fault(listed(does), other)
                self.assertEqual(fault == "", other == ending, (does, other))
                self.assertIn(f"{other}, but it {does}" if fault else "", fault)

    def test_a_refusal_has_its_text(self):
        test = listed("refused", "fault 88 0 Source")
        self.assertEqual(self.fault(test, "FAIL", "llbm: fault 88\n   0 Source (x)\n"), "")
        self.assertIn("without the text", self.fault(test, "FAIL", "fault 87\n"))

    def test_a_variant_is_a_test_of_its_own(self):
        out = PRINTED.format("PASS", "TestX/worker=llbmd/a") + PRINTED.format("FAIL", "TestX/worker=llbmd/b")
        self.assertEqual(daemon_suite.fault_of(listed("passes", variant="a"), out), "")
        self.assertIn("client/TestX/b: FAIL", daemon_suite.fault_of(listed("passes", variant="b"), out))

    def test_what_did_not_end_is_a_failure_whatever_the_list_says(self):
        for does in ("passes", "hollow", "skips", "refused", "differs"):
            self.assertIn("no such test", self.fault(listed(does), ""))
            self.assertIn("a panic", self.fault(listed(does), "", "panic: oh\n"))
            self.assertIn("did not end in time", self.fault(listed(does), "FAIL", "panic: test timed out after 9s\n"))

    def test_the_totals_count_what_passes_apart_from_what_is_refused(self):
        tests = [listed("passes"), listed("passes", variant="a"), listed("refused", "x"), listed("hollow")]
        tests.append(Listed("client", "TestY", "", "plain", "passes", ""))
        with contextlib.redirect_stdout(io.StringIO()) as said:
            line = daemon_suite.totals(tests, ["", "wrong", "", "", ""])
        self.assertEqual(line, "2 passed, 1 failed, 2 skipped")
        self.assertIn("of 2 functions 1 pass\n", said.getvalue())


class Processes(Folder):
    """The process of a test."""

    def setUp(self):
        super().setUp()
        self.at = pathlib.Path(os.fsdecode(self.folder))
        program = self.at / "client.test"
        program.write_text(TESTS, "utf-8")
        program.chmod(0o755)
        change = mock.patch.object(daemon_suite, "BUILT", self.at)
        change.start()
        self.addCleanup(change.stop)

    def runs(self, seconds=base.GUARD, **known):
        """Returns what runs tests, each for some seconds at most, with these variables."""
        options = daemon_suite.parse(["--seconds", str(seconds), "--llbm", "/llbm", "--daemon", "/llbmd"])
        with mock.patch.dict(os.environ, known):
            return daemon_suite.Runs(options, self.at)

    def test_one_test_is_named_with_its_variant(self):
        out = self.runs().printed(listed("passes", variant="frontend=client"))
        tops = "^(TestSuite|TestFrontendIntegration)$"
        self.assertIn(f"-test.run={tops}/^TestX$/^worker=llbmd$/^frontend=client$", out)

    def test_its_outcome_is_compared(self):
        said = PRINTED.format("PASS", "TestX/worker=llbmd")
        self.assertEqual(self.runs(SAID=said).fault(listed("passes")), "")

    def test_one_that_takes_too_long_is_killed_with_what_it_started(self):
        runs = self.runs(seconds=1, LASTS="100000")
        with mock.patch.object(daemon_suite, "GRACE", 0):
            self.assertIn("did not end in time", runs.fault(listed("passes")))

    def test_the_registry_is_no_longer_found_once_tests_run(self):
        environment = self.runs().environment
        self.assertTrue(environment["PATH"].startswith(str(self.at / "bin")))
        self.assertNotIn(str(self.at / "bin"), environment["LLBMD_SUITE_PATH"])


class Parts(Folder):
    """The tool `daemon-tests`."""

    def test_counts_are_those_of_go(self):
        lines = ["=== RUN TestA", "--- PASS: TestA (0s)", "    --- PASS: TestA/b (0s)"]
        lines += ["--- SKIP: TestB (0s)", "--- FAIL: TestC (0s)"]
        self.assertEqual(daemon_tests.counts_in("\n".join(lines)), (1, 1, 1))

    def test_the_end_of_the_time_is_no_finding_of_random_inputs(self):
        options = argparse.Namespace(fuzz=1)
        ended = "--- FAIL: FuzzReceive (60.10s)\n    context deadline exceeded\n"
        found = "    Failing input written to testdata/fuzz/FuzzReceive/x\n"
        go = mock.Mock()
        go.call.side_effect = go_building.NotBuilt(f"fuzz: elapsed: 1m0s\n{ended}FAIL\n")
        self.assertEqual(daemon_tests.fuzzed(go, options), (1, 0, 0))
        for text in (ended + found, ended.replace("context", "other"), "the code does not compile"):
            go.call.side_effect = go_building.NotBuilt(text)
            with self.assertRaises(go_building.NotBuilt, msg=text):
                daemon_tests.fuzzed(go, options)

    def test_all_is_skipped_without_packages(self):
        llbm = self.place(b"llbm")
        pathlib.Path(os.fsdecode(llbm)).write_text(base.FAKE_SHELL, "utf-8")
        os.chmod(llbm, 0o755)
        done = run("daemon-tests", "--offline", "--packages", self.place(b"none"), "--llbm", llbm)
        self.assertEqual((done.returncode, done.stderr), (0, b""))
        self.assertEqual(done.stdout.splitlines()[-1], b"0 passed, 0 failed, 5 skipped")
        self.assertIn(b"build: skipped, the packages can't be had: ", done.stdout)

    def test_there_is_help(self):
        for name, words in (("daemon-suite", b"daemon suite"), ("daemon-tests", b"daemon tests")):
            self.assertTrue(run(name, "--help").stdout.startswith(b"usage: dev/dev " + words), name)
