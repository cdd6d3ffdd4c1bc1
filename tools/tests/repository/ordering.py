"""Tests of `test`: the order of the tests, their counts, those that get no answer, and the processes that run them."""

import io
import multiprocessing
import os
import random
import shutil
import signal
import subprocess
import sys
import tempfile
import unittest
from concurrent.futures.process import BrokenProcessPool
from unittest import mock

from llbm_tools.repository import test as tested
from tests import base

# Makes files in a folder until it is killed, also where the folder is removed.
WRITES = """import contextlib, itertools, os, sys
for number in itertools.count():
    with contextlib.suppress(OSError):
        os.makedirs(sys.argv[1], exist_ok=True)
        open(f"{sys.argv[1]}/{number % 100}", "w").close()
    if number == 100:
        print("writes", flush=True)
"""


class Sample(unittest.TestCase):
    """Tests that end in all ways; `Run` below runs them."""

    def passes(self):
        pass

    def fails_twice(self):
        for _ in range(2):
            with self.subTest():
                self.fail("wrong")

    def is_skipped(self):
        self.skipTest("not here")

    def hears_nothing(self):
        raise base.NoAnswer("waited 600 s for a daemon")

    def is_cut_off(self):
        raise subprocess.TimeoutExpired(["llbm"], 600)

    def ignores_a_signal(self):
        signal.signal(signal.SIGTERM, signal.SIG_IGN)

    def dies(self):
        os.kill(os.getpid(), signal.SIGKILL)

    def leaves_a_folder(self):
        self.assertEqual(os.listdir(os.environ["TMPDIR"]), [])
        self.assertEqual(os.path.dirname(tempfile.mkdtemp()), os.environ["TMPDIR"])


class Run(unittest.TestCase):
    """Runs of tests."""

    def ran(self, *names):
        """Returns the result of some tests of the sample."""
        suite = unittest.TestSuite(map(Sample, names))
        return unittest.TextTestRunner(io.StringIO(), verbosity=0, resultclass=tested.Timed).run(suite)

    def test_each_test_counts_once(self):
        result = self.ran("passes", "fails_twice", "is_skipped", "passes", "hears_nothing")
        self.assertEqual(tested.counts_of(result), (2, 2, 1))

    def test_one_that_is_not_answered_says_so(self):
        silent = self.ran("fails_twice", "hears_nothing", "is_cut_off").silent
        self.assertEqual([line.split(": ")[0] for line in silent], ["no answer"] * 2)
        self.assertIn("waited 600 s for a daemon", silent[0])
        self.assertIn("600 seconds", silent[1])

    def test_an_order_follows_from_its_seed_and_has_all(self):
        def order(seed):
            suites = [unittest.TestSuite(map(Sample, ["passes", "is_skipped"])), unittest.TestSuite([Sample("passes")])]
            suites += [unittest.TestSuite([Sample(name)]) for name in ("fails_twice", "hears_nothing", "is_cut_off")]
            tested.reorder(suites, random.Random(seed))
            return [[one.id() for one in tested.tests_in(suite)] for suite in suites]

        self.assertEqual(order("7"), order("7"))
        self.assertNotEqual(order("7"), order("8"))
        self.assertEqual(sorted(map(sorted, order("7"))), sorted(map(sorted, order("8"))))

    def run_in_two(self, *names):
        """Runs groups of one test each in two processes, and returns their results; no process is left."""
        with mock.patch.object(tested, "groups", [unittest.TestSuite([Sample(name)]) for name in names]):
            try:
                return list(tested.run_groups(2))
            finally:
                self.assertEqual(multiprocessing.active_children(), [])

    def test_the_processes_end_whatever_a_test_leaves(self):
        results = self.run_in_two(*["ignores_a_signal"] * 6)
        self.assertEqual([one.counts for one in results], [(1, 0, 0)] * 6)

    def test_what_a_test_leaves_is_not_seen_by_another_and_is_removed(self):
        before = os.listdir(tempfile.gettempdir())
        results = self.run_in_two(*["leaves_a_folder"] * 4)
        self.assertEqual([one.counts for one in results], [(1, 0, 0)] * 4)
        self.assertEqual(os.listdir(tempfile.gettempdir()), before)

    def test_a_process_that_dies_is_an_error(self):
        with self.assertRaises(BrokenProcessPool):
            self.run_in_two("passes", "dies", "ignores_a_signal")


class Cache(unittest.TestCase):
    """The folder for what copies of the tools keep compiled."""

    def left(self, settings):
        """Leaves a process that writes into the folder, and a first error; returns both as the folder is gone."""
        with self.assertRaisesRegex(ValueError, "^the first$"), tested.cache_folder() as folder:
            known = {**os.environ, **{name: value.format(folder) for name, value in settings.items()}}
            words = [sys.executable, "-c", WRITES, folder]
            child = subprocess.Popen(words, env=known, stdout=subprocess.PIPE)
            for cleanup in (child.wait, child.kill, child.stdout.close):
                self.addCleanup(cleanup)
            self.assertEqual(child.stdout.readline(), b"writes\n")
            raise ValueError("the first")
        return child, folder

    def test_what_is_left_running_is_killed_before_the_folder_is_removed(self):
        child, folder = self.left({"XDG_CACHE_HOME": "{}"})
        self.assertEqual(child.wait(base.GUARD), -signal.SIGKILL)
        self.assertFalse(os.path.lexists(folder))

    def test_a_folder_that_cannot_be_removed_hides_no_error(self):
        child, folder = self.left({"XDG_CACHE_HOME": "/none"})
        self.assertIsNone(child.poll())
        child.kill()
        self.assertEqual(child.wait(base.GUARD), -signal.SIGKILL)
        shutil.rmtree(folder, ignore_errors=True)
