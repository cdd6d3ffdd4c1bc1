"""Tests of what a build leaves that is killed, which the next one removes."""

import os
import signal
import subprocess
import unittest

from llbm_tools.building import build_folders
from tests import base
from tests.base import command
from tests.building.building import PRINTS, WAITS, Builds


class Left(Builds):
    """Builds that are killed while the program runs."""

    def setUp(self):
        super().setUp()
        (self.at / "in").mkdir()

    def names(self):
        """Returns the folders of builds: those beside the result, and those in TMPDIR."""
        return [sorted(name for name in os.listdir(at) if "llbm-b" in name) for at in (self.at, self.held)]

    def start(self, result):
        """Starts a build that waits, in a session of its own, and returns its process when the program runs."""
        self.set_behavior(WAITS)
        words = command("build", "--llbm", self.llbm, "definition", result, "src=in")
        child = subprocess.Popen(words, stderr=subprocess.PIPE, start_new_session=True, **self.settings)
        self.addCleanup(child.wait)
        self.addCleanup(child.stderr.close)
        self.addCleanup(self.kill, child)
        while child.stderr.readline() != b"waiting\n":
            self.assertIsNone(child.poll())
        return child

    def kill(self, child):
        """Kills a build and its program."""
        if child.poll() is None:
            os.killpg(child.pid, signal.SIGKILL)
            child.wait()

    def test_the_next_build_removes_what_a_killed_one_has_left(self):
        self.kill(self.start("out"))
        beside, held = self.names()
        self.assertEqual((len(beside), len(held)), (1, 1))
        self.set_behavior(PRINTS)
        done = self.build("definition", "out", "src=in")
        lines = done.stderr.decode().splitlines()
        left = [f"{self.held}/{held[0]}", f"./{beside[0]}"]
        self.assertEqual(lines[:2], [f"removed what a build left that was killed: {place}" for place in left])
        self.assertEqual((done.returncode, self.names()), (0, [[], []]))

    def test_the_folders_of_a_build_that_runs_stay(self):
        child = self.start("out")
        before = self.names()
        self.set_behavior(PRINTS)
        self.assertEqual(self.build("definition", "other", "src=in").returncode, 0)
        self.assertEqual(self.names(), before)
        self.kill(child)
        self.assertEqual(self.build("definition", "third", "src=in").returncode, 0)
        self.assertEqual(self.names(), [[], []])

    def test_nothing_of_another_name_is_removed(self):
        for name in ("llbm-build-abc", "llbm-build-abcdefgh-1", "my-llbm-build-abcdefgh", "llbm-build-ABCDEFGH"):
            (self.held / name).mkdir()
        (self.held / "llbm-build-abcdefgh").write_text("a file")
        (self.held / "llbm-build-ijklmnop").symlink_to(self.at)
        before = set(os.listdir(self.held))
        build_folders.remove_left(build_folders.TEXTS, str(self.held))
        self.assertEqual(set(os.listdir(self.held)), before)

    @unittest.skipUnless(base.IS_ROOT, "only root can give a folder to another user")
    def test_the_folder_of_another_user_stays(self):
        place = self.held / "llbm-build-abcdefgh"
        place.mkdir()
        os.chown(place, 1, 1)
        build_folders.remove_left(build_folders.TEXTS, str(self.held))
        self.assertTrue(place.is_dir())
