"""Tests of runs of the tools that are forked: they end as those for which Python starts."""

import os
import subprocess

from tests import base, forking
from tests.base import ROOT, Folder

TREE = (ROOT / "examples" / "tour.tree").read_bytes()


class Forked(Folder):
    """Runs in both ways."""

    def both(self, tool, *words, text=b"", **settings):
        """Returns how a run ends, in both ways."""
        line = base.command(tool, *words)
        done = forking.run(line[2:], text, base.GUARD, **settings)
        other = subprocess.run(line, input=text, capture_output=True, timeout=base.GUARD, **settings)
        self.assertEqual((done.returncode, done.stdout, done.stderr), (other.returncode, other.stdout, other.stderr))
        return done

    def test_output_messages_and_status_are_the_same(self):
        large = b"d 0755 0 0 /\n" + b"".join(b"f 0644 0 0 - /%06d\n" % number for number in range(20_000))
        for words, text, status in [
            (["lint", "--help"], b"", 0), (["lint", "--nosuch"], b"", 2), (["lint", "/none"], b"", 2),
            (["explain", "fault", "1"], b"", 0), (["diff-of-trees", "-", "/dev/null"], TREE, 2),
            (["tar-of-tree", "--pack", "gzip"], TREE, 0), (["diff-of-trees", "-", ROOT / "examples"], large, 1),
            (["nosuch"], b"", 2),
        ]:
            self.assertEqual(self.both(*words, text=text).returncode, status, words)

    def test_a_run_has_its_folder_and_its_environment(self):
        self.make(b"a", b"x")
        self.assertIn(b" /a\n", self.both("tree-of-directory", "in", cwd=self.folder).stdout)
        known = {**os.environ, "SOURCE_DATE_EPOCH": "1e9"}
        self.assertIn(b"SOURCE_DATE_EPOCH", self.both("tar-of-tree", text=TREE, env=known).stderr)

    def test_python_starts_where_it_reads_another_environment(self):
        line = base.command("lint", "--help")[2:]
        for name in ("LC_ALL", "PYTHONWARNINGS", "XDG_CACHE_HOME"):
            self.assertIsNone(forking.run(line, b"", base.GUARD, env={**os.environ, name: "x"}))

    def test_a_run_that_does_not_end_is_killed(self):
        place = self.place(b"pipe")
        os.mkfifo(place)
        with self.assertRaises(subprocess.TimeoutExpired):
            forking.run(base.command("lint", place)[2:], b"", 0.1)
        self.both("lint", "--help")
