"""Tests of `measure-daemons`, and of how BuildKit's own daemon is built."""

import os
import pathlib
import subprocess

from llbm_tools.daemon import buildkitd, go_building
from llbm_tools.measuring import measure_daemons
from llbm_tools.measuring.measure_daemons import Cost
from tests import base
from tests.base import Folder, run


class Definitions(Folder):
    """The definitions that are built."""

    def lines(self, definition):
        """Returns the lines of a definition's result."""
        if base.llbm is None:
            self.skipTest("there is no program llbm")
        done = subprocess.run([base.llbm], input=definition, capture_output=True)
        self.assertEqual(done.returncode, 0, done.stderr)
        return done.stdout.decode().splitlines()

    def test_a_merge_and_a_chain_have_a_file_for_each_vertex(self):
        for made in (measure_daemons.merge_of(12), measure_daemons.chain_of(12)):
            names = [line.split(" ")[-1] for line in self.lines(made)]
            self.assertEqual(names, ["/", *sorted(f"/f{place}" for place in range(12))])

    def test_a_source_is_copied(self):
        if base.llbm is None:
            self.skipTest("there is no program llbm")
        tree = self.file(b"tree", b"d 0755 0 0 /\nf 0644 0 0 61 /a\n")
        words = [base.llbm, "run", b"s=" + tree]
        done = subprocess.run(words, input=measure_daemons.copy_of("s"), capture_output=True)
        self.assertEqual(done.stdout, b"d 0755 0 0 /\nd 0755 0 0 /out\nf 0644 0 0 61 /out/a\n", done.stderr)

    def test_a_directory_has_its_files(self):
        at = pathlib.Path(os.fsdecode(self.folder)) / "files"
        measure_daemons.make_files(at, 230)
        self.assertEqual(len([place for place in at.rglob("*") if place.is_file()]), 230)
        self.assertEqual(sorted(os.listdir(at)), ["d0000", "d0001", "d0002"])


class Costs(Folder):
    """What is measured."""

    def test_the_table_has_the_least_and_the_median_of_both(self):
        costs = {
            "mkfile": {"llbmd": [Cost(3, 10), Cost(1, 20), Cost(9, 5)], "buildkitd": [Cost(4, 7), Cost(4, 7)]},
            "merge": {"llbmd": [Cost(2, 1)]},
        }
        rows = list(measure_daemons.rows_of(costs))
        self.assertEqual(rows[0].count("|"), rows[1].count("|"))
        self.assertEqual(rows[2], "| mkfile | 1.00 s | 3.00 s | 20 MB | 4.00 s | 4.00 s | 7 MB | 0.25 |")
        self.assertEqual(rows[3], "| merge | 2.00 s | 2.00 s | 1 MB | - | - | - | - |")

    def test_the_program_is_named(self):
        llbm = os.fsdecode(self.place(b"llbm"))
        pathlib.Path(llbm).write_text("#!/bin/sh\nprintf 'fault 183\\nllbm 2.0, not proved\\n' >&2\nexit 2\n", "utf-8")
        os.chmod(llbm, 0o755)
        heading = measure_daemons.heading(llbm)
        self.assertEqual(heading, f"llbmd ran `llbm 2.0, not proved`, on {os.cpu_count()} processors.")

    def test_the_memory_of_a_child_counts(self):
        with subprocess.Popen(["sh", "-c", "sleep 100000 & echo; wait"], stdout=subprocess.PIPE) as child:
            child.stdout.readline()
            try:
                found = list(measure_daemons.processes_of(child.pid))
                self.assertEqual(len(found), 2)
                self.assertGreater(measure_daemons.memory_of(child.pid), 0)
            finally:
                for process in found:
                    os.kill(process, 15)

    def test_samples_are_taken_until_it_is_stopped(self):
        sampler = measure_daemons.Sampler(os.getpid())
        sampler.start()
        sampler.ended.set()
        sampler.join()
        self.assertGreater(sampler.most, 1)


class Refusals(Folder):
    """What is refused."""

    def test_a_daemon_that_is_not_there_is_named(self):
        llbm = self.place(b"llbm")
        pathlib.Path(os.fsdecode(llbm)).write_text(base.FAKE_SHELL, "utf-8")
        os.chmod(llbm, 0o755)
        done = run("measure-daemons", "--llbm", llbm, "--daemon", self.place(b"none"))
        self.assertEqual((done.returncode, done.stdout), (2, b""))
        self.assertRegex(done.stderr, b"^there is no such program: .*/none; ")

    def test_a_build_that_there_is_not_is_refused(self):
        self.assertEqual(run("measure-daemons", "nothing").returncode, 2)

    def test_a_file_of_buildkitd_that_has_changed_is_not_built(self):
        text = 'import (\n\t_ "x/remotecache/s3"\n)\nvar a = map[string]int{\n\t\t"s3": 1,\n\t\t"inline": 2,\n}\n'
        kept = 'import (\n)\nvar a = map[string]int{\n\t\t"inline": 2,\n}\n'
        self.assertEqual(buildkitd.without(text, "main.go"), kept)
        with self.assertRaises(go_building.NotBuilt):
            buildkitd.without(kept, "main.go")
