"""A test of runs in threads that lose the numbers of ready vertices: they all end, with the same result."""

import os
import pathlib
import shutil
import subprocess
import unittest

from llbm_tools.compiling import unproved_program
from tests import base

WORKER = pathlib.Path("crates", "llb_work", "src", "worker.rt")
# A worker puts into the queue what a hold of the lock made Ready; if it does not, only the first numbers are there.
PUTS = "            let put = self.put_all(w, &mut kit);\n            let own"
LOSES = f"            kit.news.clear();\n{PUTS}"


class Losing(base.Folder):
    """Runs of a program without proof that loses numbers."""

    @unittest.skipUnless(shutil.which("rt"), "there is no kit")
    def test_a_run_ends_though_numbers_are_lost(self):
        at = pathlib.Path(os.fsdecode(self.folder))
        # `rt try` may run the program as another user.
        at.chmod(0o755)
        (at / "sources").mkdir()
        unproved_program.copy_sources(at / "sources")
        text = (at / "sources" / WORKER).read_text("utf-8")
        self.assertEqual(text.count(PUTS), 1)
        (at / "sources" / WORKER).write_text(text.replace(PUTS, LOSES), "utf-8")
        unproved_program.compile_into(at / "sources", at / "program")
        for kind, count in [("chain", 40), ("fan", 60), ("pairs", 40)]:
            definition = base.run("bigdef", kind, str(count)).stdout
            results = {self.result(at / "program", definition, workers) for workers in (1, 2, 4, 64)}
            self.assertEqual(len(results), 1, kind)

    def result(self, program, definition, workers):
        """Returns what a run prints, which has to end well."""
        words = [program, "run", "--workers", str(workers)]
        done = subprocess.run(words, input=definition, capture_output=True, timeout=base.GUARD)
        self.assertEqual((done.returncode, done.stderr), (0, b""))
        return done.stdout
