"""Tests that a debugger, `explain run` and `explain buildkit` give what a source of a directory selects by filters."""

import os
import pathlib

from llbm_tools.debugging import launching
from llbm_tools.llb import messages
from llbm_tools.llb.messages import made
from tests import base
from tests.base import run

EXCLUDES = made("AttributeEntry", key="local.excludepatterns", value='[".git","*.o"]')
NOTE, DIFFERENCE = "note 0 ExcludePatterns", "/a.o is missing (here a file): Filters"
SELECTED, EVERYTHING = ["/", "/b", "/c", "/c/d"], ["/", "/.git", "/.git/HEAD", "/a.o", "/b", "/c", "/c/d"]


class Runs(base.WithProgram):
    """Runs whose result is a source with filters, on a directory."""

    def setUp(self):
        super().setUp()
        base.skip_without_rules(self)
        self.at = pathlib.Path(os.fsdecode(self.folder))
        for path in (".git/HEAD", "a.o", "b", "c/d"):
            place = self.at / "in" / path
            place.parent.mkdir(parents=True, exist_ok=True)
            place.write_text(path)
        source = made("Op", source=made("SourceOp", identifier="local://src", attrs=(EXCLUDES,)))
        (self.at / "definition").write_bytes(base.ending(messages.encoded(source)))

    def lines(self, tool, *words, status=0, text=b""):
        """Returns what a tool prints of a run on the directory."""
        done = run(tool, "--llbm", base.llbm, *words, "definition", "src=in", cwd=self.at, text=text)
        self.assertEqual((done.returncode, done.stderr), (status, b""))
        return [line.strip() for line in done.stdout.decode().splitlines()]

    def launched(self, **arguments):
        """Returns the paths of the result of a launch."""
        given = {"definition": str(self.at / "definition"), "sources": {"src": str(self.at / "in")}, "llbm": base.llbm}
        launched = launching.launch({**given, **arguments}, lambda _: None)
        self.addCleanup(launched.session.end)
        while launched.session.event("next"):
            pass
        return [line.rpartition(b" ")[2].decode() for line in launched.session.tree(0, 0)]

    def test_a_launch_of_an_editor_gives_what_filters_select(self):
        self.assertEqual(self.launched(), SELECTED)
        self.assertEqual(self.launched(noFilters=True), EVERYTHING)

    def test_the_prompt_gives_what_filters_select(self):
        for words, found in ((), []), (("--no-filters",), [f"BuildKit: {DIFFERENCE}"]):
            lines = self.lines("debug", *words, text=b"go\ndiff\n")
            self.assertEqual([line for line in lines if line.startswith("BuildKit: /a.o")], found)

    def test_explain_run_counts_what_filters_select(self):
        self.assertIn("output 0: 2 directories, 2 files, 4 bytes", self.lines("explain-run", "--summary"))
        lines = self.lines("explain-run", "--summary", "--no-filters")
        self.assertIn("output 0: 3 directories, 4 files, 16 bytes", lines)

    def test_filters_that_are_applied_are_no_difference_to_buildkit(self):
        self.assertEqual([line for line in self.lines("explain-run") if line.startswith("BuildKit: ")], [])
        self.assertEqual(self.lines("as-buildkit"), ["the results agree"])
        self.assertIn(f"BuildKit: {NOTE}", self.lines("explain-run", "--no-filters"))
        lines = self.lines("as-buildkit", "--no-filters", status=1)
        self.assertEqual([lines[0], lines[-1]], [NOTE, "the results differ at 3 paths"])

    def test_filters_that_can_not_be_applied_are_refused(self):
        told = "the local source src has filters, which llbm-rules applies; --no-filters gives all of in: " \
               "LLBM_RULES names no program: /none; dev/dev daemon of the repository builds it\n"  # fmt: skip
        for tool in ("debug", "explain-run"):
            words = (tool, "--llbm", base.llbm, "definition", "src=in")
            done = run(*words, cwd=self.at, env={**os.environ, "LLBM_RULES": "/none"})
            self.check_run(done, 2, b"", told.encode())
