"""Tests of the filters of local sources in `build` and `run`, and of the notes that both print."""

import os
import pathlib
import tarfile

from tests import base
from tests.base import run
from tests.building.building import PRINTS, Builds

LINES = ("reading src from in", "left out: nothing", "running definition", "writing out", "out is written")
EXCLUDES = {"local.excludepatterns": '[".git","*.o"]'}
NOTE = "note 0 ExcludePatterns"


def filtered(name, attributes):
    """Returns a local source with attributes."""
    entries = (base.part(2, base.part(1, key) + base.part(2, value)) for key, value in attributes.items())
    return base.part(3, base.part(1, f"local://{name}") + b"".join(entries))


class Sources(Builds):
    """A source with filters."""

    def setUp(self):
        super().setUp()
        base.skip_without_rules(self)
        for path in (".git/HEAD", "a.o", "b", "c/d"):
            place = self.at / "in" / path
            place.parent.mkdir(parents=True, exist_ok=True)
            place.write_text(path)
        self.set_source(EXCLUDES)
        self.set_behavior(PRINTS)

    def set_source(self, *attributes):
        """Sets the definition: a copy of each of these sources of one name."""
        sources = [filtered("src", one) for one in attributes]
        files = base.file_op(base.copy("/none", "/b"), on=sources)
        (self.at / "definition").write_bytes(base.ending(*sources, files))

    def check_lines(self, done, *lines):
        """Checks that a build has made its result and printed these lines."""
        self.assertEqual((done.returncode, done.stderr.decode().splitlines()), (0, list(lines)))

    def paths(self):
        """Returns the paths that the program was given."""
        lines = (self.at / "given").read_text("utf-8").splitlines()
        return [line.rpartition(" ")[2] for line in lines if line[:2] in ("d ", "f ")]


class Filters(Sources):
    """Builds of a source with filters."""

    def test_what_filters_leave_out_is_not_given(self):
        self.check_lines(self.build("definition", "out", "src=in"), *LINES)
        self.assertEqual(self.paths(), ["/", "/b", "/c", "/c/d"])
        done = self.build("--by-value", "definition", "again", "src=in")
        self.assertEqual((done.returncode, self.paths()), (0, ["/", "/b", "/c", "/c/d"]))

    def test_all_is_given_where_that_is_asked_for(self):
        self.check_lines(self.build("--no-filters", "definition", "out", "src=in"), NOTE, *LINES)
        self.assertEqual(self.paths(), ["/", "/.git", "/.git/HEAD", "/a.o", "/b", "/c", "/c/d"])

    def test_only_a_directory_is_filtered(self):
        with tarfile.open(self.at / "in.tar", "w") as archive:
            archive.add(self.at / "in", ".")
        done = self.build("definition", "out", "src=in.tar")
        self.assertEqual((done.returncode, done.stderr.decode().splitlines()[0]), (0, NOTE))
        self.assertIn("/.git/HEAD", self.paths())

    def test_filters_that_can_not_be_applied_are_refused(self):
        self.settings["env"]["LLBM_RULES"] = "/none"
        self.check_end(
            self.build("definition", "out", "src=in"), 2,
            "the local source src has filters, which llbm-rules applies; --no-filters gives all of in: "
            "LLBM_RULES names no program: /none; dev/dev daemon of the repository builds it",
        )  # fmt: skip
        del self.settings["env"]["LLBM_RULES"]
        self.set_source(EXCLUDES, {"local.includepattern": '["b"]'})
        line = "llbm-rules: local source src has filters that differ from entry to entry, but one tree"
        self.check_end(self.build("definition", "out", "src=in"), 2, line)

    def test_what_is_kept_holds_as_long_as_filters_select_the_same(self):
        words = ("--replace", "--keep", "kept", "definition", "out", "src=in")
        self.assertEqual(self.build(*words).returncode, 0)
        (self.at / "in" / "new.o").write_text("not selected")
        (self.at / "given").unlink()
        self.assertEqual(self.build(*words).returncode, 0)
        (self.at / "in" / ".git" / "more").write_text("not selected")
        done = self.build(*words)
        nothing = "nothing to do: out has this definition, these options and these sources"
        self.assertEqual(done.stderr.decode().splitlines(), [nothing])
        (self.at / "in" / "c" / "new").write_text("selected")
        self.assertEqual(self.build(*words).returncode, 0)
        self.assertEqual(self.paths(), ["/", "/b", "/c", "/c/d", "/c/new"])


class Runs(Sources):
    """Runs of `run` on a directory."""

    def run_on(self, *options, name="src"):
        """Runs a program that prints the tree that it is given."""
        place = self.at / "prints"
        place.write_text(base.FAKE_SHELL + 'cat "${2#*=}"\n')
        place.chmod(0o755)
        text = (self.at / "definition").read_bytes()
        return run("run", "--llbm", place, *options, "run", f"{name}=in", text=text, **self.settings)

    def check_run(self, done, lines, *paths):
        """Checks what a run prints."""
        self.assertEqual((done.returncode, done.stderr.decode().splitlines()), (0, lines))
        self.assertEqual([line.rpartition(" ")[2] for line in done.stdout.decode().splitlines()], list(paths))
        self.assertEqual(os.listdir(self.held), [])

    def test_a_directory_is_given_as_its_filters_select_it(self):
        self.check_run(self.run_on(), [], "/", "/b", "/c", "/c/d")

    def test_a_directory_is_given_as_a_whole_where_that_is_asked_for(self):
        everything = ["/", "/.git", "/.git/HEAD", "/a.o", "/b", "/c", "/c/d"]
        self.check_run(self.run_on("--no-filters"), [NOTE], *everything)

    def test_a_text_is_given_as_it_is(self):
        (self.at / "in").rename(self.at / "folder")
        pathlib.Path(self.at, "in").write_text("d 0755 0 0 /\nf 0644 0 0 - /a.o\n")
        self.check_run(self.run_on(), [NOTE], "/", "/a.o")
