"""Tests of the definitions in examples/from-buildkit, which BuildKit's own client made."""

import os
import pathlib
import subprocess
import unittest

from llbm_tools.llb import definition, wire
from llbm_tools.llb.ops import Input
from tests import base
from tests.base import ROOT, run

STORED = ROOT / "examples" / "from-buildkit"
NAMES = ["copy", "dockerfile", "exec", "image", "merge", "newer"]
TREES_OF = {"copy": "copy", "dockerfile": "dockerfile", "exec": "exec", "merge": "merge", "newer": "copy"}

METADATA, SOURCE = 2, 3
KEY = 1


def stored(name):
    """Returns the bytes of a stored definition."""
    return (STORED / name / "definition").read_bytes()


def held(field, message):
    """Returns the values of the records of a field of a message."""
    return [record.held for record in wire.records(message) if record.field == field]


def tree_of(name, given):
    """Returns the result of a definition on the local trees of an example."""
    trees = [f"{place.stem}={place}" for place in (STORED / TREES_OF[name]).glob("*.tree")]
    return subprocess.run([base.llbm, "run", *trees], input=given, stdout=subprocess.PIPE, check=True).stdout


class StoredDefinitions(unittest.TestCase):
    """The stored definitions are whole ones, as a client writes them, not only entries."""

    def test_the_folder_has_these_examples(self):
        self.assertEqual(sorted(path.parent.name for path in STORED.glob("*/definition")), NAMES)

    def test_each_entry_has_metadata_under_its_digest(self):
        for name in NAMES:
            digests = {base.digest(entry).encode() for entry in definition.entries_of(stored(name))}
            keys = [held(KEY, one)[0] for one in held(METADATA, stored(name))]
            self.assertEqual(sorted(keys), sorted(digests), name)

    def test_the_metadata_has_names_for_people(self):
        names = {"copy": b"the project", "exec": b"joins the words", "merge": b"all layers", "newer": b"the rest"}
        for name, words in names.items():
            self.assertEqual(sum(words in one for one in held(METADATA, stored(name))), 1, name)

    def test_each_has_a_source_field_and_two_have_the_text_of_a_file(self):
        texts = {"image": b"FROM alpine:3.19\n", "dockerfile": (STORED / "dockerfile" / "Dockerfile").read_bytes()}
        for name in NAMES:
            self.assertEqual(len(held(SOURCE, stored(name))), 1, name)
            self.assertEqual(b"FROM " in held(SOURCE, stored(name))[0], name in texts)
        for name, text in texts.items():
            self.assertIn(text, held(SOURCE, stored(name))[0])

    def test_the_last_entry_only_names_the_result(self):
        for name in NAMES:
            *entries, last = definition.entries_of(stored(name))
            self.assertEqual([record.field for record in wire.records(last)], [1], name)
            self.assertEqual(definition.op_of(0, last).inputs, (Input(digest=base.digest(entries[-1])),), name)

    def test_the_newer_client_makes_the_same_graph_with_other_bytes(self):
        one, two = (definition.entries_of(stored(name)) for name in ("copy", "newer"))
        self.assertEqual(definition.graph_of(one), definition.graph_of(two))
        for row, (older, newer) in enumerate(zip(one[:-1], two[:-1], strict=True)):
            self.assertNotEqual(older, newer)
            ops = [definition.op_of(row, entry) for entry in (older, newer)]
            self.assertEqual(len(ops[0].inputs), len(ops[1].inputs))
            self.assertEqual(*[{**vars(op), "inputs": ()} for op in ops])


class StoredRuns(unittest.TestCase):
    """The stored definitions, run by the program."""

    def setUp(self):
        if base.llbm is None:
            raise unittest.SkipTest("the program llbm is needed (--llbm PROGRAM)")

    def llbm(self, *words, given):
        """Returns what the program prints for this input; it has to succeed."""
        done = subprocess.run([base.llbm, *words], input=given, capture_output=True, timeout=base.GUARD)
        self.assertEqual((done.returncode, done.stderr), (0, b""), words)
        return done.stdout

    def test_metadata_and_source_change_nothing(self):
        for name in TREES_OF:
            alone = base.definition(*definition.entries_of(stored(name)))
            self.assertEqual(self.llbm("show", given=alone), self.llbm("show", given=stored(name)), name)
            self.assertEqual(tree_of(name, alone), tree_of(name, stored(name)), name)

    def test_the_text_of_the_entries_has_the_same_bytes(self):
        for name in NAMES:
            text = self.llbm("dis", given=stored(name))
            entries = definition.entries_of(stored(name))
            # The newer client writes the platform and the constraints of an op before the op's own message.
            self.assertEqual(text.count(b"raw "), len(entries) - 1 if name == "newer" else 0, name)
            self.assertEqual(self.llbm("asm", given=text), base.definition(*entries), name)

    def test_the_order_of_the_sources_does_not_matter(self):
        one, two, *rest = definition.entries_of(stored("exec"))
        swapped = base.definition(two, one, *rest)
        self.assertIn(b"\n2 exec steps 5 outputs 1 inputs 0.0 1.0\n", self.llbm("show", given=stored("exec")))
        self.assertIn(b"\n2 exec steps 5 outputs 1 inputs 1.0 0.0\n", self.llbm("show", given=swapped))
        self.assertEqual(tree_of("exec", swapped), tree_of("exec", stored("exec")))

    def test_an_image_is_refused_with_its_row(self):
        image, script, last = definition.entries_of(stored("image"))
        for given, row in [(stored("image"), 0), (base.definition(script, image, last), 1)]:
            done = subprocess.run([base.llbm, "show"], input=given, capture_output=True, timeout=base.GUARD)
            self.assertEqual((done.returncode, done.stdout, done.stderr), (2, b"", f"fault 88 {row} Source\n".encode()))


class Corpus(base.WithProgram):
    """The stored definitions through `lint`, `adopt` and `build`."""

    def adopted(self, name):
        """Adopts a definition, and returns its path and the names of its local sources."""
        place, listed = self.place(name.encode()), self.place(b"sources")
        done = run("adopt", STORED / name / "definition", "-o", place, "--sources", listed)
        self.assertEqual((done.returncode, done.stdout), (0, b""), name)
        lines = pathlib.Path(os.fsdecode(listed)).read_text().splitlines()
        return place, [line.split("\t")[0] for line in lines]

    def test_lint_finds_what_adopt_changes(self):
        base.skip_without_rules(self)
        for name in NAMES:
            status, found = (1, b"fault 88 0 Source\t(Dockerfile:1)\n") if name == "image" else (0, b"")
            done = run("lint", STORED / name / "definition")
            faults = [line for line in done.stdout.splitlines(keepends=True) if line.startswith(b"fault ")]
            self.assertEqual((done.returncode, b"".join(faults)), (status, found), name)
            place, _ = self.adopted(name)
            self.check_accepted(place)
            is_same = pathlib.Path(os.fsdecode(place)).read_bytes() == stored(name)
            self.assertEqual(is_same, name != "image", name)

    def test_all_options_change_no_script_that_runs(self):
        for name in NAMES:
            place, _ = self.adopted(name)
            done = run("adopt", "--all", STORED / name / "definition")
            self.assertEqual(done.stdout, pathlib.Path(os.fsdecode(place)).read_bytes(), name)

    def test_each_is_built_from_directories(self):
        if base.llbm is None:
            raise unittest.SkipTest("the program llbm is needed (--llbm PROGRAM)")
        for name in TREES_OF:
            place, names = self.adopted(name)
            result = self.place(name.encode() + b".tar")
            words = [f"{source}={self.directory(name, source)}" for source in names]
            done = run("build", "--llbm", base.llbm, place, result, *words)
            self.assertEqual(done.returncode, 0, done.stderr)
            # A build gives the entries of sources the owner 0:0; the trees of two examples have entries of 5:5.
            wanted = tree_of(name, stored(name)).replace(b" 5 5 ", b" 0 0 ")
            self.assertEqual(run("tree-of-tar", result).stdout, wanted, name)

    def test_both_ways_and_pipes_build_the_same(self):
        if base.llbm is None:
            raise unittest.SkipTest("the program llbm is needed (--llbm PROGRAM)")
        for name in NAMES:
            place, names = self.adopted(name)
            words = [f"{source}={self.source(name, source)}" for source in names]
            build = ["build", "--llbm", base.llbm]
            done = run(*build, place, "-", *words)
            self.assertEqual((done.returncode, bool(done.stdout)), (1 if name == "image" else 0, name != "image"), name)
            given = pathlib.Path(os.fsdecode(place)).read_bytes()
            for options in [("--by-value",), ("--progress",)]:
                other = run(*build, *options, "-", "-", *words, text=given)
                self.assertEqual((other.returncode, other.stdout), (done.returncode, done.stdout), (name, options))

    def source(self, name, source):
        """Returns the directory of a local source: of an example, or one without entries for what `adopt` names."""
        if name in TREES_OF:
            return self.directory(name, source)
        place = self.place(f"{name}-{source}".encode())
        os.mkdir(place)
        return os.fsdecode(place)

    def directory(self, name, source):
        """Makes the directory of a local source of an example, and returns its path."""
        place = self.place(f"{name}-{source}".encode())
        text = (STORED / TREES_OF[name] / f"{source}.tree").read_bytes()
        self.check_success(run("directory-of-tree", place, text=text))
        return os.fsdecode(place)
