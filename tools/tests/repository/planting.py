"""Tests of `plants`: how listings are read, when an answer is kept, what the table has, and what is refused."""

import argparse
import contextlib
import io
import os
import pathlib
import types
from unittest import mock

from llbm_tools.repository import plant_run, plants
from llbm_tools.streams import Refused
from tests.base import Folder, run

LISTING = """rt: checking the crate as it stands
refused     src/laws.rt:15 laws::at_each_path: { }  (returns-clause-paths)
proves      src/laying.rt:21 laying::lay: { Err(Memory) }
not-judged  src/laying.rt:29 laying::lay_onto: { Ok(lower) }  (the tactics met a limit)
"""
LISTING += "plants crate=llb_b planted-in=8 untested=1 no-ensures=0 proves=1 same=2 refused=7 elsewhere=3 "
LISTING += "not-judged=4 not-source=5 not-run=6\n"
NONE = "plants crate=llb_a planted-in=1 untested=0 proves=0 same=0 refused=2 elsewhere=0 not-judged=0 not-run=0\n"
CRATES = "# a comment\nllb_a: sha2\nllb_b staticlib: llb_a sha2  # b\nllb_samples: llb_b\nllbm: llb_b\n"
GIVEN = ["--minutes", "10", "--max", "400"]


class Plants(Folder):
    """The tool `plants`, in a repository that the test makes."""

    def setUp(self):
        super().setUp()
        self.top = pathlib.Path(os.fsdecode(self.folder), "top").resolve()
        for name in ("llb_a", "llb_b"):
            self.write(f"crates/{name}/src/lib.rt", name)
        self.write("crates.txt", CRATES)
        self.write("HANDLES", "none")

    def write(self, name, text):
        """Writes a file of the repository."""
        (self.top / name).parent.mkdir(parents=True, exist_ok=True)
        (self.top / name).write_text(text)

    def test_a_listing_is_counted(self):
        answer = plants.answer_in(LISTING)
        self.assertEqual(answer.numbers(), [8, 7, 7, 6, 1])
        self.assertEqual(answer.proving, ["src/laying.rt:21 laying::lay: { Err(Memory) }"])
        self.assertIsNone(plants.answer_in(LISTING.partition("plants crate")[0]))

    def test_the_table_has_a_line_for_each_crate_and_their_sum(self):
        answers = {"llb_a": plants.answer_in(NONE), "llb_b": plants.answer_in(LISTING)}
        self.assertEqual(plants.table_of(answers)[2:], [
            "| `llb_a` | 1 | 2 | 0 | 0 | 0 |", "| `llb_b` | 8 | 7 | 7 | 6 | 1 |", "| all | 9 | 9 | 7 | 6 | 1 |",
            "", "llb_b: src/laying.rt:21 laying::lay: { Err(Memory) }",
        ])

    def test_crates_of_tests_are_left_out(self):
        self.assertEqual(plants.crates_of(self.top), ["llb_a", "llb_b"])

    def test_the_key_changes_with_the_crate_and_what_is_below(self):
        keys = [plants.key_of(self.top, name, GIVEN) for name in ("llb_a", "llb_b")]
        self.write("crates/llb_b/proofs/Lib.antt", "more")
        self.assertEqual(plants.key_of(self.top, "llb_a", GIVEN), keys[0])
        changed = plants.key_of(self.top, "llb_b", GIVEN)
        self.write("crates/llb_a/src/lib.rt", "other")
        others = [plants.key_of(self.top, "llb_b", GIVEN), plants.key_of(self.top, "llb_b", GIVEN[:2])]
        self.assertEqual(len({*keys, changed, *others}), 5)

    def test_an_answer_is_kept(self):
        kit = mock.patch.object(plants, "kit", return_value=pathlib.Path("/kit"))
        asked = mock.patch.object(plants, "listing", side_effect=[LISTING, NONE])
        with kit, asked as ask, contextlib.redirect_stderr(io.StringIO()):
            first = plants.answer_for(self.top, "llb_b", GIVEN, False)
            self.assertEqual(plants.answer_for(self.top, "llb_b", GIVEN, False), first)
            self.assertEqual(ask.call_count, 1)
            self.assertEqual(plants.answer_for(self.top, "llb_b", GIVEN, True).refused, 2)

    def test_a_part_has_each_nth_function(self):
        module = types.SimpleNamespace(chosen=lambda names, bare: (names, bare))
        plant_run.take_part(module, 2, 3)
        self.assertEqual(module.chosen([*"abcdefgh"], [*"xyz"]), ([*"beh"], ["y"]))
        self.assertEqual(plants.part("2/3"), ["--part", "2", "3"])
        for text in ("0/1", "3/2", "2", "1/2/3", "a/b", "-1/2"):
            with self.assertRaises(argparse.ArgumentTypeError):
                plants.part(text)

    def test_a_crate_that_is_not_proved_has_no_answer(self):
        kit = mock.patch.object(plants, "kit", return_value=pathlib.Path("/kit"))
        with kit, mock.patch.object(plants, "listing", return_value=""), contextlib.redirect_stderr(io.StringIO()):
            with self.assertRaises(plants.NotProved):
                plants.answer_for(self.top, "llb_a", GIVEN, False)
        self.assertFalse((self.top / plants.KEPT).exists())

    def test_the_crate_is_copied_and_the_others_are_links(self):
        self.write("crates/llb_a/out/rlib/llb_a.rlib/format", "")
        self.write("crates/llb_b/out/rlib/llb_b.rlib/format", "")
        folder = pathlib.Path(os.fsdecode(self.folder), "laid")
        folder.mkdir()
        plants.lay_out(self.top, "llb_b", folder)
        self.assertTrue((folder / "crates/llb_a/out/rlib/llb_a.rlib/format").exists())
        self.assertTrue((folder / "crates/llb_a/src").is_symlink())
        self.assertFalse((folder / "crates/llb_b/src").is_symlink())
        self.assertFalse((folder / "crates/llb_b/out").exists())

    def test_documents_of_the_copy_are_plain_comments(self):
        text = "//! a\nenum A {\n    /// b\n    B, // c\n}\n"
        self.write("crates/llb_b/src/part/lib.rt", text)
        folder = pathlib.Path(os.fsdecode(self.folder), "laid")
        folder.mkdir()
        plants.lay_out(self.top, "llb_b", folder)
        self.assertEqual((folder / "crates/llb_b/src/part/lib.rt").read_text(), text.replace("///", "//"))
        self.assertEqual((self.top / "crates/llb_b/src/part/lib.rt").read_text(), text)

    def test_what_is_given_wrongly_is_refused(self):
        for words in [("llb_none",), ("llb_samples",), ("--minutes", "x"), ("--nosuch",)]:
            done = run("plants", "--repository", self.top, *words)
            self.assertEqual((done.returncode, done.stdout), (2, b""), words)
        with mock.patch.object(plants.subprocess, "run", return_value=mock.Mock(returncode=2)):
            with self.assertRaisesRegex(Refused, "^a library below it is missing, .*: llb_b$"):
                plants.listing(self.top, "llb_b", GIVEN)
