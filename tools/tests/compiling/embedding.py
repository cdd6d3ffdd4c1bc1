"""Tests of `library` and `bindings`: what they refuse, the blocks of the page, and what is skipped."""

import contextlib
import ctypes
import io
import os
import pathlib
import shutil
import unittest
from unittest import mock

from llbm_tools.compiling import bindings, library, library_code, library_files, unproved_code
from llbm_tools.streams import Failed, Refused
from tests.base import ROOT, Folder, run


class Library(Folder):
    """The tool `library`."""

    def test_the_libraries_of_the_crate_are_read(self):
        place = pathlib.Path(os.fsdecode(self.folder), "crates.txt")
        place.write_text("llb_wire: sha2\nllb_embed staticlib: core llb_wire sha2\n")
        self.assertEqual(library.libraries_of(place), ["core", "llb_wire", "sha2"])
        place.write_text("llb_wire: sha2\n")
        with self.assertRaisesRegex(Refused, "no crate llb_embed"):
            library.libraries_of(place)

    def test_a_crate_without_its_library_is_refused(self):
        top = pathlib.Path(os.fsdecode(self.folder))
        (top / "crates" / "llb_wire").mkdir(parents=True)
        (top / "crates.txt").write_text("llb_embed staticlib: llb_wire\n")
        with self.assertRaisesRegex(Refused, "^there is no such library: .*/llb_wire.rlib; "):
            library.words_for(top, top)

    def test_command_lines_are_refused(self):
        for words in [
            ("a",), ("--nosuch",), ("--jobs", "x"), ("--unproved", "--repository", "/"), ("-o", "libllbm.so"),
        ]:  # fmt: skip
            done = run("library", *words)
            self.assertEqual((done.returncode, done.stdout), (2, b""), words)

    def test_the_version_says_whether_there_is_a_proof(self):
        proved = library_files.version_of(ROOT, is_proved=True)
        self.assertRegex(proved, r"^llbm \d+\.\d+, proved with Rattle logic [0-9a-f]{16}$")
        unproved = library_files.version_of(ROOT, is_proved=False)
        self.assertEqual(unproved, proved.replace("proved with", "not proved, compiled with"))

    def test_a_main_is_seen_by_no_other_file(self):
        text = unproved_code.without_main("declare i32 @f()\ndefine i32 @main() #0 {\n}\n")
        self.assertEqual(text, "declare i32 @f()\ndefine internal i32 @main() #0 {\n}\n")
        with self.assertRaisesRegex(Failed, "0 functions main"):
            unproved_code.without_main("declare i32 @main()\n")

    @unittest.skipUnless(shutil.which("rt"), "there is no kit")
    def test_the_shared_object_exports_the_functions_alone(self):
        kit, at = library.kit(), pathlib.Path(os.fsdecode(self.folder))
        names = [f"llb_{name}" for name in library_code.EXPORTS]
        code = "".join(f"int {name}(void) {{ return 1; }}\n" for name in [*names, "main"])
        (at / "code.c").write_text(code)
        library_files.compile_for_library(kit, "c", at / "code.c", at / "code.o", "-O1")
        library_code.run([kit / "toolchain" / "bin" / "llvm-ar", "qcs", at / "libllbm.a", at / "code.o"], "the archive")
        library_files.complete(kit, at / "libllbm.a", "llbm 1.0, not proved")
        library_files.link(kit, at / "libllbm.a", at / "libllbm.so")
        made = ctypes.CDLL(str(at / "libllbm.so"))
        made.llb_version.restype = ctypes.c_char_p
        self.assertEqual(made.llb_version(), b"llbm 1.0, not proved")
        self.assertEqual([getattr(made, name)() for name in names], [1] * len(names))
        self.assertNotIn(b"\0main\0", (at / "libllbm.so").read_bytes())


class Bindings(Folder):
    """The tool `bindings`."""

    def test_the_blocks_of_the_page_are_in_their_files(self):
        bindings.check_texts(ROOT)

    def page(self, block):
        """Writes a page with a block of a file, and the file."""
        top = pathlib.Path(os.fsdecode(self.folder))
        for name, text in [("docs/EMBEDDING.md", block), ("bindings/a.c", "one\n  two\n\n  three\n")]:
            (top / name).parent.mkdir(exist_ok=True)
            (top / name).write_text(text)
        return top

    def test_a_block_is_compared_line_by_line(self):
        bindings.check_page(self.page("`bindings/a.c`:\n\n    two\n    three\n"))
        for block in ["`bindings/a.c`:\n\n    one\n    three\n", "`bindings/a.c`:\n\n    four\n", "no block\n"]:
            with self.assertRaises(bindings.Wrong):
                bindings.check_page(self.page(block))

    def test_results_are_counted(self):
        def fail(top):
            raise bindings.Wrong("it is wrong")

        trials = [
            bindings.Trial("a", [], lambda top: None),
            bindings.Trial("b", ["/none/command"], fail),
            bindings.Trial("c", [], fail),
        ]
        archive = pathlib.Path(os.fsdecode(self.folder), "libllbm.a")
        archive.write_bytes(b"")
        with mock.patch.object(bindings, "TRIALS", trials), contextlib.redirect_stdout(io.StringIO()) as out:
            status = bindings.try_all(archive, [])
        self.assertEqual(status, 1)
        lines = ["a: passed", "b: skipped, there is no /none/command", "c: failed: it is wrong"]
        self.assertEqual(out.getvalue().splitlines(), [*lines, "1 passed, 1 failed, 1 skipped"])

    def test_a_command_that_fails_is_wrong(self):
        top = pathlib.Path(os.fsdecode(self.folder))
        self.assertEqual(bindings.call(["cat"], top, b"text"), b"text")
        with self.assertRaisesRegex(bindings.Wrong, "status 1"):
            bindings.call(["false"], top)

    def test_command_lines_are_refused(self):
        for words in [("/none",), ("--only", "cobol"), ("a", "b")]:
            done = run("bindings", *words)
            self.assertEqual((done.returncode, done.stdout), (2, b""), words)
