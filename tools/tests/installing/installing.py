"""Tests of `install` and `dist`, with a small program in place of llbm."""

import hashlib
import io
import json
import os
import pathlib
import shutil
import subprocess
import sys
import tarfile
import unittest
import zipfile
from unittest import mock
from xml.etree import ElementTree

from llbm_tools import common, paths
from llbm_tools.commands import of_users
from llbm_tools.installing import installation as made
from tests import base
from tests.base import ROOT, Folder, run
from tests.debugging import protocol

VERSION = f"1.0, proved with {common.PROVER}"
PROGRAM = f"#!/bin/sh\nprintf 'fault 183\\nllbm {VERSION}\\n' >&2\nexit 2\n"
COMMANDS = {
    "llbm", "llbm-tools", "llbm-build", "llbm-lint", "llbm-adopt", "llbm-explain", "llbm-debug-adapter",
    "llbm-tree-from-tar",
}
OTHERS = {
    "lib/llbm/docs/FAULTS.md", "lib/llbm/examples/tour.definition", "lib/llbm/installed", "lib/llbm/program",
    "share/bash-completion/completions/llbm", "share/zsh/site-functions/_llbm",
    "share/fish/vendor_completions.d/llbm.fish", "share/man/man1/llbm.1",
}


def below(folder):
    """Returns the paths below a folder of all that is no directory, relative to it."""
    return {str(place.relative_to(folder)) for place in folder.rglob("*") if place.is_symlink() or not place.is_dir()}


class WithFake(Folder):
    """A test with a small program in place of llbm."""

    def setUp(self):
        super().setUp()
        self.at = pathlib.Path(os.fsdecode(self.folder))
        self.llbm = self.at / "llbm"
        self.llbm.write_text(PROGRAM)
        self.llbm.chmod(0o755)


class Install(WithFake):
    """The tool `install`."""

    def setUp(self):
        super().setUp()
        self.prefix = self.at / "prefix"

    def install(self, *words, status=0):
        """Installs the small program, and returns the lines that are printed, or those on standard error."""
        done = run("install", "--llbm", str(self.llbm), *words, str(self.prefix))
        self.assertEqual(done.returncode, status, done.stderr)
        return (done.stderr if status else done.stdout).decode().splitlines()

    def listed(self):
        """Returns the list of the installation."""
        return (self.prefix / "lib" / "llbm" / "installed").read_text().splitlines()

    def test_all_files_are_below_the_prefix_and_listed(self):
        before = below(self.at)
        lines = self.install()
        found = below(self.prefix)
        self.assertEqual(lines, [f"{len(found)} files are in {self.prefix}; the program is not proved"])
        self.assertEqual(below(self.at) - before, {f"prefix/{path}" for path in found})
        self.assertEqual(self.listed(), sorted(found))
        self.assertLessEqual({f"bin/{name}" for name in COMMANDS} | OTHERS, found)
        self.assertEqual((self.prefix / "bin" / "llbm").read_text(), PROGRAM)
        self.assertFalse([path for path in found if "__pycache__" in path or "/tests/" in path])

    def test_each_tool_but_those_of_the_repository_has_a_command(self):
        self.install()
        programs = {"llbm", "llbmd", "rules"}  # llbmd and llbm-rules are there if dev/dev daemon has built them
        commands = {name.removeprefix("llbm-") for name in os.listdir(self.prefix / "bin")} - programs
        wanted = {name for one in of_users() for name in (one.words.replace(" ", "-"), one.old)} - {"library"}
        self.assertEqual(commands, {*wanted, "tools"})
        # The modules that make and test what is installed are not there, and none of the others needs them.
        packages = {place.name for place in (self.prefix / "lib" / "llbm" / "tools" / "llbm_tools").glob("*/")}
        self.assertEqual(packages & {*made.MAINTENANCE, "tests"}, set())
        for name in sorted(commands):
            words = [sys.executable, self.prefix / "bin" / f"llbm-{name}", "--help"]
            done = subprocess.run(words, capture_output=True, text=True)
            self.assertEqual((done.returncode, done.stderr), (0, ""), name)
            self.assertTrue(done.stdout.startswith(f"usage: llbm-{name} "), name)
        imports = "import importlib, pkgutil, llbm_tools; [importlib.import_module(one.name) for one in "
        imports += "pkgutil.walk_packages(llbm_tools.__path__, 'llbm_tools.') if '.page.' not in one.name]"
        known = {**os.environ, "PYTHONPATH": str(self.prefix / "lib" / "llbm" / "tools")}
        self.check_success(subprocess.run([sys.executable, "-c", imports], capture_output=True, env=known))

    def test_the_door_of_an_installation_has_its_commands(self):
        self.install()
        door = self.prefix / "bin" / "llbm-tools"
        done = subprocess.run([sys.executable, door, "--help"], capture_output=True, text=True)
        self.assertEqual((done.returncode, done.stderr), (0, ""))
        self.assertIn("  tree to tar  ", done.stdout)
        self.assertNotIn("library", done.stdout)
        words = [sys.executable, door, "explain", "fault", "12"]
        self.check_success(subprocess.run(words, capture_output=True), b"12: the bytes of a string are not UTF-8. "
                           b"Write the string as UTF-8.\n")

    def test_programs_and_the_page_are_installed_where_they_are_built(self):
        rules, daemon, page = self.at / "rules", self.at / "daemon", self.at / "page"
        with mock.patch.multiple(paths, RULES=rules, DAEMON=daemon, PAGE=page):
            self.assertEqual([*made.program_items(), *made.built_items()], [])
            page.mkdir()
            for place in (rules, daemon, page / "index.html"):
                place.write_bytes(b"x")
            items = [*made.program_items(), *made.built_items()]
        self.assertEqual([item.path for item in items], ["bin/rules", "bin/daemon", "lib/llbm/page/index.html"])
        self.assertEqual([item.mode for item in items], [0o755, 0o755, 0o644])

    def test_a_library_is_installed_with_its_header_and_the_bindings(self):
        proved, unproved = self.at / "libllbm.a", self.at / "libllbm-unproved.a"
        with mock.patch.object(paths, "LIBRARIES", (proved, unproved)):
            self.assertEqual(list(made.library_items()), [])
            for place, words in ((unproved, "not proved, compiled with"), (proved, "proved with")):
                place.write_bytes(words.encode())
                place.with_suffix(".so").write_bytes(b"shared")
                items = {item.path: item for item in made.library_items()}
                self.assertEqual(items["lib/libllbm.a"].content, words.encode())
                self.assertEqual(items["lib/libllbm.so"].content, b"shared")
                lines = items["lib/pkgconfig/llbm.pc"].content.decode().splitlines()
                self.assertIn(f"Description: llbm 1.0, {words} {common.PROVER}", lines)
                self.assertIn("Version: 1.0", lines)
        others = {"include/llbm.h", "lib/llbm/bindings/go/llbmtest/llbmtest.go", "lib/llbm/bindings/rust/Cargo.toml"}
        self.assertLessEqual(others | {"lib/llbm/bindings/python/llbm/testing.py"}, set(items))
        # Tests of the bindings stay in the repository, of which they read examples.
        self.assertFalse([path for path in items if "/test" in path.replace("/testing.", "") or "_test." in path])
        self.assertEqual(items["include/llbm.h"].content, (ROOT / "bindings" / "llbm.h").read_bytes())

    @unittest.skipUnless(shutil.which("pkg-config"), "there is no pkg-config")
    def test_pkg_config_finds_the_library_of_an_installation(self):
        archive, place = self.at / "libllbm.a", self.prefix / "lib" / "pkgconfig" / "llbm.pc"
        archive.write_bytes(b"")
        place.parent.mkdir(parents=True)
        with mock.patch.object(paths, "LIBRARIES", (archive, archive)):
            place.write_bytes({item.path: item.content for item in made.library_items()}["lib/pkgconfig/llbm.pc"])
        words = ["pkg-config", "--cflags", "--libs", "llbm"]
        found = {**os.environ, "PKG_CONFIG_PATH": str(place.parent)}
        done = subprocess.run(words, env=found, capture_output=True, text=True, timeout=base.GUARD)
        folders = [os.path.normpath(word[2:]) for word in done.stdout.split() if word[:2] in ("-I", "-L")]
        self.assertEqual((folders, done.stderr), ([f"{self.prefix}/include", f"{self.prefix}/lib"], ""))

    def test_each_command_has_completions_and_a_page_of_the_manual(self):
        self.install()
        others = {"llbm-rules", "llbmd", *(f"llbm-{one.old}" for one in of_users() if one.old != one.words)}
        for name in {*os.listdir(self.prefix / "bin")} - others:
            for path in (
                f"bash-completion/completions/{name}", f"zsh/site-functions/_{name}",
                f"fish/vendor_completions.d/{name}.fish", f"man/man1/{name}.1",
            ):  # fmt: skip
                text = (self.prefix / "share" / path).read_text()
                self.assertIn(name, text.replace("\\-", "-"), path)

    def test_tools_take_the_program_and_the_pages_of_the_installation(self):
        self.install()
        command = [sys.executable, self.prefix / "bin" / "llbm-explain", "fault", "12"]
        done = subprocess.run(command, capture_output=True, text=True)
        self.assertEqual((done.returncode, done.stderr), (0, ""))
        self.assertTrue(done.stdout.startswith("12: the bytes of a string are not UTF-8."), done.stdout)
        definition = self.file(b"definition", base.ending(base.source("local://a")))
        (self.prefix / "bin" / "llbm").write_text(base.FAKE_SHELL + "echo 'd 0755 0 0 /'\n")
        command = [sys.executable, self.prefix / "bin" / "llbm-build", definition, self.at / "result"]
        environment = {name: value for name, value in os.environ.items() if name != "LLBM"}
        done = subprocess.run(command, capture_output=True, text=True, env=environment)
        self.assertEqual(done.returncode, 0, done.stderr)
        self.assertTrue((self.at / "result").is_dir())

    def test_an_installation_may_be_moved(self):
        self.install()
        moved = self.at / "moved"
        self.prefix.rename(moved)
        for path in ("bin/llbm-lint", "bin/llbm-explain", "share/doc/llbm/FAULTS.md"):
            self.assertTrue((moved / path).is_file(), path)
        done = subprocess.run([sys.executable, moved / "bin" / "llbm-explain", "fault", "12"], capture_output=True)
        self.assertEqual((done.returncode, done.stderr), (0, b""))

    def test_a_dry_run_prints_the_paths_and_writes_nothing(self):
        lines = self.install("--dry-run")
        self.assertFalse(self.prefix.exists())
        self.install()
        self.assertEqual(lines, [f"{self.prefix}/{path}" for path in self.listed()])

    def test_an_installation_is_replaced(self):
        self.install()
        old = self.prefix / "lib" / "llbm" / "tools" / "old"
        old.write_text("")
        with open(self.prefix / "lib" / "llbm" / "installed", "a") as file:
            file.write("lib/llbm/tools/old\n")
        self.llbm.write_text(PROGRAM + "# new\n")
        self.install()
        self.assertEqual((self.prefix / "bin" / "llbm").read_text(), PROGRAM + "# new\n")
        self.assertFalse(old.exists())
        self.assertEqual(self.listed(), sorted(below(self.prefix)))

    def test_a_file_in_the_way_is_refused_before_anything_is_written(self):
        place = self.prefix / "share" / "man" / "man1" / "llbm.1"
        place.parent.mkdir(parents=True)
        place.write_text("mine")
        self.assertEqual(self.install(status=2), [f"this is in the way: {place}"])
        self.assertEqual(below(self.prefix), {"share/man/man1/llbm.1"})
        self.assertEqual(place.read_text(), "mine")

    def test_what_is_installed_can_be_removed(self):
        self.install()
        mine = self.prefix / "bin" / "mine"
        mine.write_text("")
        self.assertEqual(len(self.install("--uninstall", "--dry-run")), len(self.listed()))
        self.install("--uninstall")
        self.assertEqual([str(place.relative_to(self.prefix)) for place in self.prefix.rglob("*")], ["bin", "bin/mine"])
        there = [f"there is no installation: {self.prefix}/lib/llbm/installed"]
        self.assertEqual(self.install("--uninstall", status=2), there)

    def test_a_list_that_leads_out_of_the_prefix_is_refused(self):
        self.install()
        for path in ("../llbm", str(self.llbm)):
            (self.prefix / "lib" / "llbm" / "installed").write_text(f"bin/llbm\n{path}\n")
            self.install("--uninstall", status=2)
            self.assertTrue(self.llbm.exists())
            self.assertTrue((self.prefix / "bin" / "llbm").exists())

    def test_programs_and_command_lines_are_refused(self):
        for words in [("--llbm", "/none"), ("--llbm", "/bin/true"), ("--nosuch",), ("more",)]:
            done = run("install", *words, str(self.prefix))
            self.assertEqual((done.returncode, done.stdout), (2, b""), words)
        self.assertFalse(self.prefix.exists())


class Proof(WithFake):
    """Which program is called proved."""

    def state(self, receipt):
        """Returns whether the small program is proved, where the gate has left this."""
        place = self.at / "gate-passed"
        place.write_text(receipt)
        with mock.patch.object(made, "RECEIPT", place):
            return made.program_at(str(self.llbm)).is_proved

    def test_only_a_program_on_which_the_gate_passed_is_proved(self):
        content = PROGRAM.encode()
        self.assertTrue(self.state(made.receipt_of(content)))
        self.assertIn(hashlib.sha256(content).hexdigest(), made.receipt_of(content))
        for receipt in ("", made.receipt_of(content + b"\n"), made.receipt_of(content).replace("logic", "other")):
            self.assertFalse(self.state(receipt))
        with mock.patch.object(made, "RECEIPT", self.at / "none"):
            self.assertFalse(made.program_at(str(self.llbm)).is_proved)

    def test_a_program_that_says_that_it_is_not_proved_is_not(self):
        text = PROGRAM.replace("proved with", "not proved, compiled with")
        self.llbm.write_text(text)
        self.assertFalse(self.state(made.receipt_of(text.encode())))


class Dist(WithFake):
    """The tool `dist`."""

    name = "llbm-1.0-unproved-x86_64-linux"

    def pack(self, folder):
        """Packs the small program into a new folder, and returns the archive and the digests."""
        done = run("dist", "--llbm", str(self.llbm), "-o", str(self.at / folder))
        places = [self.at / folder / f"{self.name}.tar.gz{ending}" for ending in ("", ".sha256")]
        self.check_success(done, "".join(f"{place}\n" for place in places).encode())
        return places

    def check_same(self, one, other):
        """Checks that two archives of the same files are the same, and that nothing in them is of this host."""
        for mine, its in zip(one, other):
            self.assertEqual(mine.read_bytes(), its.read_bytes())
        with tarfile.open(one[0]) as archive:
            members = archive.getmembers()
        self.assertEqual({(member.uid, member.gid, member.mtime, member.uname) for member in members}, {(0, 0, 0, "")})
        self.assertEqual([member.name for member in members], sorted(member.name for member in members))

    def check_all_digests(self, unpacked):
        """Checks that all files of an archive have their digests in it."""
        self.check_digests(unpacked / "sha256sums", unpacked)
        found = below(unpacked)
        links = {path for path in found if (unpacked / path).is_symlink()}
        named = {line[66:] for line in (unpacked / "sha256sums").read_text().splitlines()}
        self.assertEqual(named, found - links - {"sha256sums"})

    def check_digests(self, digests, folder):
        """Checks that a file of digests holds in a folder."""
        command = ["sha256sum", "--check", "--quiet", digests]
        done = subprocess.run(command, cwd=folder, capture_output=True, timeout=base.GUARD)
        self.assertEqual((done.returncode, done.stdout, done.stderr), (0, b"", b""))

    def test_the_archive_has_what_is_installed_with_its_digests_and_is_made_the_same_again(self):
        archive, digests = one = self.pack("one")
        self.check_same(one, self.pack("other"))
        run("install", "--llbm", str(self.llbm), str(self.at / "prefix"))
        subprocess.run(["tar", "-xf", archive], cwd=self.at / "one", check=True)
        packed = self.at / "one" / self.name
        self.check_digests(digests, self.at / "one")
        self.check_all_digests(packed)
        self.assertEqual(below(packed), below(self.at / "prefix") | {"sha256sums"})
        for path in below(self.at / "prefix"):
            mine, its = packed / path, self.at / "prefix" / path
            self.assertEqual((mine.read_bytes() if mine.is_file() else b"", mine.lstat().st_mode & 0o777),
                             (its.read_bytes() if its.is_file() else b"", its.lstat().st_mode & 0o777), path)

    def test_programs_and_command_lines_are_refused(self):
        for words in [("--llbm", "/none"), ("--nosuch",), ("more",)]:
            done = run("dist", *words, cwd=self.at)
            self.assertEqual((done.returncode, done.stdout), (2, b""), words)
        self.assertEqual(os.listdir(self.at), ["llbm"])


class Extension(WithFake):
    """The extension for VS Code, as an installation has it."""

    def extension(self):
        """Returns the archive of the extension."""
        program = made.Program(self.llbm.read_bytes(), VERSION, False)
        (item,) = [item for item in made.items_of(program) if item.path == "lib/llbm/llbm.vsix"]
        return item.content

    def test_it_has_a_description_and_what_the_adapter_needs(self):
        with zipfile.ZipFile(io.BytesIO(self.extension())) as archive:
            names = archive.namelist()
            package = json.loads(archive.read("extension/package.json"))
            manifest = ElementTree.fromstring(archive.read("extension.vsixmanifest"))
            types = ElementTree.fromstring(archive.read("[Content_Types].xml"))
        self.assertEqual(names, sorted(names))
        self.assertLessEqual({"extension/llbm-tools", "extension/docs/FAULTS.md"}, set(names))
        identity = next(one for one in manifest.iter() if one.tag.endswith("}Identity"))
        wanted = (package["name"], "1.0.0", package["publisher"])
        self.assertEqual(tuple(identity.get(name) for name in ("Id", "Version", "Publisher")), wanted)
        self.assertEqual(package["version"], "1.0.0")
        self.assertEqual(package["contributes"]["languages"][0]["extensions"], [".llbtext"])
        endings = {one.get("Extension") for one in types} | {one.get("PartName") for one in types}
        for name in set(names) - {"[Content_Types].xml"}:
            self.assertTrue({name.rpartition(".")[2], f"/{name}"} & endings, name)

    def test_the_same_files_make_the_same_bytes(self):
        self.assertEqual(self.extension(), self.extension())

    def test_the_adapter_inside_of_it_runs_a_definition(self):
        if base.llbm is None:
            self.skipTest("the program llbm is needed (--llbm PROGRAM)")
        with zipfile.ZipFile(io.BytesIO(self.extension())) as archive:
            archive.extractall(self.at)
        extension = self.at / "extension"
        known = json.loads((extension / "package.json").read_text())["contributes"]["debuggers"][0]
        client = protocol.Client([sys.executable, "-S", extension / known["program"], *known["args"]], cwd=self.at)
        self.addCleanup(client.close)
        client.ask("initialize", adapterID="llbm")
        examples = ROOT / "examples"
        client.ask(
            "launch", llbm=base.llbm, definition=str(examples / "tour.definition"),
            sources={"source": str(examples / "tour.tree")}, stopAtEnd=True,
        )
        client.until("initialized")
        client.ask("configurationDone")
        self.assertEqual(client.stopped()["reason"], "end")
