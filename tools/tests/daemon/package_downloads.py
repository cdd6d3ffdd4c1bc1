"""Tests of `debian_packages`, with an apt and a dpkg that the tests write, and of what `daemon` refuses."""

import os
import pathlib
import subprocess
from unittest import mock

from llbm_tools import paths
from llbm_tools.daemon import buildkitd, debian_packages, go_building, runc
from tests import base
from tests.base import Folder, run

APT = """#!/bin/sh
echo "$*" >> "$LOG"
while [ $# -gt 0 ]; do
    case "$1" in
    indextargets) printf 'one:/\\nother:/\\none:/\\n'; exit ;;
    update)
        cat sources.list >> "$LOG"; cat settings >> "$LOG"
        grep -q "$HAS" sources.list && exit; echo 'E: no release file'; exit 100 ;;
    download)
        shift
        for name; do [ "$name" = gone ] && { echo "E: no package $name"; exit 100; }; echo "$name" > "$name.deb"; done
        exit ;;
    esac
    shift
done
"""
DPKG = """#!/bin/sh
mkdir -p "$3/usr" && cp "$2" "$3/usr/"
"""


class Unpacking(Folder):
    """Packages that are unpacked into a folder."""

    def setUp(self):
        super().setUp()
        at = pathlib.Path(os.fsdecode(self.folder))
        self.log, self.into = at / "log", at / "packages"
        programs = at / "bin"
        programs.mkdir()
        for name, text in (("apt-get", APT), ("dpkg-deb", DPKG)):
            (programs / name).write_text(text, "utf-8")
            (programs / name).chmod(0o755)
        keyring = at / "keyring"
        keyring.touch()
        way = f"{programs}:{os.environ['PATH']}"
        for change in (
            mock.patch.dict(os.environ, {"PATH": way, "LOG": str(self.log), "HAS": "other:/"}),
            mock.patch.object(debian_packages, "KEYRINGS", [at / "none", keyring]),
        ):
            change.start()
            self.addCleanup(change.stop)

    def fault(self, *names):
        """Returns why packages can't be had."""
        with self.assertRaises(debian_packages.Missing) as caught:
            debian_packages.unpacked(self.into, [*names])
        return str(caught.exception)

    def test_packages_come_from_the_first_repository_that_has_the_release(self):
        self.assertEqual(debian_packages.unpacked(self.into, ["a", "b"]), self.into)
        self.assertEqual(sorted(os.listdir(self.into / "usr")), ["a.deb", "b.deb"])
        self.assertEqual((self.into / "unpacked").read_text("utf-8"), "a\nb\n")
        said = self.log.read_text("utf-8")
        lines = [line for line in said.splitlines() if line.startswith("deb ")]
        keyring = debian_packages.KEYRINGS[1]
        self.assertEqual(lines, [f"deb [signed-by={keyring}] {uri}:/ trixie main" for uri in ("one", "other")])
        self.assertIn('APT::Get::AllowUnauthenticated "false";', said)
        self.assertIn('Acquire::AllowInsecureRepositories "false";', said)

    def test_packages_that_are_there_are_not_fetched_again(self):
        debian_packages.unpacked(self.into, ["a", "b"])
        self.log.unlink()
        self.assertEqual(debian_packages.unpacked(self.into, ["b"]), self.into)
        self.assertFalse(self.log.exists())
        debian_packages.unpacked(self.into, ["b", "c"])
        self.assertEqual(sorted(os.listdir(self.into / "usr")), ["b.deb", "c.deb"])

    def test_what_cannot_be_had_is_said_and_leaves_no_folder(self):
        self.assertEqual(self.fault("a", "gone"), "E: no package gone")
        os.environ["HAS"] = "neither"
        self.assertEqual(self.fault("a"), "E: no release file")
        self.assertFalse(self.into.exists())
        self.assertEqual(sorted(os.listdir(self.folder)), [b".packages.lock", b"bin", b"keyring", b"log"])

    def test_another_folder_is_not_replaced(self):
        self.into.mkdir()
        debian_packages.unpacked(self.into, ["a"])
        other = pathlib.Path(os.fsdecode(self.folder), "other")
        (other / "mine").mkdir(parents=True)
        self.into = other
        self.assertIn("not an empty folder", self.fault("a"))
        self.assertTrue((other / "mine").is_dir())

    def test_a_host_without_apt_or_without_the_keyring_is_named(self):
        with mock.patch.object(debian_packages, "KEYRINGS", [pathlib.Path("/none/keyring")]):
            self.assertIn("/none/keyring", self.fault("a"))
        os.environ["PATH"] = "/none"
        self.assertIn("there is no such program: apt-get", self.fault("a"))


class Names(Folder):
    """The list of packages."""

    def test_comments_and_empty_lines_are_no_names(self):
        self.assertEqual(debian_packages.names_in("# a\n\nb\nc\n"), ["b", "c"])

    def test_the_repository_names_go_and_the_clients(self):
        names = debian_packages.names_in(debian_packages.NAMES.read_text("utf-8"))
        self.assertEqual(len(names), len(set(names)))
        self.assertLessEqual({"golang-1.24-go", "golang-1.24-src", "docker-buildx"}, set(names))

    def test_what_has_links_is_not_in_the_repository(self):
        for folder in (debian_packages.FOLDER, go_building.entry_of_path(), buildkitd.FOLDER):
            self.assertFalse(folder.is_relative_to(paths.ROOT), folder)

    def test_no_host_is_named(self):
        for place in (debian_packages.__file__, go_building.__file__, debian_packages.NAMES):
            self.assertNotIn("://", pathlib.Path(place).read_text("utf-8"), place)


class Runc(Folder):
    """runc, which is the host's, or Debian's, or a program that fails."""

    def setUp(self):
        super().setUp()
        self.at = pathlib.Path(os.fsdecode(self.folder))
        unpacked = self.at / "unpacked"
        for name, value in [("FOLDER", unpacked), ("UNPACKED", unpacked / "runc")]:
            change = mock.patch.object(runc, name, value)
            change.start()
            self.addCleanup(change.stop)

    def put(self, host=None):
        """Puts it beside a daemon, on a host that has this one; returns what it prints, and its status."""
        place = self.at / "put"
        with mock.patch.object(runc.shutil, "which", lambda _: host):
            runc.put(place)
        done = subprocess.run([place], capture_output=True, text=True)
        self.assertEqual([one.name for one in self.at.iterdir() if one.name.startswith("put")], ["put"])
        return done.stdout + done.stderr, done.returncode

    def test_the_host_s_comes_before_debian_s(self):
        (self.at / "host").write_text("#!/bin/sh\necho host\n", "utf-8")
        self.assertEqual(self.put(), ("there is no runc here\n", 1))
        (self.at / "unpacked").mkdir()
        (self.at / "unpacked" / "runc").write_text("#!/bin/sh\necho unpacked\n", "utf-8")
        self.assertEqual(self.put()[1], 1)
        (self.at / "unpacked" / debian_packages.STAMP).write_text("runc\n", "utf-8")
        self.assertEqual(self.put(), ("unpacked\n", 0))
        self.assertEqual(self.put(str(self.at / "host")), ("host\n", 0))

    def test_it_is_fetched_where_there_is_none(self):
        fetched = mock.Mock()
        with (
            mock.patch.object(runc.shutil, "which", lambda _: None),
            mock.patch.object(debian_packages, "unpacked", fetched),
            mock.patch.object(runc.platform, "freedesktop_os_release", lambda: {"VERSION_CODENAME": "bookworm"}),
        ):
            self.assertEqual(runc.fetched(), runc.UNPACKED)
        fetched.assert_called_once_with(runc.FOLDER, ["runc"], "bookworm")


class Modules(Folder):
    """Go's modules."""

    def setUp(self):
        super().setUp()
        self.at = pathlib.Path(os.fsdecode(self.folder))
        change = mock.patch.object(go_building, "OUT", self.at)
        change.start()
        self.addCleanup(change.stop)

    def found(self, *lines):
        """Returns Go with modules, with a program `go` of these lines."""
        program = self.at / "go"
        program.write_text("\n".join(["#!/bin/sh", *lines, ""]), "utf-8")
        program.chmod(0o755)
        with mock.patch.dict(os.environ, {"PATH": f"{self.at}:{os.environ['PATH']}"}):
            return go_building.with_modules()

    def test_what_go_notes_is_not_in_the_repository(self):
        go = self.found(f'echo "$1 $GOFLAGS" > {self.at}/said')
        flags = f"-mod=mod -modfile={self.at}/go-modules/go.mod"
        self.assertEqual((self.at / "said").read_text("utf-8"), f"list {flags}\n")
        self.assertEqual(go.environment["GOFLAGS"], flags)
        self.assertIn("github.com/moby/buildkit ", (self.at / "go-modules" / "go.mod").read_text("utf-8"))

    def test_without_the_modules_there_is_none(self):
        self.assertIsNone(self.found("exit 1"))

    def test_without_go_there_is_none(self):
        with mock.patch.dict(os.environ, {"PATH": str(self.at)}):
            self.assertIsNone(go_building.with_modules())


class Refusals(Folder):
    """What the tool `daemon` refuses."""

    def test_without_packages_nothing_is_built_offline(self):
        done = run("daemon", "--offline", "--packages", self.place(b"none"), "-o", self.place(b"llbmd"))
        self.assertEqual((done.returncode, done.stdout), (2, b""))
        self.assertIn(b"the packages are not there", done.stderr)

    def test_another_user_is_told_the_same(self):
        if not base.IS_ROOT:
            self.skipTest("only root can become another user")
        os.chmod(self.folder, 0o755)
        words = ["--offline", "--packages", self.place(b"none"), "-o", self.place(b"llbmd")]
        done = run("daemon", *words, before=["-c", base.AS_NOBODY])
        self.assertEqual((done.returncode, done.stdout), (2, b""), done.stderr)
        self.assertIn(b"the packages are not there", done.stderr)

    def test_there_is_help(self):
        self.assertTrue(run("daemon", "--help").stdout.startswith(b"usage: dev/dev daemon "))
