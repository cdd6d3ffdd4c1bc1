"""Tests of `tree-of-tar` and `tar-of-tree`."""

import bz2
import gzip
import importlib.util
import io
import lzma
import os
import pathlib
import random
import shutil
import stat
import subprocess
import tarfile
import unittest

from tests import base
from tests.base import Folder, command, run, run_closed, run_into

NOTHING = b"left out: nothing\n"
BLOCK = 512
LONG = "a" + "\N{LATIN SMALL LETTER E WITH ACUTE}" * 127


def entry(name, content=None, mode=None, owner=(0, 0), **settings):
    """Returns a member of an archive: a file with this content, or a directory for None."""
    member = tarfile.TarInfo(name)
    member.type = tarfile.DIRTYPE if content is None else tarfile.REGTYPE
    member.mode = mode or (0o755 if content is None else 0o644)
    member.uid, member.gid = owner
    member.size = len(content or b"")
    for setting, value in settings.items():
        setattr(member, setting, value)
    return member, content or b""


def other(name, kind, **settings):
    """Returns a member that is neither a file nor a directory."""
    return entry(name, b"", type=kind, **settings)


def tar(*members, form=tarfile.PAX_FORMAT):
    """Returns the archive of these members."""
    written = io.BytesIO()
    with tarfile.open(fileobj=written, mode="w", format=form, encoding="utf-8", errors="surrogateescape") as archive:
        for member, content in members:
            archive.addfile(member, io.BytesIO(content))
    return written.getvalue()


def resum(header):
    """Returns a header with the checksum of its bytes."""
    blank = header[:148] + b" " * 8 + header[156:]
    return blank[:148] + b"%06o\0 " % sum(blank) + blank[156:]


class TreeOfTar(Folder):
    """The text of an archive."""

    def read_tar(self, given, *words):
        """Runs the tool on an archive on standard input."""
        return run("tree-of-tar", *words, text=given)

    def check_text(self, given, lines, errors=NOTHING, words=()):
        """Checks that the archive has the text of these lines."""
        self.check_success(self.read_tar(given, *words), self.text(lines), errors)

    def check_refused(self, given, cause, words=()):
        """Checks that the archive is refused, with this cause and its place on the last line."""
        done = self.read_tar(given, *words)
        self.assertEqual((done.returncode, done.stdout), (2, b""), done.stderr)
        last, place = done.stderr.decode().splitlines()[-1], ": standard input"
        self.assertTrue(last.endswith(place), last)
        self.assertRegex(last.removesuffix(place), cause)

    def test_entries_can_be_in_any_order(self):
        given = tar(
            entry("b", b"hi\n\x00\xff", mode=0o640, owner=(1, 2)), entry("a/x", b"", mode=0o4755), entry("a-b", b"\n"),
            entry("a", mode=0o1750, owner=(1000, 4294967295)), entry(".", mode=0o700, owner=(3, 4)),
        )
        lines = [
            "d 0700 3 4 /", "d 1750 1000 4294967295 /a", "f 4755 0 0 - /a/x", "f 0644 0 0 0a /a-b",
            "f 0640 1 2 68690a00ff /b",
        ]
        self.check_text(given, lines)

    def test_empty_parts_and_dots_of_paths_are_dropped(self):
        given = tar(entry("./a/", mode=0o700), entry("/b", b"b"), entry(".//a/./c", b"c"))
        self.check_text(given, ["d 0755 0 0 /", "d 0700 0 0 /a", "f 0644 0 0 63 /a/c", "f 0644 0 0 62 /b"])

    def test_directories_without_an_entry_have_a_default(self):
        lines = ["d 0755 0 0 /", "d 0755 0 0 /a", "d 0755 0 0 /a/b", "f 0644 5 6 78 /a/b/c"]
        self.check_text(tar(entry("a/b/c", b"x", owner=(5, 6))), lines)
        self.check_text(tar(), lines[:1])
        owned = [line.replace(" 0 0 ", " 7 8 ").replace(" 5 6 ", " 7 8 ") for line in lines]
        self.check_text(tar(entry("a/b/c", b"x", owner=(5, 6))), owned, words=["--owner", "7:8"])

    def test_the_last_of_several_entries_is_used(self):
        given = tar(
            entry("a", b"one"), entry("b", mode=0o700), entry("b/c", b"c"), entry("./a", b"2", mode=0o600), entry("b"),
            entry("d", b"d"), other("e", tarfile.SYMTYPE, linkname="a"), entry("e", b"e"), entry("d"),
            entry("d/f", b"f"),
        )
        lines = ["d 0755 0 0 /", "f 0600 0 0 32 /a", "d 0755 0 0 /b", "f 0644 0 0 63 /b/c", "d 0755 0 0 /d"]
        self.check_text(given, [*lines, "f 0644 0 0 66 /d/f", "f 0644 0 0 65 /e"])
        errors = b"left out: a symbolic link: /a\nleft out: 1 symbolic link\n"
        self.check_text(tar(entry("a", b"a"), other("a", tarfile.SYMTYPE, linkname="b")), lines[:1], errors)

    def test_a_file_above_an_entry_is_refused(self):
        self.check_refused(tar(entry("a", b"a"), entry("a/b", b"b")), "^a file with entries below it: /a$")
        self.check_refused(tar(entry("a/b/c"), entry("a", b"a")), "^a file with entries below it: /a$")

    def no_files(self):
        """Returns an archive with a file and all kinds of other entries, and the messages about those."""
        given = tar(
            entry("a", b"a"), other("link", tarfile.SYMTYPE, linkname="a"),
            other("hard", tarfile.LNKTYPE, linkname="none"),
            other("tty", tarfile.CHRTYPE, devmajor=4), other("disk", tarfile.BLKTYPE), other("pipe", tarfile.FIFOTYPE),
            entry("link/below", b"x"), other("volume", b"V"), entry("b"), other("b/link", tarfile.SYMTYPE),
        )
        errors = ["/b/link: a symbolic link", "/disk: a device", "/hard: a hard link to no entry"]
        errors += ["/link: a symbolic link"]
        errors += ["/link/below: below an entry that is left out", "/pipe: a pipe", "/tty: a device"]
        errors += ["/volume: an entry of another kind"]
        counts = ["2 devices", "1 hard link to no entry", "1 pipe", "2 symbolic links", "1 entry of another kind"]
        counts = ", ".join([*counts, "1 entry below one that is left out"])
        errors = ["left out: " + ": ".join(reversed(line.split(": "))) for line in errors] + [f"left out: {counts}"]
        return given, "".join(f"{line}\n" for line in errors).encode()

    def test_other_kinds_are_named_counted_and_left_out(self):
        given, errors = self.no_files()
        self.check_text(given, ["d 0755 0 0 /", "f 0644 0 0 61 /a", "d 0755 0 0 /b"], errors)

    def test_a_strict_run_refuses_an_archive_with_other_kinds(self):
        given, errors = self.no_files()
        refused = b"refused: something was left out: standard input\n"
        self.check_run(self.read_tar(given, "--strict"), 2, b"", errors + refused)
        self.check_text(tar(entry("a", b"a")), ["d 0755 0 0 /", "f 0644 0 0 61 /a"], words=["--strict"])

    def test_extended_attributes_are_left_out(self):
        headers = {"SCHILY.xattr.user.a": "1", "SCHILY.acl.access": "u::rw", "comment": "none"}
        given = tar(entry("a", b"a", pax_headers=headers), entry("b", pax_headers={"LIBARCHIVE.xattr.x": "MQ"}))
        errors = b"left out: an extended attribute, SCHILY.acl.access: /a\n"
        errors += b"left out: an extended attribute, SCHILY.xattr.user.a: /a\n"
        errors += b"left out: an extended attribute, LIBARCHIVE.xattr.x: /b\nleft out: 3 extended attributes\n"
        lines = ["d 0755 0 0 /", "f 0644 0 0 61 /a", "d 0755 0 0 /b"]
        self.check_text(given, lines, errors)
        self.check_refused(given, "^refused: something was left out$", ["--strict"])

    def test_invalid_names_are_left_out(self):
        names = ["\udcff", "new\nline", "\x7f", "x/../y", "..", "b" * 256]
        given = tar(*(entry(f"{name}/below", b"") for name in names), entry("a"))
        shown = [r"/../below", "/" + "b" * 256 + "/below", r"/new\nline/below", r"/x/../y/below", r"/\x7f/below"]
        errors = "".join(f"left out: not a valid name: {path}\n" for path in [*shown, r"/\xff/below"])
        errors += "left out: 6 entries with invalid names\n"
        self.check_text(given, ["d 0755 0 0 /", "d 0755 0 0 /a"], errors.encode())
        errors = b"left out: not a valid name: /\nleft out: 1 entry with an invalid name\n"
        self.check_text(tar(entry(".", b"x")), ["d 0755 0 0 /"], errors)

    def test_longer_paths_are_left_out(self):
        lines = [f"d 0755 0 0 /{'/'.join([LONG] * count)}" for count in range(129)]
        for form in [tarfile.PAX_FORMAT, tarfile.GNU_FORMAT]:
            self.check_text(tar(entry("/".join([LONG] * 128)), form=form), lines)
        deep = "/".join("a" * 129)
        errors = f"left out: more than 128 names: /{deep}\nleft out: 1 path that is too long\n"
        self.check_text(tar(entry(deep, b"")), lines[:1], errors.encode())

    def test_each_format_of_tar_is_read(self):
        for form in [tarfile.USTAR_FORMAT, tarfile.GNU_FORMAT, tarfile.PAX_FORMAT]:
            path = "d" * 90 + "/" + "f" * 99
            given = tar(entry("d" * 90), entry(path, b"x", owner=(2097151, 0), uname="user", mtime=77), form=form)
            self.check_text(given, ["d 0755 0 0 /", f"d 0755 0 0 /{'d' * 90}", f"f 0644 2097151 0 78 /{path}"])

    def test_larger_owners_are_left_out(self):
        given = tar(entry("a", b"a", owner=(4294967295, 0)), entry("b", owner=(0, 4294967296)), entry("b/c"))
        errors = b"left out: an owner that is not below 2^32: /b\nleft out: below an entry that is left out: /b/c\n"
        errors += b"left out: 1 entry with an owner above the limit, 1 entry below one that is left out\n"
        self.check_text(given, ["d 0755 0 0 /", "f 0644 4294967295 0 61 /a"], errors)
        lines = ["d 0755 0 0 /", "f 0644 0 0 61 /a", "d 0755 0 0 /b", "d 0755 0 0 /b/c"]
        self.check_text(given, lines, words=["--owner", "0:0"])

    def test_packed_archives_are_read(self):
        given = tar(entry("a", b"x" * 100_000), entry("b"))
        text = self.text(["d 0755 0 0 /", f"f 0644 0 0 {'78' * 100_000} /a", "d 0755 0 0 /b"])
        for packed in [given, gzip.compress(given), bz2.compress(given), lzma.compress(given)]:
            place = self.file(b"any name", packed)
            self.check_success(run("tree-of-tar", place), text, NOTHING)
            self.check_success(self.read_tar(packed), text, NOTHING)

    def test_standard_input_is_read_from_its_position(self):
        given = tar(entry("a", b"a"))
        for before in [b"", b"x" * 77]:
            with open(self.file(b"x.tar", before + given), "rb", buffering=0) as file:
                file.seek(len(before))
                done = subprocess.run(command("tree-of-tar"), stdin=file, capture_output=True, timeout=base.GUARD)
            self.check_success(done, self.text(["d 0755 0 0 /", "f 0644 0 0 61 /a"]), NOTHING)

    def test_hard_links_are_files(self):
        def link(name, target):
            return other(name, tarfile.LNKTYPE, linkname=target, mode=0o600)

        given = tar(
            entry("a", b"one", mode=0o4755, owner=(1, 2)), link("d/b", "./a"), entry("a", b"two"), link("c", "d/b"),
            other("e", tarfile.SYMTYPE, linkname="a"), link("f", "e"), link("g", "none"), link("h", "i"),
            entry("i", b"i"),
        )
        lines = ["d 0755 0 0 /", "f 0644 0 0 74776f /a", "f 4755 1 2 6f6e65 /c", "d 0755 0 0 /d"]
        errors = ["/e: a symbolic link", "/f: a symbolic link", "/g: a hard link to no entry"]
        errors.append("/h: a hard link to no entry")
        errors = "".join("left out: " + ": ".join(reversed(line.split(": "))) + "\n" for line in errors)
        errors += "left out: 2 hard links to no entry, 2 symbolic links\n"
        self.check_text(given, [*lines, "f 4755 1 2 6f6e65 /d/b", "f 0644 0 0 69 /i"], errors.encode())

    @unittest.skipUnless(shutil.which("tar"), "there is no tar")
    def test_hard_links_of_another_program_are_files(self):
        self.make(b"a", b"a")
        self.make(b"b/c", b"c")
        os.link(self.place(b"in", b"a"), self.place(b"in", b"b", b"d"))
        wanted = run("tree-of-directory", "--owner", "0:0", self.place(b"in")).stdout
        for form in ["gnu", "pax", "ustar", "v7"]:
            words = ["tar", "-C", self.place(b"in"), f"--format={form}", "-cf", "-", "."]
            made = subprocess.run(words, capture_output=True)
            self.check_success(self.read_tar(made.stdout, "--owner", "0:0"), wanted, NOTHING)

    @unittest.skipUnless(shutil.which("tar"), "there is no tar")
    def test_incremental_archives_are_read(self):
        self.make(b"a/b", b"b")
        for form in ["gnu", "pax"]:
            snapshot = "--listed-incremental=" + os.fsdecode(self.place(form.encode()))
            words = ["tar", "-C", self.place(b"in"), f"--format={form}", snapshot, "-cf", "-", "."]
            first = subprocess.run(words, capture_output=True)
            lines = ["d 0755 OWN /", "d 0755 OWN /a", "f 0644 OWN 62 /a/b"]
            self.check_text(first.stdout, lines)
            self.make(b"a/c", b"c")
            second = subprocess.run(words, capture_output=True)
            lines[2] = "f 0644 OWN 63 /a/c"
            errors = b"left out: only an earlier incremental archive has it: /a/b\n"
            self.check_text(second.stdout, lines, errors + b"left out: 1 entry of an earlier archive\n")
            os.unlink(self.place(b"in", b"a", b"c"))

    @unittest.skipUnless(shutil.which("zstd"), "there is no zstd")
    def test_archives_that_zstd_packs_are_read(self):
        packed = subprocess.run(["zstd", "-q", "-c"], input=tar(entry("a", b"a" * 9)), capture_output=True).stdout
        lines = ["d 0755 0 0 /", f"f 0644 0 0 {'61' * 9} /a"]
        self.check_text(packed, lines)
        self.check_success(run("tree-of-tar", self.file(b"x", packed)), self.text(lines), NOTHING)
        self.check_refused(packed[:-3], "^the archive could not be unpacked: ")

    @unittest.skipIf(importlib.util.find_spec("compression"), "this Python has zstd")
    def test_an_unsupported_form_of_packing_is_refused(self):
        done = run("tree-of-tar", text=b"\x28\xb5\x2f\xfd" + bytes(100), env={**os.environ, "PATH": ""})
        cause = b"neither this Python nor a program `zstd` packs or unpacks it: zstd: standard input\n"
        self.check_run(done, 2, b"", cause)

    @unittest.skipUnless(shutil.which("tar"), "there is no tar")
    def test_archives_of_another_program_are_read(self):
        self.make(b"a/b", b"b" * 1000, mode=0o640)
        self.make(b"hole", b"")
        with open(self.place(b"in", b"hole"), "r+b") as file:
            file.seek(1 << 16)
            file.write(b"end")
        wanted = run("tree-of-directory", "--owner", "0:0", self.place(b"in")).stdout
        for words in [[], ["--sparse"], ["--format=pax", "--sparse"], ["--format=v7"], ["--format=ustar", "-z"]]:
            made = subprocess.run(["tar", "-C", self.place(b"in"), *words, "-cf", "-", "."], capture_output=True)
            self.assertEqual(made.returncode, 0, made.stderr)
            self.check_success(self.read_tar(made.stdout, "--owner", "0:0"), wanted, NOTHING)

    def test_other_files_are_refused(self):
        self.check_refused(b"", "^the archive is empty$")
        self.check_refused(b"d 0755 0 0 /\n", "^not a header of an entry: byte 0: truncated header$")
        self.check_refused(b"x" * 2000, "^not a header of an entry: byte 0: ")

    def test_zeros_are_an_archive_without_an_entry_if_they_are_few(self):
        for count in [BLOCK, 2 * BLOCK, 20 * BLOCK]:
            self.check_text(bytes(count), ["d 0755 0 0 /"])
        for given in [bytes(20 * BLOCK + 1), bytes(2 * BLOCK) + b"\1"]:
            self.check_refused(given, "^not an archive: it begins with zeros$")
        for tool in ["tree-of-tar", "tree-of-image"]:
            place = self.file(b"zeros", bytes(1 << 20))
            self.check_run(run(tool, place), 2, b"", b"not an archive: it begins with zeros: " + place + b"\n")

    def test_damage_after_the_first_entry_is_refused(self):
        given = tar(entry("a", b"a" * 700), entry("b", b"b"))
        self.assertEqual(len(given), 20 * BLOCK)
        self.check_refused(given[: 2 * BLOCK], "^the archive is cut off: unexpected end of data$")
        self.check_refused(given[: 3 * BLOCK], "^the archive has no end$")
        self.check_refused(given[: 3 * BLOCK + 100], "^not a header of an entry: byte 1536: truncated header$")
        changed = given[: 3 * BLOCK] + b"c" + given[3 * BLOCK + 1 :]
        self.check_refused(changed, "^not a header of an entry: byte 1536: bad checksum$")
        self.check_success(self.read_tar(given[: 6 * BLOCK]), self.read_tar(given).stdout, NOTHING)

    def test_impossible_sizes_are_refused(self):
        first, rest = tar(entry("a", b"a"))[:BLOCK], tar(entry("a", b"a"))[BLOCK:]
        for size, cause in [
            (b"\xff" * 11 + b"\x00", "its size is negative$"), (b"77777777777\0", "^the archive is cut off: "),
            (b"\x80" + b"\x7f" * 11, "^the archive is cut off: "),
            (b"\x80\0\0\0\x7f" + b"\xff" * 7, "^the archive is cut off: "),
        ]:
            self.check_refused(resum(first[:124] + size + first[136:]) + rest, cause)

    def test_many_headers_before_an_entry_are_refused(self):
        header = tar(entry("a", b"", pax_headers={"comment": "x"}))[: 2 * BLOCK]
        self.check_refused(header * 3000 + tar(entry("a", b"a")), "not a header of an entry: ")

    def test_damaged_packing_is_refused(self):
        given = gzip.compress(tar(entry("a", random.Random(1).randbytes(2000))))
        self.check_refused(given[:-100], "^the archive could not be unpacked: ")
        self.check_refused(given[:-8] + b"\0" * 8, "^the archive could not be unpacked: ")
        self.check_refused(given[:100] + bytes(50) + given[150:], "^the archive could not be unpacked: ")
        for pack in [bz2.compress, lzma.compress]:
            self.check_refused(pack(tar(entry("a", b"a")))[:-20], "^the archive could not be unpacked: ")

    def test_a_missing_archive_is_refused(self):
        self.file(b"a", b"")
        for name, cause in [
            (b"none", "there is no such file or directory"), (b"a/b", "not a directory"), (b".", "is a directory"),
        ]:
            done = run("tree-of-tar", self.place(name))
            self.check_run(done, 2, b"", f"{cause}: ".encode() + self.place(name) + b"\n")

    def test_command_lines_are_refused(self):
        for words in [["--owner=0"], ["a", "b"], ["--str"]]:
            done = run("tree-of-tar", *words)
            self.assertEqual((done.returncode, done.stdout), (2, b""), words)

    def test_there_is_a_warning_for_a_text_that_the_program_refuses(self):
        done = self.read_tar(gzip.compress(tar(entry("a", bytes(33_554_500))), 1))
        self.assertEqual((done.returncode, len(done.stdout)), (0, 67_109_028))
        warning = b"the text has 67,109,028 bytes: the program refuses more than 67,108,864 (fault 185)\n"
        self.assertEqual(done.stderr, NOTHING + warning)

    def test_failing_standard_streams_are_reported(self):
        self.check_run(run_closed(0, "tree-of-tar"), 3, b"", b"standard input is closed\n")
        place = self.file(b"archive", tar(entry("a", b"a")))
        errors = NOTHING + b"the text could not be written: standard output is closed\n"
        self.check_run(run_closed(1, "tree-of-tar", place), 3, b"", errors)
        with open("/dev/full", "wb") as output:
            done = run_into(output, "tree-of-tar", place)
        errors = NOTHING + b"the text could not be written: No space left on device\n"
        self.assertEqual((done.returncode, done.stderr), (3, errors))


class TarOfTree(Folder):
    """The archive of a text."""

    def setUp(self):
        super().setUp()
        self.at = pathlib.Path(os.fsdecode(self.folder))

    def pack(self, lines, *words, **settings):
        """Returns the archive of these lines."""
        done = run("tar-of-tree", *words, text=self.text(lines), **settings)
        self.assertEqual((done.returncode, done.stderr), (0, b""))
        return done.stdout

    def test_each_line_is_an_entry(self):
        lines = ["d 1700 1 2 /", "d 0755 0 0 /a", "f 4755 3 4 6869 /a/b", "f 0644 0 0 - /a-b"]
        given = self.pack(lines)
        with tarfile.open(fileobj=io.BytesIO(given)) as archive:
            members = archive.getmembers()
            self.assertEqual(archive.extractfile(members[2]).read(), b"hi")
        directory, file = tarfile.DIRTYPE, tarfile.REGTYPE
        headers_read = [(one.name, one.type, one.mode, one.uid, one.gid, one.size) for one in members]
        wanted = [(".", directory, 0o1700, 1, 2, 0), ("a", directory, 0o755, 0, 0, 0), ("a/b", file, 0o4755, 3, 4, 2)]
        self.assertEqual(headers_read, [*wanted, ("a-b", file, 0o644, 0, 0, 0)])
        for one in members:
            self.assertEqual((one.mtime, one.uname, one.gname, one.linkname, one.pax_headers), (0, "", "", "", {}))
        headers = [given[place : place + BLOCK] for place in (0, 512, 1024, 2048)]
        self.assertEqual([header[:4] for header in headers], [b"./\0\0", b"a/\0\0", b"a/b\0", b"a-b\0"])
        self.assertEqual({header[257:265] for header in headers}, {b"ustar  \0"})
        self.assertEqual((len(given) % BLOCK, given[-2 * BLOCK :]), (0, bytes(2 * BLOCK)))

    def test_the_same_text_makes_the_same_bytes(self):
        lines = ["d 0755 0 0 /", f"f 0644 3000000000 0 78 /{LONG}"]
        given = self.pack(lines)
        other_place = {"env": {**os.environ, "TZ": "Asia/Tokyo", "LC_ALL": "C", "SOURCE_DATE_EPOCH": "0"}}
        self.assertEqual(self.pack(lines, cwd="/", umask=0o077, **other_place), given)
        self.assertEqual(self.pack(lines, self.at / "x.tar"), b"")
        self.assertEqual((self.at / "x.tar").read_bytes(), given)

    def test_every_entry_has_the_given_time(self):
        for time in [0, 1, 8589934591]:
            given = self.pack(["d 0755 0 0 /", "f 0644 0 0 - /a"], "--mtime", str(time))
            with tarfile.open(fileobj=io.BytesIO(given)) as archive:
                self.assertEqual([(one.mtime, one.pax_headers) for one in archive], [(time, {})] * 2)
        for word in ["", "-1", "01", "8589934592", "1.5", "x", "1\n"]:
            done = run("tar-of-tree", f"--mtime={word}", text=b"d 0755 0 0 /\n")
            self.assertEqual((done.returncode, done.stdout), (2, b""), word)

    def test_the_time_can_be_that_of_the_environment(self):
        lines = ["d 0755 0 0 /", "f 0644 0 0 - /a"]
        settings = {"env": {**os.environ, "SOURCE_DATE_EPOCH": "9"}}
        self.assertEqual(self.pack(lines, **settings), self.pack(lines, "--mtime", "9"))
        self.assertEqual(self.pack(lines, "--mtime", "8", **settings), self.pack(lines, "--mtime", "8"))
        done = run("tar-of-tree", text=self.text(lines), env={**os.environ, "SOURCE_DATE_EPOCH": "1e9"})
        self.check_run(done, 2, b"", b"not a decimal of at most 8589934591: SOURCE_DATE_EPOCH='1e9'\n")

    def test_archives_are_packed_by_their_names(self):
        lines = ["d 0755 0 0 /", f"f 0644 0 0 {'78' * 5000} /a"]
        plain = self.pack(lines)
        unpacked = {"gzip": gzip.decompress, "bzip2": bz2.decompress, "xz": lzma.decompress}
        for name, form in [("a.tar.gz", "gzip"), ("b.tgz", "gzip"), ("c.tar.bz2", "bzip2"), ("d.tar.xz", "xz")]:
            self.pack(lines, self.at / name)
            packed = (self.at / name).read_bytes()
            self.assertEqual((unpacked[form](packed), packed), (plain, self.pack(lines, "--pack", form)))
        self.assertEqual((self.at / "a.tar.gz").read_bytes()[3:8], bytes(5))

    @unittest.skipUnless(shutil.which("zstd"), "there is no zstd")
    def test_archives_are_packed_by_zstd(self):
        lines = ["d 0755 0 0 /", f"f 0644 0 0 {'78' * 5000} /a"]
        self.pack(lines, self.at / "a.tar.zst")
        done = subprocess.run(["zstd", "-d", "-q", "-c", self.at / "a.tar.zst"], capture_output=True)
        self.assertEqual((done.returncode, done.stdout), (0, self.pack(lines)))
        done = run("tar-of-tree", "--pack", "zstd", text=self.text(lines), env={**os.environ, "PATH": ""})
        self.assertIn(done.returncode, (0, 2))

    def test_a_text_survives_the_round_trip(self):
        longest = [f"d 0755 0 0 /{'/'.join([LONG] * count)}" for count in range(1, 128)]
        lines = ["d 7777 4294967295 4294967295 /", "f 0000 0 2097152 - /-", "d 0000 0 0 /A", *longest]
        lines += [f"f 0644 0 0 61 {longest[-1][11:]}/a", "f 0000 4294967295 0 00ff /\N{GREEK SMALL LETTER ALPHA} b  "]
        text = self.text(lines)
        self.assertEqual(text.count(b"\n"), 132)
        self.check_success(run("tree-of-tar", text=self.pack(lines)), text, NOTHING)

    @unittest.skipUnless(shutil.which("tar"), "there is no tar")
    def test_another_program_unpacks_the_archive(self):
        deep = "/".join(["d" * 99, LONG])
        lines = ["d 0711 OWN /", "d 0555 OWN /a", "f 0640 OWN 6869 /a/b", f"d 0755 OWN /{LONG}"]
        lines += [f"f 0600 OWN - /{LONG}/{LONG}", f"d 0755 OWN /{deep[:99]}", f"f 0640 OWN 6869 /{deep}"]
        lines += ["f 1711 OWN 0a /\N{LATIN SMALL LETTER U WITH DIAERESIS}\N{GREEK SMALL LETTER ALPHA}"]
        self.pack(lines, self.at / "x.tar")
        os.mkdir(self.place(b"out"))
        words = ["tar", "-C", self.place(b"out"), "-p", "-xf", self.at / "x.tar"]
        done = subprocess.run(words, capture_output=True)
        self.assertEqual((done.returncode, done.stderr), (0, b""))
        self.check_success(self.read(), self.text(lines), NOTHING)

    def test_the_archive_is_a_new_file(self):
        self.pack(["d 0755 0 0 /"], self.at / "x.tar")
        self.assertEqual(stat.S_IMODE((self.at / "x.tar").stat().st_mode), 0o644)
        done = run("tar-of-tree", self.at / "x.tar", text=b"d 0700 0 0 /\n")
        self.check_run(done, 2, b"", b"this exists already: " + self.place(b"x.tar") + b"\n")
        done = run("tar-of-tree", self.at / "none" / "x.tar", text=b"d 0700 0 0 /\n")
        self.check_run(done, 2, b"", b"there is no such file or directory: " + self.place(b"none/x.tar") + b"\n")
        self.assertEqual(os.listdir(self.at), ["x.tar"])

    def test_faulty_texts_are_refused(self):
        for text, cause in [
            (b"", "the text is empty: line 1"), (b"d 0755 0 0 /", "the line does not end with a newline: line 1"),
            (b"d 0755 0 0 /\nl 0777 0 0 /a\n", "neither d MODE UID GID PATH nor f MODE UID GID CONTENT PATH: line 2"),
            (b"d 0755 0 0 /\nd 0755 0 0 /a/b\n", "the parent of the path is not a directory: line 2"),
            (b"d 0755 0 0 /\nd 0755 0 0 /a/..\n", "the path is not / followed by names with / between them: line 2"),
        ]:
            for words in [[], [self.at / "x.tar"]]:
                done = run("tar-of-tree", *words, text=text)
                self.check_run(done, 2, b"", f"{cause}\n".encode())
        self.assertEqual(os.listdir(self.at), [])

    def test_no_temporary_file_remains(self):
        held = self.at / "held"
        held.mkdir()
        settings = {"env": {**os.environ, "TMPDIR": str(held)}}
        given = self.pack(["d 0755 0 0 /"], self.at / "x.tar", **settings)
        self.assertEqual(given, b"")
        self.check_success(run("tree-of-tar", self.at / "x.tar", **settings), b"d 0755 0 0 /\n", NOTHING)
        self.assertEqual((os.listdir(held), sorted(os.listdir(self.at))), ([], ["held", "x.tar"]))

    def test_failing_standard_streams_are_reported(self):
        self.check_run(run_closed(0, "tar-of-tree"), 3, b"", b"standard input is closed\n")
        with open("/dev/full", "wb") as output:
            done = run_into(output, "tar-of-tree")
        self.assertEqual((done.returncode, done.stderr), (2, b"the text is empty: line 1\n"))

    @unittest.skipUnless(shutil.which("tar"), "there is no tar")
    def test_another_program_reads_numbers_of_any_size(self):
        owners = ["0/0", "2097151/2097152", "4294967295/2097151"]
        lines = ["d 0755 0 0 /", *(f"f 4755 {one.replace('/', ' ')} 6869 /f{n}" for n, one in enumerate(owners))]
        archive = self.pack(lines, "--mtime", "8589934591")
        words = ["tar", "--numeric-owner", "--utc", "--full-time", "-tvf", "-"]
        done = subprocess.run(words, input=archive, capture_output=True, env={**os.environ, "LC_ALL": "C"})
        self.assertEqual((done.returncode, done.stderr), (0, b""))
        found = [line.split() for line in done.stdout.decode().splitlines()[1:]]
        wanted = [["-rwsr-xr-x", one, "2", "2242-03-16", "12:56:31", f"f{n}"] for n, one in enumerate(owners)]
        self.assertEqual(found, wanted)
