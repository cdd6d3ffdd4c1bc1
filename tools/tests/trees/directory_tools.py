"""Tests of `tree-of-directory` and `directory-of-tree`."""

import os
import random
import resource
import signal
import socket
import stat
import subprocess
import sys
import unittest

from tests import base
from tests.base import AS_NOBODY, IS_ROOT, Folder, command, run, run_closed, run_into

NOTHING = b"left out: nothing\n"

PEAK = """
import pathlib, re, runpy, sys
sys.argv = sys.argv[1:]
try:
    runpy.run_path(sys.argv[0], run_name="__main__")
finally:
    peak = re.search(r"VmHWM:\\s*(\\d+) kB", pathlib.Path("/proc/self/status").read_text())
    print(peak[1], file=sys.stderr)
"""


class TreeOfDirectory(Folder):
    """The text of a directory."""

    def test_each_entry_is_a_line(self):
        self.make(b"")
        self.make(b"a directory", mode=0o1750)
        self.make(b"a directory/a file", b"hi\n\x00\xff", mode=0o640)
        self.make(b"empty", b"")
        self.make("\N{GREEK SMALL LETTER ALPHA}".encode(), b"\n", mode=0o4755)
        lines = [
            "d 0755 OWN /",
            "d 1750 OWN /a directory",
            "f 0640 OWN 68690a00ff /a directory/a file",
            "f 0644 OWN - /empty",
            "f 4755 OWN 0a /\N{GREEK SMALL LETTER ALPHA}",
        ]
        self.check_success(self.read(b"in"), self.text(lines), NOTHING)

    def test_names_are_sorted_by_their_bytes_in_each_directory(self):
        self.make(b"")
        names = ["a", "a-b", "a/b", "B", "a/a-", "a/a/z", "\N{FULLWIDTH LATIN SMALL LETTER A}", "\U00010000"]
        for name in names:
            self.make(name.encode())
        order = ["", "B", "a", "a/a", "a/a/z", "a/a-", "a/b", "a-b", *names[-2:]]
        self.check_success(self.read(b"in"), self.text(f"d 0755 OWN /{name}" for name in order), NOTHING)

    def test_all_entries_can_have_one_owner(self):
        self.make(b"a", b"a")
        for user, group in [(0, 0), (1000, 100), (4294967295, 0)]:
            done = run("tree-of-directory", "--owner", f"{user}:{group}", self.place(b"in"))
            self.check_success(done, self.text([f"d 0755 {user} {group} /", f"f 0644 {user} {group} 61 /a"]), NOTHING)

    def test_command_lines_are_refused(self):
        for owner in ["", "0", "0:", "00:0", "0:4294967296", "-1:0", "root:root", "0:0:0", "0:0\n"]:
            done = run("tree-of-directory", f"--owner={owner}", self.folder)
            self.assertEqual((done.returncode, done.stdout), (2, b""), owner)
        self.assertEqual(run("tree-of-directory").returncode, 2)
        self.assertEqual(run("tree-of-directory", self.folder, self.folder).returncode, 2)

    def make_no_files(self):
        """Makes a file, two links, a pipe and a socket, and returns the messages about the last four."""
        self.make(b"a", b"a")
        os.symlink(b"a", self.place(b"in", b"link"))
        os.symlink(b".", self.place(b"in", b"loop"))
        os.mkfifo(self.place(b"in", b"pipe"))
        with socket.socket(socket.AF_UNIX) as heard:
            heard.bind(self.place(b"in", b"socket"))
        errors = b"left out: a symbolic link: /link\nleft out: a symbolic link: /loop\n"
        errors += b"left out: a pipe: /pipe\nleft out: a socket: /socket\n"
        return errors + b"left out: 1 pipe, 1 socket, 2 symbolic links\n"

    def test_other_kinds_are_named_counted_and_left_out(self):
        errors = self.make_no_files()
        self.check_success(self.read(b"in"), self.text(["d 0755 OWN /", "f 0644 OWN 61 /a"]), errors)

    def test_a_strict_run_refuses_a_directory_with_other_kinds(self):
        self.make(b"b/c", b"c")
        lines = ["d 0755 OWN /", "d 0755 OWN /b", "f 0644 OWN 63 /b/c"]
        self.check_success(self.read(b"in", "--strict"), self.text(lines), NOTHING)
        errors = self.make_no_files() + b"refused: something was left out\n"
        self.check_run(self.read(b"in", "--strict"), 2, b"", errors)

    def test_a_strict_text_leaves_no_output_file_out(self):
        self.make(b"a", b"a")
        with open(self.place(b"in", b"text"), "wb") as output:
            done = run_into(output, "tree-of-directory", "--strict", self.place(b"in"))
        self.assertEqual((done.returncode, os.path.getsize(self.place(b"in", b"text"))), (2, 0))
        self.assertTrue(done.stderr.startswith(b"left out: the output file itself: /text\n"))

    def test_extended_attributes_are_named(self):
        self.make(b"a", b"a")
        self.make(b"b")
        try:
            os.setxattr(self.place(b"in", b"a"), "user.z", b"1")
            os.setxattr(self.place(b"in", b"a"), "user.k", b"")
            os.setxattr(self.place(b"in", b"b"), "user.k", b"1")
        except OSError as fault:
            raise unittest.SkipTest("the file system has no extended attributes") from fault
        lines = ["d 0755 OWN /", "f 0644 OWN 61 /a", "d 0755 OWN /b"]
        named = [(b"k", b"a"), (b"z", b"a"), (b"k", b"b")]
        errors = b"".join(b"left out: an extended attribute, user.%b: /%b\n" % pair for pair in named)
        errors += b"left out: 3 extended attributes\n"
        self.check_success(self.read(b"in"), self.text(lines), errors)
        self.check_run(self.read(b"in", "--strict"), 2, b"", errors + b"refused: something was left out\n")

    @unittest.skipUnless(os.path.lexists("/dev/pts/ptmx"), "there is no directory of devices alone")
    def test_a_device_is_named_and_left_out(self):
        done = run("tree-of-directory", "/dev/pts")
        self.assertEqual((done.returncode, done.stdout.count(b"\n")), (0, 1))
        self.assertIn(b"left out: a device: /ptmx\n", done.stderr)
        self.assertRegex(done.stderr, rb"\nleft out: [0-9]+ devices?\n\Z")

    def test_invalid_names_are_left_out_with_everything_below(self):
        self.make(b"a")
        for name in [b"\xff", b"\xed\xa0\x80", b"new\nline", b"\x7f"]:
            self.make(name + b"/below", b"")
        done = self.read(b"in")
        errors = [rb"/new\nline", rb"/\x7f", rb"/\xed\xa0\x80", rb"/\xff"]
        errors = b"".join(b"left out: not a valid name: " + path + b"\n" for path in errors)
        errors += b"left out: 4 entries with invalid names\n"
        self.check_success(done, self.text(["d 0755 OWN /", "d 0755 OWN /a"]), errors)

    def test_the_text_leaves_itself_out(self):
        self.make(b"a", b"a")
        with open(self.place(b"in", b"text"), "wb") as output:
            done = run_into(output, "tree-of-directory", self.place(b"in"))
        errors = b"left out: the output file itself: /text\nleft out: 1 output file\n"
        self.assertEqual((done.returncode, done.stderr), (0, errors))
        with open(self.place(b"in", b"text"), "rb") as output:
            self.assertEqual(output.read(), self.text(["d 0755 OWN /", "f 0644 OWN 61 /a"]))

    def test_what_cannot_be_read_is_named(self):
        self.make(b"a", b"a", mode=0o200)
        self.make(b"b/c", b"c")
        self.make(b"b", mode=0o300)
        self.make(b"d", b"d")
        done = self.read_as_nobody()
        self.assertEqual(done.returncode, 1)
        self.assertEqual(done.stdout, self.text(["d 0755 OWN /", "f 0644 OWN 64 /d"]))
        errors = [b"could not be read: permission denied: /a", b"could not be read: permission denied: /b"]
        self.assertEqual(done.stderr.splitlines(), [*errors, b"left out: nothing"])

    def read_as_nobody(self):
        """Reads a directory as a user who may not read everything."""
        if not IS_ROOT:
            return self.read(b"in")
        os.chmod(self.folder, 0o755)
        return run("tree-of-directory", self.place(b"in"), before=["-c", AS_NOBODY])

    def test_a_directory_that_is_not_there_is_named(self):
        self.make(b"a", b"a")
        for name, errors in [(b"none", b"there is no such file or directory"), (b"in/a", b"not a directory")]:
            self.check_run(self.read(name), 2, b"", errors + b": " + self.place(name) + b"\n")

    def test_there_is_a_warning_for_a_text_that_the_program_refuses(self):
        prefix, end = len(b"d 0755 1 2 /\nf 0644 1 2 "), len(b" /a\n")
        most = (67_108_864 - prefix - end) // 2
        self.make(b"a", b"")
        for size in [most, most + 1]:
            os.truncate(self.place(b"in", b"a"), size)
            with open(self.place(b"text"), "wb") as output:
                done = run_into(output, "tree-of-directory", "--owner", "1:2", self.place(b"in"))
            written = os.path.getsize(self.place(b"text"))
            warning = f"the text has {written:,} bytes: the program refuses more than 67,108,864 (fault 185)\n"
            errors = NOTHING + (warning.encode() if written > 67_108_864 else b"")
            self.assertEqual((done.returncode, done.stderr), (0, errors))

    def test_a_failed_write_is_reported(self):
        self.make(b"a", b"a")
        with open("/dev/full", "wb") as output:
            done = run_into(output, "tree-of-directory", self.place(b"in"))
        errors = b"the text could not be written: No space left on device\n"
        self.assertEqual((done.returncode, done.stderr), (3, errors))

    def test_a_closed_pipe_ends_the_tool_without_a_line(self):
        self.make(b"a", b"a" * (1 << 20))
        reading, writing = os.pipe()
        os.close(reading)
        with open(writing, "wb") as output:
            done = run_into(output, "tree-of-directory", self.place(b"in"))
        self.assertEqual((done.returncode, done.stderr), (3, b""))

    def test_closed_standard_streams_are_reported(self):
        self.make(b"a", b"a")
        os.symlink(b"a", self.place(b"in", b"link"))
        done = run_closed(1, "tree-of-directory", self.place(b"in"))
        errors = b"the text could not be written: standard output is closed\n"
        self.assertEqual((done.returncode, done.stderr), (3, errors))
        done = run_closed(2, "tree-of-directory", self.place(b"in"))
        self.check_run(done, 0, self.text(["d 0755 OWN /", "f 0644 OWN 61 /a"]))

    def test_an_interrupt_ends_the_tool(self):
        self.make(b"a", b"a" * (1 << 20))
        child = subprocess.Popen(
            command("tree-of-directory", self.place(b"in")), stdout=subprocess.PIPE, stderr=subprocess.PIPE
        )
        child.stdout.read(1)
        child.send_signal(signal.SIGINT)
        self.assertEqual((child.wait(base.GUARD), child.stderr.read()), (130, b""))
        child.stdout.close()
        child.stderr.close()


class RoundTrip(Folder):
    """A directory, its text, a directory of that, and its text again."""

    def round_trip(self, text):
        """Checks that the directory of a text has that text."""
        self.check_success(self.write(text))
        self.check_success(self.read(), text, NOTHING)

    def test_a_directory_survives_the_round_trip(self):
        self.make(b"")
        self.make(b"a/b/c", bytes(range(256)), mode=0o6711)
        self.make(b"a-b", b"", mode=0o400)
        self.make(b"locked/ two  spaces ", b"x", mode=0o444)
        self.make(b"locked", mode=0o555)
        long = random.Random(1).randbytes(3 << 20)
        self.make(b"long", long)
        os.chmod(self.place(b"in"), 0o1700)
        first = self.read(b"in")
        self.assertEqual((first.returncode, first.stderr), (0, NOTHING))
        self.assertEqual(first.stdout.count(b"\n"), 8)
        self.assertTrue(b" %b /long\n" % long.hex().encode() in first.stdout, "the long file is not there whole")
        self.round_trip(first.stdout)

    def test_modes_survive_the_round_trip(self):
        lines = ["d 0755 OWN /"]
        lines += [f"d {mode:04o} OWN /d{mode:04o}" for mode in (0o500, 0o777, 0o1755, 0o7777)]
        lines += [f"f {mode:04o} OWN - /f{mode:04o}" for mode in (0o400, 0o666, 0o4755, 0o7777)]
        self.round_trip(self.text(lines))

    def test_the_longest_paths_survive_the_round_trip(self):
        name = "a" + "\N{LATIN SMALL LETTER E WITH ACUTE}" * 127
        lines = [f"d 0755 OWN /{'/'.join([name] * count)}" for count in range(129)]
        self.round_trip(self.text(lines))

    def test_a_longer_path_is_left_out(self):
        lines = [f"d 0755 OWN /{'/'.join('a' * count)}" for count in range(129)]
        self.check_success(self.write(self.text(lines)))
        deep = self.place(b"out", *[b"a"] * 129)
        os.makedirs(os.path.join(deep, b"below"))
        errors = b"left out: more than 128 names: " + b"/a" * 129 + b"\nleft out: 1 path that is too long\n"
        self.check_success(self.read(), self.text(lines), errors)

    def test_owners_survive_the_round_trip_for_root(self):
        lines = ["d 0755 1 2 /", "d 6755 3 4 /a", "f 6755 4294967294 5 61 /a/b"]
        self.check_success(self.write(self.text(lines)))
        owned = self.read()
        if IS_ROOT:
            self.check_success(owned, self.text(lines), NOTHING)
        else:
            self.assertEqual(owned.stdout.splitlines()[0], b"d 0755 %b /" % self.mine)

    def test_an_owner_that_no_file_can_have_is_reported_for_root(self):
        text = self.text(["d 0755 OWN /", "f 0644 4294967295 0 61 /a"])
        done = self.write(text)
        if IS_ROOT:
            errors = b"could not be written: /a: the system has no such owner\n"
            self.assertEqual((done.returncode, done.stderr), (3, errors))
        else:
            self.check_success(done)


class DirectoryOfTree(Folder):
    """Directories of texts, and texts that are refused."""

    def test_the_result_of_the_first_run_is_written(self):
        text = b"d 0755 0 0 /\nf 0644 0 0 6869 /a\n"
        self.check_success(self.write(text))
        with open(self.place(b"out", b"a"), "rb") as file:
            self.assertEqual(file.read(), b"hi")
        self.assertEqual(stat.S_IMODE(os.stat(self.place(b"out", b"a")).st_mode), 0o644)

    def test_an_empty_directory_is_accepted(self):
        os.mkdir(self.place(b"out"), 0o700)
        text = self.text(["d 0711 OWN /", "d 0755 OWN /a"])
        self.check_success(self.write(text))
        self.check_success(self.read(), text, NOTHING)

    def test_every_entry_has_the_given_time(self):
        text = self.text(["d 0755 OWN /", "d 0555 OWN /a", "f 0444 OWN 61 /a/b", "f 0644 OWN - /c"])
        self.check_success(run("directory-of-tree", "--mtime", "77", self.place(b"out"), text=text))
        for names in [[], [b"a"], [b"a", b"b"], [b"c"]]:
            self.assertEqual(os.stat(self.place(b"out", *names)).st_mtime_ns, 77_000_000_000)
        self.assertEqual(run("directory-of-tree", "--mtime=-1", self.place(b"none"), text=text).returncode, 2)

    def test_other_places_are_refused(self):
        self.make(b"full/a", b"a")
        self.make(b"file", b"a")
        self.make(b"empty")
        os.symlink(b"empty", self.place(b"in", b"link"))
        for name, errors in [(b"full", b"not empty"), (b"file", b"not a directory"), (b"link", b"not a directory")]:
            done = self.write(b"d 0755 0 0 /\nd 0755 0 0 /b\n", b"in/" + name)
            self.assertEqual(done.returncode, 2, name)
            self.assertEqual(done.stderr, errors + b": " + self.place(b"in", name) + b"\n")
        self.assertEqual(os.listdir(self.place(b"in", b"full")), [b"a"])
        self.assertEqual(os.listdir(self.place(b"in", b"empty")), [])

    def test_a_directory_that_cannot_be_made_is_reported(self):
        self.assertEqual(self.write(b"d 0755 0 0 /\n", b"none/out").returncode, 2)

    def test_no_temporary_file_remains(self):
        held = self.place(b"held")
        os.mkdir(held)
        settings = {"env": {**os.environ, "TMPDIR": os.fsdecode(held)}}
        self.check_success(self.write(b"d 0755 0 0 /\n", **settings))
        self.assertEqual(self.write(b"d 0755 0 0 /\nx\n", b"other", **settings).returncode, 2)
        self.assertEqual(os.listdir(held), [])

    def test_a_text_that_cannot_be_stored_is_reported(self):
        text = b"d 0755 0 0 /\nf 0644 0 0 %b /a\n" % (b"61" * (1 << 16))
        few = (1 << 10, 1 << 10)
        done = self.write(text, preexec_fn=lambda: resource.setrlimit(resource.RLIMIT_FSIZE, few))
        self.check_run(done, 3, b"", b"the text could not be stored: File too large\n")
        self.assertFalse(os.path.lexists(self.place(b"out")))

    def test_closed_standard_input_is_reported(self):
        done = run_closed(0, "directory-of-tree", self.place(b"out"))
        self.check_run(done, 3, b"", b"standard input is closed\n")

    def test_nothing_after_the_first_faulty_line_is_read(self):
        child = subprocess.Popen(
            command("directory-of-tree", self.place(b"out")), stdin=subprocess.PIPE, stderr=subprocess.PIPE
        )
        child.stdin.write(b"d 0755 0 0 /\nx\n")
        child.stdin.flush()
        self.assertEqual(child.wait(base.GUARD), 2)
        self.assertEqual(child.stderr.readline()[-9:], b": line 2\n")
        child.stdin.close()
        child.stderr.close()

    @unittest.skipUnless(os.path.exists("/proc/self/status"), "the system does not say how much memory is in use")
    def test_memory_does_not_grow_with_the_text(self):
        peaks = []
        for count in [2, 48]:
            place = self.place(b"text")
            with open(place, "wb") as text:
                text.write(b"d 0755 0 0 /\n")
                for number in range(count):
                    text.write(b"f 0644 0 0 %b /%03d\n" % (b"61" * (1 << 19), number))
            peaks.append(self.peak(place, b"out%d" % count))
        self.assertLess(peaks[1] - peaks[0], 8 << 10, peaks)

    def peak(self, text, name):
        """Returns the peak memory for a text, in KiB."""
        with open(text, "rb") as given:
            done = subprocess.run(
                [sys.executable, "-c", PEAK, *command("directory-of-tree", self.place(name))[2:]],
                stdin=given, stderr=subprocess.PIPE, timeout=base.GUARD,
            )
        self.assertEqual(done.returncode, 0, done.stderr)
        return int(done.stderr)

    def check_refused(self, text, number, cause):
        """Checks that the text is refused at this line for this cause, and that nothing is written."""
        with self.subTest(text=text[-60:]):
            done = self.write(text)
            self.assertEqual((done.returncode, done.stdout), (2, b""))
            self.assertEqual(done.stderr.decode(), f"{cause}: line {number}\n")
            self.assertFalse(os.path.lexists(self.place(b"out")))

    def test_faulty_lines_are_refused(self):
        form = "neither d MODE UID GID PATH nor f MODE UID GID CONTENT PATH"
        owner = "an owner is not a decimal below 2^32"
        mode = "the mode is not four octal digits"
        content = "the content is neither lower-case hexadecimal nor -"
        path = "the path is not / followed by names with / between them"
        faults = [
            (b"", form), (b"d", form), (b"l 0755 0 0 /a", form), (b"d 0755 0 0", form), (b" d 0755 0 0 /a", form),
            (b"f 0755 0 0 /a", form), (b"D 0755 0 0 /a", form), (b"d\t0755 0 0 /a", form),
            (b"d 755 0 0 /a", mode), (b"d 0758 0 0 /a", mode), (b"d 07555 0 0 /a", mode), (b"d  0755 0 0 /a", mode),
            (b"d 0755 00 0 /a", owner), (b"d 0755 4294967296 0 /a", owner), (b"d 0755 0 -1 /a", owner),
            (b"d 0755 0  /a", owner), (b"d 0755 +1 0 /a", owner), (b"d 0755 0 1_0 /a", owner),
            (b"f 0644 0 0 6 /a", content), (b"f 0644 0 0 6G /a", content), (b"f 0644 0 0 AB /a", content),
            (b"f 0644 0 0  /a", content), (b"f 0644 0 0 -- /a", content), (b"f 0644 0 0 -", form),
            (b"d 0755 0 0 a", path), (b"d 0755 0 0 ", path), (b"d 0755 0 0  /a", path), (b"d 0755 0 0 //a", path),
            (b"d 0755 0 0 /a/", path), (b"d 0755 0 0 /.", path), (b"d 0755 0 0 /a/../b", path),
            (b"d 0755 0 0 /\xff", path), (b"d 0755 0 0 /a\x00", path), (b"d 0755 0 0 /a\r", path),
            (b"d 0755 0 0 /\x7f", path), (b"d 0755 0 0 /\xc0\xaf", path), (b"d 0755 0 0 /" + b"a" * 256, path),
            (b"d 0755 0 0 " + b"/a" * 129, "the path has more than 128 names"),
            (b"f 0644 0 0 61 /", "the root is not a directory"),
        ]
        for line, cause in faults:
            self.check_refused(b"d 0755 0 0 /\n" + line + b"\nd 0755 0 0 /z\n", 2, cause)

    def test_texts_with_a_faulty_end_are_refused(self):
        self.check_refused(b"", 1, "the text is empty")
        self.check_refused(b"d 0755 0 0 /", 1, "the line does not end with a newline")
        self.check_refused(b"d 0755 0 0 /\nd 0755 0 0 /a", 2, "the line does not end with a newline")
        self.check_refused(b"f 0644 0 0 - /\n", 1, "the root is not a directory")

    def test_paths_out_of_order_are_refused(self):
        order = "the path does not come after that of the line before"
        self.check_refused(b"d 0755 0 0 /a\n", 1, "the first line is not the root's")
        for first, second in [("/a", "/a"), ("/b", "/a"), ("/a-b", "/a"), ("/a", "/")]:
            self.check_refused(f"d 0755 0 0 /\nd 0755 0 0 {first}\nd 0755 0 0 {second}\n".encode(), 3, order)
        self.check_refused(b"d 0755 0 0 /\nd 0755 0 0 /a\nd 0755 0 0 /a-b\nd 0755 0 0 /a/b\n", 4, order)

    def test_missing_parents_are_refused(self):
        cause = "the parent of the path is not a directory"
        self.check_refused(b"d 0755 0 0 /\nd 0755 0 0 /a/b\n", 2, cause)
        self.check_refused(b"d 0755 0 0 /\nf 0644 0 0 - /a\nd 0755 0 0 /a/b\n", 3, cause)
        self.check_refused(b"d 0755 0 0 /\nd 0755 0 0 /a\nd 0755 0 0 /a/b\nd 0755 0 0 /b/c\n", 4, cause)

    def test_the_first_fault_of_the_first_faulty_line_is_reported(self):
        mode, order = "the mode is not four octal digits", "the path does not come after that of the line before"
        self.check_refused(b"d 0755 0 0 /\nd 9 0 0 /b/c\nd 0755 0 0 /a\n", 2, mode)
        self.check_refused(b"d 0755 0 0 /\nd 0755 0 0 /b\nd 0755 0 0 /a/c\n", 3, order)
