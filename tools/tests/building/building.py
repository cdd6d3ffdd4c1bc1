"""Tests of `build`, with a fake program in place of llbm."""

import gzip
import os
import pathlib
import shutil
import signal
import stat
import subprocess

from tests import base
from tests.base import command, run
from tests.trees.tar_tools import entry, tar

FAKE = f"""{base.FAKE_PYTHON}
import os, signal, time
if sys.argv[1:2] == ["step"]:
    sys.exit(2)
given = [word.partition("=") for word in sys.argv[1:] if "=" in word]
with open("given", "wb") as file:
    file.write(os.fsencode(" ".join(name + equals for name, equals, _ in given)) + b"\\n")
    file.write(" ".join(word for word in sys.argv[1:] if "=" not in word).encode() + b"\\n")
    for _, _, text in given:
        file.write(open(text, "rb").read())
    file.write(b"%d" % len(sys.stdin.buffer.read()))
exec(open("does").read())
"""

PRINTS = """
sys.stdout.write("d 0755 0 0 /\\nd 0555 0 0 /b\\nf 0640 0 0 6869 /b/a\\n")
"""
FAILS = """
sys.stdout.write("d 0755 0 0 /\\n")
sys.stderr.write("failed 1 action 0 fault 21\\nsomething else\\n")
sys.exit(1)
"""
WAITS = """
sys.stderr.write("waiting\\n")
sys.stderr.flush()
time.sleep(100000)
"""


class Builds(base.WithProgram):
    """Builds in the test's folder, with a fake program."""

    fake = FAKE

    def setUp(self):
        super().setUp()
        self.at = pathlib.Path(os.fsdecode(self.folder))
        self.origin = base.source("local://src")
        self.files = base.file_op(base.copy("/none", "/b"), on=[self.origin])
        self.given = base.ending(self.origin, self.files)
        self.file(b"definition", self.given)
        self.llbm = self.at / "llbm"
        self.llbm.write_text(self.fake)
        self.llbm.chmod(0o755)
        self.held = self.at / "held"
        self.held.mkdir()
        self.settings = {"cwd": self.at, "env": {**os.environ, "TMPDIR": str(self.held)}}

    def set_behavior(self, text):
        """Sets what the program does."""
        (self.at / "does").write_text(text)

    def build(self, *words, llbm=None, text=b""):
        """Runs a build with these words and this text on standard input, in the test's folder."""
        return run("build", "--llbm", llbm or self.llbm, *words, text=text, **self.settings)

    def check_nothing_is_left(self, also=()):
        """Checks that there is no result and no temporary file."""
        self.assertEqual(os.listdir(self.held), [])
        known = {"definition", "llbm", "held", "in", "does", "given", *also}
        self.assertEqual(set(os.listdir(self.at)) - known, set())

    def check_end(self, done, status, *lines):
        """Checks that the build ended with this status and these lines, and left nothing."""
        self.assertEqual((done.returncode, done.stdout), (status, b""))
        self.assertEqual(done.stderr.decode().splitlines(), list(lines))
        self.check_nothing_is_left()


class Build(Builds):
    """Builds from directories to a directory."""

    def test_the_result_is_a_directory(self):
        self.make(b"a/x", b"x", mode=0o600)
        self.make(b"b")
        self.set_behavior(PRINTS)
        done = self.build("--workers", "3", "definition", "out", "src=in/a", "b=in/b", "x=y=in/b")
        self.assertEqual(done.returncode, 2)
        done = self.build("--workers", "3", "definition", "out/", "src=in/a", "b=in/b", "src=in/a")
        self.assertEqual((done.returncode, done.stdout), (0, b""))
        lines = ["no local source has the name: b", "given twice, and the later one is used: src"]
        lines += ["reading b from in/b by value: no local source has this name", "left out: nothing"]
        lines += ["reading src from in/a", "left out: nothing", "reading src from in/a", "left out: nothing"]
        lines += ["running definition", "writing out", "out is written"]
        self.assertEqual(done.stderr.decode().splitlines(), lines)
        one, two = "d 0755 0 0 /\nf 0600 0 0 ff00000000 /x\n", "d 0755 0 0 /\n"
        three = one.replace("ff00000000", "ff00000001")
        given = f"src= b= src=\nrun --workers 3\n{one}{two}{three}{len(self.given)}"
        self.assertEqual((self.at / "given").read_text(), given)
        self.check_nothing_is_left({"out"})
        self.assertEqual((self.at / "out/b/a").read_text(), "hi")
        for name, mode in [("out", 0o755), ("out/b", 0o555), ("out/b/a", 0o640)]:
            self.assertEqual(stat.S_IMODE((self.at / name).stat().st_mode), mode)

    def test_sources_and_workers_are_optional(self):
        self.set_behavior(PRINTS)
        (self.at / "in").mkdir()
        done = self.build("definition", self.at / "in" / "out")
        self.assertEqual(done.returncode, 0)
        self.assertEqual((self.at / "given").read_text(), f"\nrun\n{len(self.given)}")
        self.assertEqual(os.listdir(self.at / "in"), ["out"])
        self.check_nothing_is_left()

    def test_a_failure_is_explained(self):
        self.set_behavior(FAILS)
        done = self.build("definition", "out")
        words = ["failed", "1", "action", "0", "fault", "21"]
        explained = run("explain", "--definition", self.place(b"definition"), *words)
        meaning = [f"  {line}" for line in explained.stdout.decode().splitlines()]
        self.assertEqual(meaning[-1], "  action 0: copy /none -> /b")
        prefix = ["running definition", "failed 1 action 0 fault 21"]
        self.check_end(done, 1, *prefix, *meaning, "something else", "nothing is written")

    def test_the_exit_status_is_that_of_the_program(self):
        for status in [2, 3, 77]:
            self.set_behavior(f"sys.exit({status})")
            self.check_end(self.build("definition", "out"), status, "running definition", "nothing is written")
        self.set_behavior("os.kill(os.getpid(), signal.SIGKILL)")
        self.check_end(self.build("definition", "out"), 137, "running definition", "nothing is written")

    def test_a_result_that_is_not_a_tree_is_refused(self):
        self.set_behavior('sys.stdout.write("d 0755 0 0 /\\nd 0555 0 0 /a\\nd 0555 0 0 /a/b\\nx\\n")')
        line = "neither d MODE UID GID PATH nor f MODE UID GID CONTENT PATH: line 4"
        done = self.build("definition", "out")
        self.check_end(done, 2, "running definition", "writing out", line, "nothing is written")

    def test_a_result_created_meanwhile_is_kept_and_locked_directories_are_removed(self):
        self.set_behavior(PRINTS + 'os.mkdir("out")\nopen("out/mine", "w").close()\n')
        done = self.build("definition", "out")
        self.assertEqual(done.returncode, 2)
        self.assertEqual(done.stderr.splitlines()[-1], b"this exists already: out")
        self.assertEqual(os.listdir(self.at / "out"), ["mine"])
        self.check_nothing_is_left({"out"})

    def test_missing_files_and_programs_are_refused(self):
        self.make(b"a", b"a")
        self.set_behavior(PRINTS)
        self.check_end(self.build("none", "out"), 2, "there is no such file or directory: none")
        for there in ["in", "in/a", "/"]:
            line = f"this exists already, and --replace is not given: {there}"
            self.check_end(self.build("definition", there), 2, line)
        missing = "there is no such program: none; --llbm PROGRAM names another one"
        self.check_end(self.build("definition", "out", llbm="none"), 2, missing)
        text = "not the text of a tree: the line does not end with a newline"
        for name, cause in [("none", "there is no such file or directory: none"), ("in/a", f"{text}: in/a, line 1")]:
            lines = [f"reading src from {name}", cause, "nothing is written"]
            self.check_end(self.build("definition", "out", f"src={name}"), 2, *lines)
        self.check_end(self.build("definition", "none/out"), 2, "there is no such directory: none")
        self.assertFalse((self.at / "given").exists())

    def test_a_program_that_does_not_start_or_is_not_llbm_is_refused(self):
        self.llbm.write_text("#!/nowhere\n")
        others = "--llbm PROGRAM names another one"
        line = f"the program does not start: No such file or directory: {self.llbm}; {others}"
        self.check_end(self.build("definition", "out"), 2, line)
        line = f"this is not the program llbm: /bin/true; {others}"
        self.check_end(self.build("definition", "out", llbm="/bin/true"), 2, line)
        self.make(b"a", b"a")
        self.check_end(self.build("definition", "out", "src=in", llbm="/bin/true"), 2, line, "nothing is written")

    def test_command_lines_are_refused(self):
        for words in [[], ["definition"], ["definition", "out", "src"], ["definition", "out", "src="]]:
            self.assertEqual(self.build(*words).returncode, 2, words)
        self.check_nothing_is_left()

    def test_sources_can_be_archives(self):
        given = tar(entry("x", b"x", mode=0o600, owner=(7, 8)))
        tree = b"d 0755 0 0 /\nf 0600 0 0 ff00000000 /x\n"
        self.set_behavior(PRINTS)
        for name, packed in [("a.tar", given), ("b.tar.gz", gzip.compress(given)), ("c.tgz", gzip.compress(given))]:
            self.file(name.encode(), packed)
            done = self.build("definition", f"out-{name[0]}", f"src={name}")
            self.assertEqual(done.returncode, 0, done.stderr)
            self.assertEqual(done.stderr.splitlines()[:2], [f"reading src from {name}".encode(), b"left out: nothing"])
            self.assertEqual((self.at / "given").read_bytes(), b"src=\nrun\n%b%d" % (tree, len(self.given)))
        self.make(b"d.tar/x", b"x", mode=0o600)
        self.assertEqual(self.build("definition", "out-d", "src=in/d.tar").returncode, 0)
        self.assertEqual((self.at / "given").read_bytes(), b"src=\nrun\n%b%d" % (tree, len(self.given)))
        self.check_nothing_is_left({"a.tar", "b.tar.gz", "c.tgz", "out-a", "out-b", "out-c", "out-d"})

    def test_faulty_archives_are_refused(self):
        self.set_behavior(PRINTS)
        self.file(b"in.tar", b"")
        done = self.build("definition", "out", "src=in.tar")
        self.assertEqual(done.returncode, 2)
        lines = ["reading src from in.tar", "the archive is empty: in.tar", "nothing is written"]
        self.assertEqual(done.stderr.decode().splitlines(), lines)
        lines = ["reading src from none.tar", "there is no such file or directory: none.tar", "nothing is written"]
        os.unlink(self.at / "in.tar")
        self.check_end(self.build("definition", "out", "src=none.tar"), 2, *lines)

    def test_the_result_can_be_an_archive(self):
        self.set_behavior(PRINTS)
        done = self.build("definition", "out.tar")
        self.assertEqual((done.returncode, done.stdout), (0, b""))
        lines = ["running definition", "writing out.tar", "out.tar is written"]
        self.assertEqual(done.stderr.decode().splitlines(), lines)
        self.check_nothing_is_left({"out.tar"})
        text = b"d 0755 0 0 /\nd 0555 0 0 /b\nf 0640 0 0 6869 /b/a\n"
        self.assertEqual((self.at / "out.tar").read_bytes(), run("tar-of-tree", text=text).stdout)
        self.assertEqual(stat.S_IMODE((self.at / "out.tar").stat().st_mode), 0o644)
        before = (self.at / "out.tar").stat()
        done = self.build("definition", "out.tar")
        self.check_run(done, 2, b"", b"this exists already, and --replace is not given: out.tar\n")
        self.assertTrue(os.path.samestat(before, (self.at / "out.tar").stat()))

    def test_an_archive_created_meanwhile_is_kept(self):
        self.set_behavior(PRINTS + 'open("out.tar", "w").close()\n')
        done = self.build("definition", "out.tar")
        self.assertEqual(done.returncode, 2)
        self.assertEqual(done.stderr.splitlines()[-1], b"this exists already: out.tar")
        self.assertEqual((self.at / "out.tar").read_bytes(), b"")
        self.check_nothing_is_left({"out.tar"})

    def test_a_result_is_packed_by_its_name(self):
        self.set_behavior(PRINTS)
        text = b"d 0755 0 0 /\nd 0555 0 0 /b\nf 0640 0 0 6869 /b/a\n"
        names = ["out.tar.gz", "out.tgz", "out.tar.bz2", "out.tar.xz"]
        for name in names:
            self.assertEqual(self.build("--mtime", "7", "definition", name).returncode, 0)
            self.check_success(run("tree-of-tar", self.at / name), text, b"left out: nothing\n")
            packed = run("tar-of-tree", "--mtime", "7", self.at / f"wanted-{name}", text=text)
            self.assertEqual(packed.returncode, 0)
            self.assertEqual((self.at / name).read_bytes(), (self.at / f"wanted-{name}").read_bytes())
        self.check_nothing_is_left({*names, *(f"wanted-{name}" for name in names)})

    def test_a_text_that_is_no_tree_is_refused(self):
        self.set_behavior('sys.stdout.write("x\\n")')
        line = "neither d MODE UID GID PATH nor f MODE UID GID CONTENT PATH: line 1"
        lines = ["running definition", "writing out.tar", line, "nothing is written"]
        self.check_end(self.build("definition", "out.tar"), 2, *lines)

    def start(self):
        """Starts a build that waits for its program."""
        self.set_behavior(WAITS)
        child = subprocess.Popen(
            command("build", "--llbm", self.llbm, "definition", "out"), stderr=subprocess.PIPE, **self.settings
        )
        self.addCleanup(child.stderr.close)
        self.addCleanup(child.wait)
        while child.stderr.readline() not in (b"waiting\n", b""):
            pass
        self.assertEqual(len(os.listdir(self.held)), 1)
        return child

    def test_an_interrupt_leaves_nothing(self):
        for number in [signal.SIGINT, signal.SIGTERM, signal.SIGHUP]:
            child = self.start()
            child.send_signal(number)
            self.assertEqual(child.stderr.read(), b"interrupted: nothing is written\n")
            self.assertEqual(child.wait(base.GUARD), 128 + number)
            self.check_nothing_is_left()

    def test_several_interrupts_leave_nothing(self):
        child = self.start()
        for number in [signal.SIGINT, signal.SIGTERM, signal.SIGINT]:
            child.send_signal(number)
        self.assertIn(child.wait(base.GUARD), (128 + signal.SIGINT, 128 + signal.SIGTERM))
        self.check_nothing_is_left()

    def test_a_signal_that_was_ignored_stays_ignored(self):
        told = 'while not os.path.exists("told"):\n    time.sleep(0.01)\n'
        self.set_behavior('sys.stderr.write("waiting\\n")\nsys.stderr.flush()\n' + told + PRINTS)
        child = subprocess.Popen(
            command("build", "--llbm", self.llbm, "definition", "out"), stderr=subprocess.PIPE, **self.settings,
            preexec_fn=lambda: signal.signal(signal.SIGHUP, signal.SIG_IGN),
        )
        self.addCleanup(child.stderr.close)
        while child.stderr.readline() not in (b"waiting\n", b""):
            pass
        child.send_signal(signal.SIGHUP)
        (self.at / "told").touch()
        self.assertEqual(child.wait(base.GUARD), 0)
        self.check_nothing_is_left({"out", "told"})


class Pipes(Builds):
    """Definitions, sources and results that are pipes."""

    TEXT = b"d 0755 0 0 /\nd 0555 0 0 /b\nf 0640 0 0 6869 /b/a\n"

    def test_the_definition_can_be_standard_input(self):
        self.make(b"x", b"x", mode=0o600)
        self.set_behavior(PRINTS)
        lines = ["reading src from in", "left out: nothing", "running standard input", "writing out", "out is written"]
        for place in ["-", "/dev/stdin"]:
            done = self.build(place, "out", "src=in", text=self.given)
            self.assertEqual((done.returncode, done.stdout, done.stderr.decode().splitlines()), (0, b"", lines))
            tree = b"d 0755 0 0 /\nf 0600 0 0 ff00000000 /x\n"
            self.assertEqual((self.at / "given").read_bytes(), b"src=\nrun\n%b%d" % (tree, len(self.given)))
            self.check_nothing_is_left({"out"})
            shutil.rmtree(self.at / "out")

    def test_a_definition_can_be_a_named_pipe(self):
        os.mkfifo(self.at / "pipe")
        self.set_behavior(PRINTS)
        child = subprocess.Popen(["cp", "definition", "pipe"], cwd=self.at)
        done = self.build("pipe", "out")
        self.assertEqual((child.wait(base.GUARD), done.returncode), (0, 0), done.stderr)
        self.assertEqual((self.at / "given").read_text(), f"\nrun\n{len(self.given)}")
        self.check_nothing_is_left({"out", "pipe"})

    def test_a_failure_is_explained_by_the_definition_from_standard_input(self):
        self.set_behavior(FAILS)
        done = self.build("-", "out", text=self.given)
        self.assertEqual(done.returncode, 1)
        self.assertIn(b"  action 0: copy /none -> /b\n", done.stderr)
        self.check_nothing_is_left()

    def test_one_source_can_be_an_archive_on_standard_input(self):
        given = tar(entry("x", b"x", mode=0o600, owner=(7, 8)))
        self.set_behavior(PRINTS)
        for options, packed, content in [
            ((), given, b"ff00000000"), ((), gzip.compress(given), b"ff00000000"), (("--by-value",), given, b"78"),
        ]:
            done = self.build(*options, "definition", "-", "src=-", text=packed)
            self.assertEqual(done.returncode, 0, done.stderr)
            lines = [b"reading src from standard input", b"left out: nothing", b"running definition"]
            self.assertEqual(done.stderr.splitlines()[:3], lines)
            tree = b"d 0755 0 0 /\nf 0600 0 0 %b /x\n" % content
            self.assertEqual((self.at / "given").read_bytes(), b"src=\nrun\n%b%d" % (tree, len(self.given)))
            self.check_nothing_is_left()
        lines = ["reading src from standard input", "the archive is empty: standard input", "nothing is written"]
        self.check_end(self.build("definition", "out", "src=-"), 2, *lines)

    def test_only_one_input_can_be_standard_input(self):
        for words in [("-", "out", "src=-"), ("definition", "out", "a=-", "b=/dev/stdin")]:
            line = "only one input can come from standard input"
            self.check_end(self.build(*words, text=self.given), 2, line)

    def test_the_result_can_be_an_archive_on_standard_output(self):
        self.set_behavior(PRINTS)
        wanted = run("tar-of-tree", "--mtime", "7", text=self.TEXT).stdout
        lines = ["running definition", "writing to standard output", "the archive is written"]
        for options in [(), ("--by-value",)]:
            for result in ["-", "/dev/stdout"]:
                done = self.build("--mtime", "7", *options, "definition", result)
                self.assertEqual((done.returncode, done.stderr.decode().splitlines()), (0, lines))
                self.assertEqual(done.stdout, wanted)
                self.check_nothing_is_left()

    def test_nothing_is_on_standard_output_if_the_build_fails(self):
        self.set_behavior(FAILS)
        done = self.build("definition", "-")
        self.assertEqual((done.returncode, done.stdout), (1, b""))
        self.assertEqual(done.stderr.splitlines()[-1], b"nothing is written")

    def test_standard_output_that_fails_is_status_3(self):
        self.set_behavior(PRINTS)
        words = command("build", "--llbm", self.llbm, "definition", "-")
        with open("/dev/full", "wb") as full:
            done = subprocess.run(words, stdout=full, stderr=subprocess.PIPE, **self.settings)
        lines = ["the archive could not be written: No space left on device", "the archive is cut off"]
        self.assertEqual((done.returncode, done.stderr.decode().splitlines()[-2:]), (3, lines))
        done = subprocess.run(words, capture_output=True, preexec_fn=lambda: os.close(1), **self.settings)
        self.assertEqual((done.returncode, done.stdout), (3, b""))
        self.assertIn(b"standard output is closed", done.stderr)
        self.check_nothing_is_left()
