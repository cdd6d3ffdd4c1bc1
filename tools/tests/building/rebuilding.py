"""Tests of `build --replace` and `--keep`: what is kept, what is done again, and what is in the place of the result."""

import json
import os
import shutil
import stat

from llbm_tools.building import atomic_exchange, kept_builds, kept_changes, replaced_results
from llbm_tools.trees import directory_states, kept_sources
from tests import base
from tests.base import run
from tests.building.building import Builds
from tests.trees.tar_tools import entry, tar

# The fake program copies its source to its result, and notes each run.
COPIES = """
open("runs", "a").write("x")
sys.stdout.write(open(given[0][2]).read())
"""
SAME = b"nothing to do: out has this definition, these options and these sources\n"


class Rebuilds(Builds):
    """Builds in the place of old results, with a fake program."""

    def setUp(self):
        super().setUp()
        self.set_behavior(COPIES)
        for name in [b"a/x", b"a/y", b"b/c/z"]:
            self.make(name, name)
        self.grow_old()

    def grow_old(self):
        """Gives all files of the source times that are older than any reading."""
        files = [os.path.join(folder, name) for folder, _, names in os.walk(self.place(b"in")) for name in names]
        for file in files:
            os.utime(file, (7, 7))
        latest = max(os.stat(file).st_ctime_ns for file in files)
        base.wait_until(lambda: kept_changes.now() > latest, "a later time")

    def replace(self, *words, result="out", source="in"):
        """Builds in the place of the result, and keeps what was read."""
        return self.build("--replace", "--keep", "kept", *words, "definition", result, f"src={source}")

    def runs(self):
        """Returns how often the program ran."""
        return len((self.at / "runs").read_text())

    def check(self, done, *lines, runs=None):
        """Checks the lines of a build, and that its result is what a new build makes."""
        self.assertEqual(done.returncode, 0, done.stderr)
        self.assertEqual(done.stderr.decode().splitlines()[-len(lines) :], list(lines))
        if runs is not None:
            self.assertEqual(self.runs(), runs)
        self.assertEqual(self.build("definition", "whole", "src=in").returncode, 0)
        self.assertEqual(run("diff-of-trees", self.at / "whole", self.at / "out").stdout, b"")
        shutil.rmtree(self.at / "whole")
        (self.at / "runs").write_text("x" * (self.runs() - 1))
        self.check_nothing_is_left({"out", "kept", "runs"})


class Replacing(Rebuilds):
    """Results in the place of old ones."""

    def test_a_result_is_replaced_as_a_whole(self):
        self.assertEqual(self.build("definition", "out", "src=in").returncode, 0)
        done = self.build("definition", "out", "src=in")
        self.assertEqual(done.stderr, b"this exists already, and --replace is not given: out\n")
        (self.at / "out/mine").write_text("mine")
        before = os.stat(self.at / "out").st_ino
        done = self.build("--replace", "definition", "out", "src=in")
        self.assertEqual(done.returncode, 0, done.stderr)
        self.assertNotEqual(os.stat(self.at / "out").st_ino, before)
        self.assertEqual(sorted(os.listdir(self.at / "out")), ["a", "b"])
        self.check_nothing_is_left({"out", "runs"})

    def test_an_archive_is_replaced(self):
        for _ in range(2):
            self.assertEqual(self.build("--replace", "definition", "out.tar", "src=in").returncode, 0)
        self.check_nothing_is_left({"out.tar", "runs"})

    def test_only_a_result_of_the_same_kind_is_replaced(self):
        (self.at / "file").write_text("x")
        os.symlink("in", self.at / "link")
        for result, kind in [("file", "a directory"), ("link", "a directory"), ("in.tar", "a file")]:
            if result == "in.tar":
                os.mkdir(self.at / result)
            done = self.build("--replace", "definition", result, "src=in")
            line = f"--replace puts {kind} only in the place of {kind}: {result}\n"
            self.assertEqual((done.returncode, done.stderr.decode()), (2, line))
        done = self.build("--replace", "definition", "in", "src=in/a")
        self.assertEqual((done.returncode, done.stderr), (2, b"the result would replace in/a\n"))
        done = self.build("--replace", "definition", "../" + self.at.name, "src=in")
        self.assertEqual((done.returncode, done.stderr), (2, b"the result would replace in\n"))

    def test_keep_needs_a_result_that_is_replaced(self):
        line = b"--keep needs --replace and a RESULT that is not standard output\n"
        for words in [("--keep", "kept", "definition", "out"), ("--keep", "kept", "--replace", "definition", "-")]:
            done = self.build(*words, "src=in")
            self.assertEqual((done.returncode, done.stderr), (2, line))
        done = self.build("--replace", "--keep", "out/kept", "definition", "out", "src=in")
        self.assertEqual(done.stderr, b"the file of --keep would be replaced with the result: out/kept\n")

    def check_keep_is_refused(self, keep, cause, *words):
        """Checks that a file of --keep is refused in one line, and that neither it nor anything else is changed."""
        before = {name: kept_builds.state_at(str(self.at / name)) for name in os.listdir(self.at)}
        done = self.build("--replace", "--keep", keep, *words)
        self.assertEqual((done.returncode, done.stderr.decode()), (2, f"{cause} {keep}\n"))
        self.assertEqual({name: kept_builds.state_at(str(self.at / name)) for name in os.listdir(self.at)}, before)

    def test_what_no_build_has_kept_is_not_replaced(self):
        self.file(b"in.tar", tar(entry("x", b"x")))
        self.file(b"config", b"{}")
        self.replace()
        os.symlink("kept", self.at / "link")
        os.symlink("none", self.at / "dangling")
        os.mkfifo(self.at / "pipe")
        cause = "--keep replaces only what a build has kept:"
        for keep in ["llbm", "does", "link", "dangling", "pipe", "held", "/dev/null", "/dev/zero", "/dev/stdin"]:
            self.check_keep_is_refused(keep, cause, "definition", "out", "src=in")
        for keep in ["none/kept", "none/", "llbm/kept"]:
            cause = "there is no such directory to keep it in:"
            self.check_keep_is_refused(keep, cause, "definition", "out", "src=in")
        for given, words in [
            ("definition", ["definition", "out", "src=in"]), ("in.tar", ["definition", "out", "src=in.tar"]),
            ("config", ["--config", "config", "definition", "new.oci", "src=in"]),
        ]:
            self.check_keep_is_refused(given, "the file of --keep would replace", *words)
            # An empty file may be replaced, but not one that is an input.
            self.file(given.encode(), b"")
            self.check_keep_is_refused(given, "the file of --keep would replace", *words)

    def test_an_empty_file_may_be_replaced_and_so_may_what_another_form_has_kept(self):
        for data in [b"", b"llbm-build kept 7\n"]:
            self.file(b"kept", data)
            self.assertEqual(self.replace("--mtime", str(len(data))).returncode, 0)
            self.assertTrue((self.at / "kept").read_bytes().startswith(kept_builds.FIRST_LINE))

    def test_a_result_is_written_though_nothing_could_be_kept(self):
        os.mkdir(self.at / "folder")
        words = ["--replace", "--keep", "folder/kept", "definition", "out", "src=in"]
        self.set_behavior(COPIES + "os.rmdir('folder')\n")
        cause = "there is no such directory to keep it in: folder/kept"
        lines = ["writing out", "out is written", f"what is kept could not be stored: {cause}", "out is written"]
        done = self.build(*words)
        self.assertEqual((done.returncode, done.stderr.decode().splitlines()[-4:]), (3, lines))
        self.assertEqual((self.at / "out/a/x").read_bytes(), b"a/x")
        self.set_behavior(COPIES + "open('folder/kept', 'w').write('mine')\n")
        shutil.rmtree(self.at / "out")
        os.mkdir(self.at / "folder")
        cause = "--keep replaces only what a build has kept: folder/kept"
        done = self.build(*words)
        self.assertEqual((done.returncode, done.stderr.decode().splitlines()[-2:-1]), (3, [f"{lines[2][:33]} {cause}"]))
        self.assertEqual((self.at / "folder/kept").read_text(), "mine")

    def test_a_result_stays_if_its_keep_was_replaced_meanwhile(self):
        self.replace()
        self.make(b"new", b"new")
        self.set_behavior(COPIES + "os.unlink('kept')\nopen('kept', 'w').write('mine')\n")
        done = self.replace()
        lines = ["--keep replaces only what a build has kept: kept", "nothing is written"]
        self.assertEqual((done.returncode, done.stderr.decode().splitlines()[-2:]), (2, lines))
        self.assertEqual(((self.at / "kept").read_text(), os.path.exists(self.at / "out/new")), ("mine", False))

    def test_nothing_is_done_if_nothing_has_changed(self):
        self.check(self.replace(), "writing out", "out is written", runs=1)
        paths = [str(self.at / name) for name in ("out", "out/a/x", "kept")]
        before = [kept_builds.state_at(path) for path in paths]
        done = self.replace()
        self.assertEqual((done.returncode, done.stderr), (0, SAME))
        self.assertEqual(self.runs(), 1)
        self.assertEqual([kept_builds.state_at(path) for path in paths], before)

    def test_a_file_that_is_only_touched_changes_nothing(self):
        self.replace()
        os.utime(self.at / "in/a/x", (9, 9))
        self.assertEqual(self.replace().stderr, SAME)
        self.assertEqual(self.replace().stderr, SAME)

    def test_one_changed_content_is_one_written_file_without_a_run(self):
        self.replace()
        before = kept_builds.state_at(str(self.at / "out/a/y"))
        self.make(b"a/x", b"new")
        self.check(self.replace(), "writing out: 1 entry differs, in /a/x", "out is written", runs=1)
        self.assertEqual((self.at / "out/a/x").read_bytes(), b"new")
        self.assertEqual(kept_builds.state_at(str(self.at / "out/a/y")), before)
        self.assertEqual(self.replace().stderr, SAME)

    def test_a_content_that_makes_the_result_too_large_is_refused(self):
        # The result has the contents a/x, a/y and b/c/z: 11 bytes.
        words = ["--largest", "20"]
        self.replace(*words)
        self.make(b"a/x", b"x" * 12)
        self.check(self.replace(*words), "writing out: 1 entry differs, in /a/x", "out is written", runs=1)
        before = kept_builds.state_at(str(self.at / "out/a/y"))
        self.make(b"a/y", b"yyyy")
        done = self.replace(*words)
        lines = ["the result is too large: 21 bytes; --largest 21 accepts it", "nothing is written"]
        self.assertEqual((done.returncode, done.stderr.decode().splitlines()[-2:]), (2, lines))
        self.assertEqual(kept_builds.state_at(str(self.at / "out/a/y")), before)
        self.make(b"a/x", b"x")
        self.check(self.replace(*words), "writing out: 2 entries differ, in /a", "out is written", runs=2)

    def test_an_attribute_that_an_entry_got_is_refused_if_the_build_is_strict(self):
        for place in ["a/x", "a", ""]:
            self.replace("--strict")
            self.assertEqual(self.replace("--strict").stderr, SAME)
            try:
                os.setxattr(self.at / "in" / place, "user.note", b"1")
            except OSError as fault:
                self.skipTest(f"no extended attributes: {fault}")
            done = self.replace("--strict")
            path = f"/{place}"
            lines = [f"left out: an extended attribute, user.note: {path}", "left out: 1 extended attribute"]
            wanted = [*lines, "refused: something was left out: in", "nothing is written"]
            self.assertEqual((done.returncode, done.stderr.decode().splitlines()[-4:]), (2, wanted))
            os.removexattr(self.at / "in" / place, "user.note")
            done = self.replace("--strict")
            self.assertEqual((done.returncode, done.stderr), (0, SAME))

    def test_two_changed_contents_are_written_in_one_directory(self):
        self.replace()
        before = os.stat(self.at / "out/b/c/z").st_ino
        self.make(b"a/x", b"new")
        self.make(b"a/y", b"newer")
        self.check(self.replace(), "writing out: 2 entries differ, in /a", "out is written", runs=1)
        self.assertEqual(os.stat(self.at / "out/b/c/z").st_ino, before)

    def test_other_names_and_modes_are_a_run_and_the_entries_that_differ(self):
        self.replace()
        before = os.stat(self.at / "out/a/x").st_ino
        self.make(b"b/d", b"d")
        self.check(self.replace(), "writing out: 1 entry differs, in /b", "out is written", runs=2)
        os.unlink(self.at / "in/b/d")
        os.chmod(self.at / "in/b/c/z", 0o600)
        self.check(self.replace(), "writing out: 2 entries differ, in /b", "out is written", runs=3)
        self.assertEqual(stat.S_IMODE(os.stat(self.at / "out/b/c/z").st_mode), 0o600)
        self.assertEqual(os.stat(self.at / "out/a/x").st_ino, before)

    def test_a_file_that_becomes_a_directory(self):
        self.replace()
        os.unlink(self.at / "in/a/x")
        self.make(b"a/x/deep", b"deep")
        self.check(self.replace(), "writing out: 2 entries differ, in /a", "out is written", runs=2)

    def test_a_young_file_is_read_again(self):
        self.make(b"a/x", b"1")
        os.utime(self.at / "in/a/x", (1 << 33, 1 << 33))
        self.replace()
        found = os.stat(self.at / "in/a/x")
        self.assertEqual(self.replace().stderr, SAME)
        with open(self.at / "in/a/x", "r+b") as file:
            file.write(b"2")
        os.utime(self.at / "in/a/x", ns=(found.st_atime_ns, found.st_mtime_ns))
        last = kept_builds.load(str(self.at / "kept"))
        kept = last.sources[0]
        place = kept.place_of(b"/a", b"x")
        change = kept_sources.Changed(place, os.stat(self.at / "in/a/x"), kept.digest(place))
        kept_builds.store(str(self.at / "kept"), last._replace(sources=[kept.with_changes([change])]))
        self.check(self.replace(), "writing out: 1 entry differs, in /a/x", "out is written", runs=1)
        self.assertEqual((self.at / "out/a/x").read_bytes(), b"2")

    def test_another_definition_option_or_result_is_a_whole_build(self):
        self.replace()
        self.check(self.replace("--mtime", "5"), "writing out", "out is written", runs=2)
        self.check(self.replace("--mtime", "5", "--workers", "3"), "writing out", "out is written", runs=3)
        self.file(b"definition", self.given)
        self.assertEqual(self.replace("--mtime", "5", "--workers", "3").stderr, SAME)
        os.rename(self.at / "out", self.at / "elsewhere")
        self.assertEqual(self.replace("--mtime", "5", "--workers", "3").stderr.splitlines()[-1], b"out is written")
        self.assertEqual(self.runs(), 4)

    def test_a_file_that_is_kept_and_damaged_is_as_if_there_were_none(self):
        self.replace()
        whole = (self.at / "kept").read_bytes()
        for damaged in [b"", b"x", whole[:-1], whole + b"x", whole.replace(b"kept 3", b"kept 2"), whole[:30]]:
            (self.at / "kept").write_bytes(damaged)
            self.assertIsNone(kept_builds.load(str(self.at / "kept")), damaged[:40])
        self.check(self.replace(), "writing out", "out is written", runs=2)

    def test_archives_texts_and_sources_by_value(self):
        digest = base.exec_op("sha256", "/x", "/y", on=[self.origin])
        self.given = base.ending(self.origin, digest)
        self.file(b"definition", self.given)
        self.file(b"in.tar", tar(entry("x", b"x")))
        self.file(b"in.tree", b"d 0755 0 0 /\nf 0644 0 0 78 /x\n")
        for source in ["in", "in.tar", "in.tree"]:
            done = self.replace(source=source)
            self.assertEqual(done.stderr.splitlines()[-1], b"out is written", done.stderr)
            self.assertEqual(self.replace(source=source).stderr, SAME)
        self.file(b"in.tree", b"d 0755 0 0 /\nf 0644 0 0 79 /x\n")
        done = self.replace(source="in.tree")
        self.assertEqual(done.stderr.splitlines()[-2:], [b"writing out: 1 entry differs, in /x", b"out is written"])
        self.assertEqual((self.at / "out/x").read_bytes(), b"y")

    def test_the_parts_of_an_archive_are_compared_by_their_digests(self):
        self.file(b"in.tar", tar(entry("a", b"aa"), entry("d/b", b"bb")))
        self.replace(source="in.tar")
        self.file(b"in.tar", tar(entry("0", b"00"), entry("a", b"aa"), entry("d/b", b"cc")))
        done = self.replace(source="in.tar")
        lines = [b"writing out: 2 entries differ, in all of it", b"out is written"]
        self.assertEqual(done.stderr.splitlines()[-2:], lines)
        self.assertEqual([(self.at / "out" / name).read_bytes() for name in ("0", "a", "d/b")], [b"00", b"aa", b"cc"])

    def test_a_result_and_a_keep_inside_the_source_are_no_part_of_it(self):
        for _ in range(2):
            done = self.build("--replace", "--keep", "in/kept", "definition", "in/out", "src=in")
            self.assertEqual(done.returncode, 0, done.stderr)
        self.assertTrue(done.stderr.startswith(b"nothing to do: in/out"), done.stderr)
        self.assertEqual(sorted(os.listdir(self.at / "in/out")), ["a", "b"])

    def test_a_failed_build_leaves_the_old_result(self):
        self.replace()
        self.make(b"new", b"new")
        self.set_behavior("sys.exit(3)")
        self.assertEqual(self.replace().returncode, 3)
        self.assertEqual((self.at / "out/a/x").read_bytes(), b"a/x")
        self.set_behavior(COPIES)
        self.check(self.replace(), "writing out: 1 entry differs, in all of it", "out is written")


class Parts(base.Folder):
    """The functions that find what differs."""

    def test_common_places(self):
        for places, wanted in [
            ([b"/a/b"], b"/a/b"), ([b"/a/b", b"/a/c"], b"/a"), ([b"/a/b", b"/a/bc"], b"/a"), ([b"/a", b"/b/c"], b""),
            ([b"/a/b", b"/a"], b"/a"), ([b""], b""),
        ]:
            self.assertEqual(replaced_results.common_place(places), wanted)

    def test_an_exchange_without_the_kernel_is_two_steps(self):
        self.addCleanup(setattr, atomic_exchange, "kernel_call", atomic_exchange.kernel_call)
        one, two = os.fsdecode(self.file(b"one", b"1")), os.fsdecode(self.file(b"two", b"2"))
        self.assertTrue(atomic_exchange.exchange(one, two))
        atomic_exchange.kernel_call = lambda: None
        self.assertFalse(atomic_exchange.exchange(one, two))
        with open(one, "rb") as first, open(two, "rb") as second:
            self.assertEqual((first.read(), second.read()), (b"1", b"2"))
        with self.assertRaises(OSError):
            atomic_exchange.exchange(os.fsdecode(self.place(b"none")), two)
        self.assertEqual(sorted(os.listdir(self.folder)), [b"one", b"two"])

    def test_what_is_kept_is_read_back(self):
        self.make(b"d/x", b"x")
        recorder = kept_sources.Recorder(None, [])
        recorder.scan(os.open(self.place(b"in"), os.O_RDONLY), b"", frozenset())
        kept = recorder.kept()
        place = os.fsdecode(self.place(b"kept"))
        kept_builds.store(place, kept_builds.Build({"a": 1}, 5, [kept], [1], b"text", b"def", 9, True, {7: "00"}))
        found = kept_builds.load(place)
        found = found._replace(**{name: kept_sources.bytes_of(getattr(found, name)) for name in ("text", "definition")})
        wanted = kept_builds.Build({"a": 1}, 5, [], [1], b"text", b"def", 9, True, {7: "00"})
        self.assertEqual(found._replace(sources=[]), wanted)
        self.assertEqual(found.sources[0].parts(), kept.parts())
        self.assertEqual(found.sources[0].paths, [b"", b"/d"])
        head = json.loads((open(place, "rb").read().split(b"\n"))[1])
        self.assertEqual(head["tokens"], True)

    def test_a_file_keeps_its_token_if_only_its_content_changes(self):
        self.make(b"full", b"x")
        self.make(b"empty", b"")
        self.make(b"value", b"x")
        os.chmod(self.place(b"in", b"full"), 0o644)
        full, empty, value = (os.stat(self.place(b"in", name)) for name in (b"full", b"empty", b"value"))
        directory = kept_sources.Directory(b"", os.stat(self.place(b"in")))
        for name, found, number in [(b"empty", empty, None), (b"full", full, 0), (b"value", value, None)]:
            directory.add(name, found)
            directory.note(kept_sources.NO_DIGEST, number)
        kept = kept_sources.Kept(directory.mode, 0, kept_sources.parts_of([directory]))
        self.make(b"full", b"other")
        self.assertTrue(kept_sources.keeps_tokens(kept, 1, os.stat(self.place(b"in", b"full"))))
        self.assertFalse(kept_sources.keeps_tokens(kept, 1, empty))
        self.assertFalse(kept_sources.keeps_tokens(kept, 0, full))
        self.assertFalse(kept_sources.keeps_tokens(kept, 2, full))
        os.chmod(self.place(b"in", b"full"), 0o600)
        self.assertFalse(kept_sources.keeps_tokens(kept, 1, os.stat(self.place(b"in", b"full"))))

    def test_a_directory_is_compared_by_several_processes(self):
        for number in range(40):
            self.make(b"%d/x" % number, b"x")
        self.addCleanup(setattr, kept_sources, "FEW", kept_sources.FEW)
        kept_sources.FEW = 10
        recorder = kept_sources.Recorder(None, [])
        recorder.scan(os.open(self.place(b"in"), os.O_RDONLY), b"", frozenset())
        kept, place = recorder.kept(), os.fsdecode(self.place(b"in"))
        self.assertEqual(kept_sources.changes_of(kept, place, 1 << 60, frozenset(), strict=False), [])
        self.make(b"33/x", b"yy")
        with self.assertRaises(kept_sources.Structure):
            kept_sources.changes_of(kept, place, 1 << 60, frozenset(), strict=False)

    def test_the_states_of_entries_are_the_same_by_both_calls(self):
        self.make(b"d/x", b"x")
        self.make(b"f", b"content")
        os.symlink("f", self.place(b"in", b"link"))
        os.utime(self.place(b"in", b"f"), ns=(5, -1_500_000_000))
        root = os.open(self.place(b"in"), os.O_RDONLY)
        self.addCleanup(os.close, root)
        names = [b"d", b"f", b"link"]
        found = [os.stat(name, dir_fd=root, follow_symlinks=False) for name in names]
        wanted = [word for one in found for word in directory_states.state_of(one)]
        self.assertEqual(wanted[7:13], [found[1].st_mode, 7, -2, 500_000_000, *divmod(found[1].st_ctime_ns, 10**9)])
        self.assertEqual(list(directory_states.states_in(root, names)), wanted)
        self.addCleanup(setattr, directory_states, "c_call", directory_states.c_call)
        directory_states.c_call = lambda: None
        self.assertEqual(list(directory_states.states_in(root, names)), wanted)
        with self.assertRaises(FileNotFoundError):
            directory_states.states_in(root, [b"none"])
