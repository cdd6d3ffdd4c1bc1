"""Tests of builds by reference: with a fake program, and of the two ways compared with the program."""

import gzip
import os
import pathlib
import shutil
import stat

from llbm_tools.building import result_writing, sources_by_value
from llbm_tools.trees import content_tokens
from tests import base, program
from tests.base import run
from tests.building.building import Builds
from tests.trees.tar_tools import entry, tar

PRINTS_SOURCE = """
sys.stdout.write(open(given[0][2]).read())
"""
PRINTS_TOKENS = """
lines = ["d 0755 0 0 /", "f 0640 1 2 ff00000000 /a", "d 0500 0 0 /b", "f 0444 0 0 - /b/e", "f 0644 0 0 {} /b/m"]
sys.stdout.write("".join(line + "\\n" for line in lines))
"""
SKIPPED = ["/bin/sh", "-c", "true || sha256 a b"]
MIXED = "41ff0000000142ff00000000ff00000000"


def mkfile(data, output=0):
    """Returns a mkfile at /m with this content."""
    return base.number(1, -1) + base.number(3, output) + base.part(5, base.part(1, "/m") + base.part(3, data))


def cached_exec(*args, on):
    """Returns an exec of these words that mounts a cache."""
    meta = base.part(1, b"".join(base.part(1, arg) for arg in args))
    root = base.part(2, base.number(1, 0) + base.part(3, "/"))
    options = base.number(6, 3) + base.part(20, base.part(1, "k"))
    cache = base.part(2, base.number(1, -1) + base.part(3, "/c") + base.number(4, -1) + options)
    return base.inputs(on) + base.part(2, meta + root + cache)


class Plans(base.WithProgram):
    """Which sources are given by value."""

    def check_plan(self, entries, sources, cause=""):
        """Checks the sources that are given by value, and the cause for giving all of them."""
        plan = sources_by_value.plan_of(base.ending(*entries), base.llbm)
        self.assertEqual((plan.sources, plan.all), (sources, cause))

    def test_sources_before_a_digest_are_given_by_value(self):
        one, two = base.source("local://one"), base.source("local://two")
        cause = "vertex 1, an exec, calls sha256"
        for words in [["sha256", "/a", "/b"], ["/bin/sh", "-c", "true && sha256 /a /b"], SKIPPED]:
            digest = base.exec_op(*words, on=[one])
            self.check_plan([one, digest, two, base.merge(digest, two)], {b"one": cause})
        listing = base.exec_op("listing", "/", "/a", on=[two])
        above = base.file_op(base.copy("/a", "/b"), on=[listing])
        self.check_plan([one, two, listing, above, base.merge(above, one)], {})
        below = base.file_op(base.copy("/a", "/b"), on=[one])
        digest = base.exec_op("sha256", "/a", "/b", on=[below])
        self.check_plan([one, below, digest], {b"one": "vertex 2, an exec, calls sha256"})

    def test_words_that_only_look_like_a_call_do_not_count(self):
        one = base.source("local://one")
        for words in [("write", "/a", "sha256"), ("/bin/sh", "-c", "write /sha256 listing ; cp /sha256 /a")]:
            self.check_plan([one, base.exec_op(*words, on=[one])], {})

    def test_the_byte_255_of_a_mkfile_is_a_cause_for_all(self):
        one = base.source("local://one")
        made = base.file_op(mkfile(b"a", output=-1), mkfile(b"\xff"), on=[one])
        self.check_plan([one, made], {}, "action 1 of vertex 1 writes the byte 255")
        self.check_plan([one, base.file_op(mkfile(b"\xfe"), on=[one])], {})

    def test_caches_carry_contents_between_execs(self):
        one, two = base.source("local://one"), base.source("local://two")
        filling, digest = cached_exec("cp", "/a", "/c", on=one), cached_exec("sha256", "/c/a", "/b", on=two)
        found = sources_by_value.plan_of(base.ending(one, two, filling, digest, base.merge(filling, digest)), base.llbm)
        after = "vertex 3, an exec, calls sha256"
        self.assertEqual(found.sources, {b"one": f"{after}, and vertex 2 mounts a cache", b"two": after})
        self.check_plan([one, filling], {})

    def test_a_definition_that_is_refused_has_no_plan(self):
        self.assertIsNone(sources_by_value.plan_of(b"\x0a", base.llbm))
        self.assertIsNone(sources_by_value.plan_of(base.ending(base.source("git://a")), base.llbm))


class Pieces(base.Folder):
    """Tokens, and how contents are written."""

    def test_pieces(self):
        token = content_tokens.token
        self.assertEqual(token(0x01020304), b"\xff\x01\x02\x03\x04")
        pieces = [b"a", 7, 0xFFFFFFFF, b"bc"]
        text = b"a" + token(7) + token(0xFFFFFFFF) + b"bc"
        self.assertEqual(list(content_tokens.pieces_of(text)), pieces)
        self.assertEqual(list(content_tokens.pieces_of(b"")), [])
        for cut in range(1, 5):
            with self.assertRaisesRegex(content_tokens.Refused, "inside a token"):
                list(content_tokens.pieces_of(b"a" + token(7)[:cut]))

    def test_a_path_of_128_long_names_is_opened_and_written(self):
        path = b"".join(b"/" + b"%03d" % number + b"n" * 252 for number in range(127))
        text = b"d 0755 0 0 /\n"
        names = path[1:].split(b"/")
        for count in range(1, 128):
            text += b"d 0755 0 0 /%b\n" % b"/".join(names[:count])
        text += b"f 0644 0 0 6869 %b/f\n" % path
        place = os.fsdecode(self.place(b"out"))
        os.mkdir(place)
        source = os.fsdecode(self.file(b"text", text))
        result_writing.DirectoryWriter(source, place, content_tokens.Table(), None).write()
        self.assertEqual(self.read().stdout.replace(self.mine, b"0 0"), text)

    def test_several_processes_write_what_one_does(self):
        before = result_writing.FILES_OF_A_WORKER
        lines = ["d 0755 0 0 /"]
        for one in range(100, 130):
            lines += [f"d 0700 0 0 /{one}", *(f"f 0640 0 0 {one:04x} /{one}/{name}" for name in range(100, 150))]
        text = os.fsdecode(self.file(b"text", self.text(lines)))
        for name, count in [("one", 10_000), ("several", 1)]:
            result_writing.FILES_OF_A_WORKER = count
            self.addCleanup(setattr, result_writing, "FILES_OF_A_WORKER", before)
            os.mkdir(self.place(name.encode()))
            place = os.fsdecode(self.place(name.encode()))
            writer = result_writing.DirectoryWriter(text, place, content_tokens.Table(), None)
            writer.write()
            writer.end()
            read = self.read(name.encode(), "--owner", "0:0").stdout
            self.assertTrue(read == self.text(lines), name)

    def test_a_failure_in_a_process_is_reported(self):
        self.addCleanup(setattr, result_writing, "FILES_OF_A_WORKER", result_writing.FILES_OF_A_WORKER)
        result_writing.FILES_OF_A_WORKER = 1
        lines = ["d 0755 0 0 /", *(f"f 0644 0 0 61 /{name}" for name in range(100, 900)), "f 0644 0 0 ff00000000 /900"]
        os.mkdir(self.place(b"out"))
        text = os.fsdecode(self.file(b"text", self.text(lines)))
        writer = result_writing.DirectoryWriter(text, os.fsdecode(self.place(b"out")), content_tokens.Table(), None)
        with self.assertRaisesRegex(content_tokens.Refused, "a token that is none of a source"):
            writer.write()
        writer.end()


class References(Builds):
    """Builds by reference with a fake program."""

    def test_contents_are_copied_by_their_tokens(self):
        self.make(b"x", b"first", mode=0o600)
        self.make(b"y", b"\xff\xff" * 100_000)
        self.make(b"z")
        self.set_behavior(PRINTS_TOKENS.replace("{}", MIXED))
        self.assertEqual(self.build("definition", "out", "src=in").returncode, 0)
        text = b"d 0755 0 0 /\nf 0600 0 0 ff00000000 /x\nf 0644 0 0 ff00000001 /y\nd 0755 0 0 /z\n"
        self.assertEqual((self.at / "given").read_bytes(), b"src=\nrun\n%b%d" % (text, len(self.given)))
        mixed = b"A" + b"\xff\xff" * 100_000 + b"Bfirstfirst"
        for name, content, mode in [("a", b"first", 0o640), ("b/e", b"", 0o444), ("b/m", mixed, 0o644)]:
            self.assertEqual((self.at / "out" / name).read_bytes(), content)
            self.assertEqual(stat.S_IMODE((self.at / "out" / name).stat().st_mode), mode)
        self.assertEqual(stat.S_IMODE((self.at / "out/b").stat().st_mode), 0o500)
        self.assertEqual(self.build("definition", "out.tar", "src=in").returncode, 0)
        lines = [f"f 0640 1 2 {b'first'.hex()} /a", "d 0500 0 0 /b", "f 0444 0 0 - /b/e"]
        lines += [f"f 0644 0 0 {mixed.hex()} /b/m"]
        expected = run("tar-of-tree", text=self.text(["d 0755 0 0 /", *lines]))
        self.assertTrue((self.at / "out.tar").read_bytes() == expected.stdout)
        self.check_nothing_is_left({"out", "out.tar"})

    def test_by_value_gives_the_contents(self):
        self.make(b"x", b"x", mode=0o600)
        self.set_behavior(PRINTS_SOURCE)
        self.assertEqual(self.build("--by-value", "definition", "out", "src=in").returncode, 0)
        text = b"d 0755 0 0 /\nf 0600 0 0 78 /x\n"
        self.assertEqual((self.at / "given").read_bytes(), b"src=\nrun\n%b%d" % (text, len(self.given)))
        self.check_nothing_is_left({"out"})

    def check_change(self, does, result="out"):
        """Checks that a source that changes is refused."""
        self.make(b"x", b"before")
        self.set_behavior(PRINTS_SOURCE + does)
        lines = ["reading src from in", "left out: nothing", "running definition", f"writing {result}"]
        lines += ["changed during the build: in/x", "nothing is written"]
        self.check_end(self.build("definition", result, "src=in"), 2, *lines)

    def test_a_file_that_changes_is_refused(self):
        for result in ["out", "out.tar"]:
            self.check_change('open("in/x", "w").write("after!")\n', result)
            self.check_change('open("in/x", "w").write("other size")\n', result)
            self.check_change('os.unlink("in/x")\n', result)
            self.check_change('os.unlink("in/x")\nos.symlink("y", "in/x")\n', result)
            os.unlink(self.at / "in/x")
            self.check_change('os.rename("in/x", "in/y")\nopen("in/x", "w").write("before")\n', result)
            os.unlink(self.at / "in/y")

    def test_a_file_that_is_not_used_may_change(self):
        self.make(b"x", b"x")
        self.set_behavior('open("in/x", "w").write("y")\nsys.stdout.write("d 0755 0 0 /\\n")\n')
        self.assertEqual(self.build("definition", "out", "src=in").returncode, 0)
        self.check_nothing_is_left({"out"})

    def test_an_archive_that_changes_is_refused(self):
        self.file(b"in.tar", tar(entry("x", b"x" * 1000)))
        self.set_behavior(PRINTS_SOURCE + 'open("in.tar", "r+b").write(b"y")\n')
        done = self.build("definition", "out", "src=in.tar")
        self.assertEqual(done.returncode, 2)
        lines = ["changed during the build: in.tar", "nothing is written"]
        self.assertEqual(done.stderr.decode().splitlines()[-2:], lines)
        self.check_nothing_is_left({"in.tar"})

    def test_contents_of_archives_are_copied(self):
        content = bytes(range(256)) * 1000
        given = tar(entry("d/x", content, mode=0o640), entry("e", b""))
        self.set_behavior(PRINTS_SOURCE)
        for name, packed in [("a.tar", given), ("b.tgz", gzip.compress(given))]:
            self.file(name.encode(), packed)
            self.assertEqual(self.build("definition", f"out-{name[0]}", f"src={name}").returncode, 0)
            self.assertEqual((self.at / f"out-{name[0]}/d/x").read_bytes(), content)
            self.assertEqual((self.at / f"out-{name[0]}/e").read_bytes(), b"")
        self.check_nothing_is_left({"a.tar", "b.tgz", "out-a", "out-b"})

    def test_tokens_that_no_source_has_are_refused(self):
        none, cut = "a content has a token that is none of a source", "a content ends inside a token"
        self.make(b"a")
        for text, cause in [("ff00000000", none), ("ff", cut)]:
            self.set_behavior(f'sys.stdout.write("d 0755 0 0 /\\nf 0644 0 0 {text} /a\\n")')
            for result in ["out", "out.tar"]:
                lines = ["reading src from in", "left out: nothing", "running definition", f"writing {result}", cause]
                self.check_end(self.build("definition", result, "src=in"), 2, *lines, "nothing is written")
        self.assertEqual(self.build("definition", "out").returncode, 0)
        self.assertEqual((self.at / "out/a").read_bytes(), b"\xff")

    def test_a_source_that_holds_the_result_does_not_have_the_folders_of_the_build(self):
        self.make(b"x", b"x")
        self.set_behavior(PRINTS_SOURCE)
        self.settings["env"]["TMPDIR"] = str(self.at / "in")
        for words in [(), ("--by-value",)]:
            self.assertEqual(self.build(*words, "definition", "in/out", "src=in").returncode, 0)
            self.assertEqual(sorted(os.listdir(self.at / "in/out")), ["x"])
            shutil.rmtree(self.at / "in/out")
            self.check_nothing_is_left()

    def test_a_result_that_is_too_large_is_refused_before_it_is_written(self):
        self.make(b"x", b"x" * 1000)
        self.set_behavior('sys.stdout.write("d 0755 0 0 /\\nf 0644 0 0 ff00000000ff0000000041 /a\\n")')
        self.assertEqual(self.build("--largest", "2001", "definition", "out", "src=in").returncode, 0)
        shutil.rmtree(self.at / "out")
        for words, result in [((), "out"), ((), "out.tar"), (("--by-value",), "out")]:
            size = 11 if words else 2001
            done = self.build("--largest", str(size - 1), *words, "definition", result, "src=in")
            lines = [f"the result is too large: {size:,} bytes; --largest {size} accepts it", "nothing is written"]
            self.assertEqual((done.returncode, done.stderr.decode().splitlines()[-2:]), (2, lines))
        for word in ["", "x", "-1", "1" * 19]:
            self.assertEqual(self.build("--largest", word, "definition", "out").returncode, 2, word)
        self.check_nothing_is_left()

    def test_the_program_runs_the_definition_that_was_planned(self):
        other = base.ending(self.origin, base.exec_op("sha256", "/x", "/y", on=[self.origin]))
        self.file(b"other", other)
        packer = self.at / "held" / "zstd"
        packer.write_text(f"#!/bin/sh\ncp {self.at}/other {self.at}/definition\ntail -c +5\n")
        packer.chmod(0o755)
        self.settings["env"]["PATH"] = f"{self.at / 'held'}:{os.environ['PATH']}"
        self.file(b"in.tar.zst", b"\x28\xb5\x2f\xfd" + tar(entry("x", b"x")))
        self.set_behavior(PRINTS_SOURCE)
        self.assertEqual(self.build("definition", "out", "src=in.tar.zst").returncode, 0)
        self.assertTrue((self.at / "given").read_bytes().endswith(b"%d" % len(self.given)))
        self.assertNotEqual(len(self.given), len(other))

    def test_a_source_can_be_the_text_of_a_tree(self):
        self.file(b"tree", b"d 0755 0 0 /\nf 0600 7 8 ff41 /x\nf 0644 0 0 - /y\n")
        self.set_behavior(PRINTS_SOURCE)
        for words, content in [((), b"ff00000000"), (("--by-value",), b"ff41")]:
            done = self.build(*words, "definition", "out.tar", "src=tree")
            self.assertEqual(done.stderr.splitlines()[0], b"reading src from tree")
            text = b"d 0755 0 0 /\nf 0600 7 8 %b /x\nf 0644 0 0 - /y\n" % content
            self.assertEqual((self.at / "given").read_bytes(), b"src=\nrun\n%b%d" % (text, len(self.given)))
            wanted = run("tar-of-tree", text=b"d 0755 0 0 /\nf 0600 7 8 ff41 /x\nf 0644 0 0 - /y\n").stdout
            self.assertEqual((self.at / "out.tar").read_bytes(), wanted)
            os.unlink(self.at / "out.tar")
            done = self.build(*words, "definition", "out.tar", "src=-", text=(self.at / "tree").read_bytes())
            self.assertEqual((self.at / "out.tar").read_bytes(), wanted)
            os.unlink(self.at / "out.tar")
        self.file(b"tree", b"d 0755 0 0 /\nf\n")
        line = "not the text of a tree: neither d MODE UID GID PATH nor f MODE UID GID CONTENT PATH: tree, line 2"
        done = self.build("definition", "out", "src=tree")
        lines = ["reading src from tree", line, "nothing is written"]
        self.assertEqual((done.returncode, done.stderr.decode().splitlines()), (2, lines))


class Forced(Builds):
    """Builds of definitions that need contents by value."""

    def define(self, *entries):
        """Makes these entries the definition."""
        self.given = base.ending(*entries)
        self.file(b"definition", self.given)

    def check_given(self, done, text, *lines):
        """Checks the text that the program gets, and the first lines of the build."""
        self.assertEqual(done.returncode, 0, done.stderr)
        self.assertEqual(done.stderr.decode().splitlines()[: len(lines)], list(lines))
        self.assertIn(text, (self.at / "given").read_bytes())

    def test_a_source_before_a_digest_is_given_by_value(self):
        digest = base.exec_op("sha256", "/x", "/y", on=[self.origin])
        other = base.source("local://other")
        self.define(self.origin, digest, other, base.merge(digest, other))
        self.make(b"a/x", b"x")
        self.make(b"b/y", b"\xff")
        self.set_behavior(PRINTS_SOURCE)
        done = self.build("definition", "out", "src=in/a", "other=in/b")
        lines = ["reading src from in/a by value: vertex 1, an exec, calls sha256", "left out: nothing"]
        lines += ["reading other from in/b"]
        self.check_given(done, b"f 0644 0 0 78 /x\nd 0755 0 0 /\nf 0644 0 0 ff00000000 /y\n", *lines)
        self.check_nothing_is_left({"out"})

    def test_the_byte_255_before_a_digest_makes_all_by_value(self):
        digest = base.exec_op("sha256", "/x", "/y", on=[self.origin])
        other = base.source("local://other")
        self.define(self.origin, digest, other, base.merge(digest, other))
        self.make(b"a/x", b"\xff")
        self.make(b"b/y", b"y")
        self.set_behavior(PRINTS_SOURCE)
        done = self.build("definition", "out", "other=in/b", "src=in/a")
        cause = "vertex 1, an exec, calls sha256, and /x of src, which is before it, has the byte 255"
        lines = ["reading src from in/a by value: vertex 1, an exec, calls sha256"]
        lines += [f"all sources are given by value: {cause}"]
        self.check_given(done, b"f 0644 0 0 79 /y\nd 0755 0 0 /\nf 0644 0 0 ff /x\n", *lines)
        self.check_nothing_is_left({"out"})

    def test_a_mkfile_with_the_byte_255_makes_all_by_value(self):
        self.define(self.origin, base.file_op(mkfile(b"\xff"), on=[self.origin]))
        self.make(b"x", b"x")
        self.set_behavior(PRINTS_SOURCE)
        lines = ["all sources are given by value: action 0 of vertex 1 writes the byte 255", "reading src from in"]
        self.check_given(self.build("definition", "out", "src=in"), b"f 0644 0 0 78 /x\n", *lines)

    def test_names_of_sources_are_compared_by_their_bytes(self):
        self.origin = base.source("local://\u00e9")
        self.define(self.origin, base.exec_op("sha256", "/x", "/y", on=[self.origin]))
        self.make(b"x", b"x")
        self.set_behavior(PRINTS_SOURCE)
        self.settings["env"] |= {"LC_ALL": "C", "PYTHONUTF8": "0", "PYTHONCOERCECLOCALE": "0"}
        done = self.build("definition", "out", "\u00e9=in".encode())
        self.assertEqual(done.returncode, 0, done.stderr)
        self.assertIn(b"by value: vertex 1, an exec, calls sha256", done.stderr)
        self.assertNotIn(b"no local source has the name", done.stderr)
        self.assertIn(b"f 0644 0 0 78 /x\n", (self.at / "given").read_bytes())

    def test_a_source_that_the_definition_does_not_have_is_given_by_value(self):
        self.make(b"x", b"x")
        self.set_behavior(PRINTS_SOURCE)
        lines = ["no local source has the name: other"]
        lines += ["reading other from in by value: no local source has this name", "left out: nothing"]
        self.check_given(self.build("definition", "out", "other=in"), b"f 0644 0 0 78 /x\n", *lines)

    def test_the_whole_text_is_what_may_be_too_long(self):
        around = len("d 0755 0 0 /\nf 0644 0 0  /x\n")
        self.make(b"x", b"")
        os.truncate(self.place(b"in", b"x"), ((1 << 26) - around) // 2 + 1)
        self.define(self.origin, base.exec_op("sha256", "/x", "/y", on=[self.origin]))
        line = "src is too long to be given by value, over 67,108,864 bytes: vertex 1, an exec, calls sha256"
        reading = "reading src from in by value: vertex 1, an exec, calls sha256"
        self.check_end(self.build("definition", "out", "src=in"), 2, reading, line, "nothing is written")

    def test_what_is_too_long_to_be_given_by_value_is_refused_before_the_run(self):
        self.make(b"x", b"")
        os.truncate(self.place(b"in", b"x"), (1 << 25) + 1)
        digest = base.exec_op("sha256", "/x", "/y", on=[self.origin])
        self.define(self.origin, digest)
        line = "src is too long to be given by value, over 67,108,864 bytes: vertex 1, an exec, calls sha256"
        reading = "reading src from in by value: vertex 1, an exec, calls sha256"
        self.check_end(self.build("definition", "out", "src=in"), 2, reading, line, "nothing is written")
        self.assertFalse((self.at / "given").exists())
        line = "src is too long to be given by value, over 67,108,864 bytes: --by-value asks for it"
        done = self.build("--by-value", "definition", "out", "src=in")
        self.assertEqual(done.stderr.decode().splitlines()[-2:], [line, "nothing is written"])
        self.assertEqual(done.returncode, 2)
        self.define(self.origin)
        self.set_behavior(PRINTS_SOURCE)
        self.assertEqual(self.build("definition", "out", "src=in").returncode, 0)
        self.assertEqual((self.at / "out/x").stat().st_size, (1 << 25) + 1)


class BothWays(base.Folder):
    """Builds of the program by reference and by value leave the same."""

    llbm, output = program.WithProgram.llbm, program.WithProgram.output
    definitions, build = program.WithProgram.definitions, program.WithProgram.build
    text_of = program.WithProgram.text_of

    def setUp(self):
        if base.llbm is None:
            self.skipTest("the program llbm is needed (--llbm PROGRAM)")
        super().setUp()
        self.at = pathlib.Path(os.fsdecode(self.folder))

    def check_both(self, name, given, *words, status=0):
        """Builds a definition in both ways, and compares the results."""
        kinds = [f"{name}.tar", name]
        for result in kinds:
            one = self.build(given, *words, result=f"reference-{result}")
            two = self.build(given, "--by-value", *words, result=f"value-{result}")
            self.assertEqual((one.returncode, two.returncode), (status, status), one.stderr + two.stderr)
            if one.returncode == 0 and result.endswith(".tar"):
                results = [self.at / f"{way}-{result}" for way in ("reference", "value")]
                self.assertEqual(*(result.read_bytes() for result in results))
            elif one.returncode == 0:
                self.assertEqual(self.text_of(f"reference-{result}"), self.text_of(f"value-{result}"))

    def test_the_examples(self):
        places = {}
        for tree in [*base.ROOT.glob("examples/*.tree"), *base.ROOT.glob("examples/*/*.tree")]:
            places[tree] = self.at / f"{tree.parent.name}-{tree.stem}"
            self.check_success(run("directory-of-tree", places[tree], text=tree.read_bytes()))
        for name, given in self.definitions():
            trees = [*base.ROOT.glob(f"examples/{name}/*.tree"), *base.ROOT.glob("examples/*.tree")]
            sources = [f"{'source' if tree.stem == 'tour' else tree.stem}={places[tree]}" for tree in trees]
            self.check_both(name, given, *sources, status=1 if name == "failure" else 0)

    def test_listed_appended_joined_and_cached_contents(self):
        self.make(b"a", bytes(range(256)) * 3)
        self.make("\U0010ffff".encode())
        self.make(b"b", b"\xff\x00\x00\x00\x00")
        source = base.source("local://src")
        steps = "listing / /names ; append /b w ; concat /j /a /b /a ; cp /j /k ; append /e x ; envfile /v"
        joined = base.exec_op("/bin/sh", "-c", steps)
        mount = base.part(2, base.number(1, 0) + base.part(3, "/"))
        meta = base.part(1, b"".join(base.part(1, word) for word in ["/bin/sh", "-c", steps]))
        joined = base.inputs(source) + base.part(2, meta + mount)
        cached = cached_exec("/bin/sh", "-c", "cp /j /c ; append /c/j z ; cp /c/j /l", on=joined)
        self.check_both("joined", base.ending(source, joined, cached), f"src={self.at / 'in'}", "--workers=1")
        place = self.at / "reference-joined"
        whole = bytes(range(256)) * 3
        self.assertEqual((place / "l").read_bytes(), whole + b"\xff\x00\x00\x00\x00w\n" + whole + b"z\n")
        self.assertEqual((place / "names").read_bytes(), b"a\nb\n\xf4\x8f\xbf\xbf/\n")
