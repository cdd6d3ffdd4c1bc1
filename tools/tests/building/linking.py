"""Tests of `build --links`: symbolic links are copied as they are, and followed where BuildKit follows them."""

import os
import pathlib
import tarfile

from llbm_tools.llb.messages import definition_of, edge, encoded, made
from llbm_tools.trees import links
from tests import base
from tests.base import IS_ROOT, Folder, run

NOTHING = -1
SHELL = ("/bin/sh", "-c")


def copied(source, dest, second=0, **others):
    """Returns a copy from an input to the empty tree."""
    given = {"mode": -1, "followSymlink": True, "createDestPath": True, "timestamp": -1, **others}
    copy = made("FileActionCopy", src=source, dest=dest, **given)
    return made("FileAction", input=NOTHING, secondaryInput=second, copy=copy)


def file_op(*actions, on):
    """Returns the entry of a file op whose actions follow one another."""
    entry = []
    for number, action in enumerate(actions):
        kept = [one for one in action if one[0] not in (1, 3)]
        base_of = NOTHING if number == 0 else len(on) + number - 1
        output = 0 if number == len(actions) - 1 else NOTHING
        numbers = [(field, value) for field, value in ((1, base_of), (3, output)) if value]
        entry.append(sorted([*numbers, *kept], key=lambda one: one[0]))
    return encoded(made("Op", inputs=tuple(map(edge, on)), file=made("FileOp", actions=tuple(entry))))


def execution(script, on, output=0, **mounts):
    """Returns the entry of a script on an entry's tree."""
    meta = made("Meta", args=(*SHELL, script), cwd="/")
    mount = made("Mount", input=0, dest="/", output=output, **mounts)
    exec_op = made("ExecOp", meta=meta, mounts=(mount,))
    return encoded(made("Op", inputs=(edge(on),), exec=exec_op))


def ending(*entries):
    """Returns the definition of some entries, of which the last one is the result, as BuildKit's library writes it."""
    return definition_of([*entries, encoded(made("Op", inputs=(edge(entries[-1]),)))])


class Linked(Folder):
    """Builds of a source with links."""

    def setUp(self):
        super().setUp()
        base.skip_without_rules(self)
        if base.llbm is None:
            self.skipTest("the program llbm is needed (--llbm PROGRAM)")
        self.at = pathlib.Path(os.fsdecode(self.folder))
        self.origin = base.source("local://src")
        folder = self.at / "in" / "real" / "deep"
        folder.mkdir(parents=True)
        (folder / "file").write_text("hello")
        (self.at / "in" / "current").symlink_to("real")
        (self.at / "in" / "real" / "absolute").symlink_to("/real/deep")
        (self.at / "in" / "broken").symlink_to("../../none")

    def build(self, given, *words, result="out"):
        """Builds a definition."""
        options = [word for word in words if word.startswith("--")]
        sources = [word for word in words if not word.startswith("--")]
        place = self.file(b"definition", given)
        return run("build", "--llbm", base.llbm, *options, place, self.at / result, *sources)

    def linked(self, *entries, words=(), result="out"):
        """Builds the last of some entries with --links."""
        return self.build(ending(self.origin, *entries), "--links", *words, f"src={self.at / 'in'}", result=result)

    def check(self, done, expected):
        """Checks that a build succeeded, and what it made: the content of files, and the targets of links."""
        self.assertEqual(done.returncode, 0, done.stderr.decode())
        self.assertEqual(self.made(self.at / "out"), expected)

    def made(self, place):
        """Returns what is in a directory by path."""
        found = {}
        for above, folders, files in os.walk(place):
            for name in folders + files:
                at = os.path.join(above, name)
                path = os.path.relpath(at, place)
                if os.path.islink(at):
                    found[path] = f"-> {os.readlink(at)}"
                elif os.path.isfile(at):
                    with open(at) as file:
                        found[path] = file.read()
        return found

    def test_links_are_copied_as_they_are(self):
        files = file_op(copied("/", "/", dirCopyContents=True), on=[self.origin])
        expected = {
            "current": "-> real", "broken": "-> ../../none", "real/absolute": "-> /real/deep",
            "real/deep/file": "hello",
        }  # fmt: skip
        self.check(self.linked(files), expected)

    def test_paths_are_followed_where_buildkit_follows_them(self):
        files = file_op(
            copied("/current/absolute/file", "/a"), copied("/current/absolute", "/b"),
            copied("/curr*", "/c/", allowWildcard=True), on=[self.origin],
        )  # fmt: skip
        expected = {
            "a": "hello", "b/file": "hello", "c/current/absolute": "-> /real/deep", "c/current/deep/file": "hello",
        }  # fmt: skip
        self.check(self.linked(files), expected)

    def test_a_link_that_is_not_followed_is_copied(self):
        files = file_op(copied("/current", "/a", followSymlink=False), on=[self.origin])
        self.check(self.linked(files), {"a": "-> real"})

    def test_a_dest_is_followed(self):
        files = file_op(
            copied("/", "/", dirCopyContents=True), copied("/real/deep/file", "/current/new"),
            copied("/broken", "/x", followSymlink=False), on=[self.origin],
        )  # fmt: skip
        done = self.linked(files)
        self.assertEqual(done.returncode, 0, done.stderr.decode())
        self.assertEqual(self.made(self.at / "out")["real/new"], "hello")
        self.assertIn("rewritten 1: ", done.stderr.decode())

    def test_without_the_option_links_are_left_out(self):
        files = file_op(copied("/", "/", dirCopyContents=True), on=[self.origin])
        done = self.build(ending(self.origin, files), f"src={self.at / 'in'}")
        self.assertEqual((done.returncode, self.made(self.at / "out")), (0, {"real/deep/file": "hello"}))
        self.assertIn("left out: 3 symbolic links", done.stderr.decode())

    def test_an_execution_follows_links_where_its_trees_are_known(self):
        done = self.linked(execution("cp /current/deep/file /a", self.origin))
        self.assertEqual(done.returncode, 0, done.stderr)
        self.assertEqual(self.made(self.at / "out")["a"], "hello")

    def test_an_execution_that_names_a_link_after_another_is_refused_by_the_path_and_the_link(self):
        first = execution("true", self.origin)
        done = self.linked(first, execution("cp /current/deep/file /a", first))
        self.assertEqual(done.returncode, 2)
        line = ": command 0: /current/deep/file leads through the symbolic link /current, which llbm does not follow"
        self.assertIn(line, done.stderr.decode())
        self.assertFalse((self.at / "out").exists())

    def test_a_path_in_what_an_execution_made_is_refused(self):
        ran = execution("mkdir /new", self.origin)
        for action in (copied("/current/deep/file", "/a"), copied("/current", "/a")):
            done = self.linked(ran, file_op(action, on=[ran]))
            self.assertEqual(done.returncode, 2)
            self.assertIn("vertex 2: action 0: /current", done.stderr.decode())
            self.assertFalse((self.at / "out").exists())

    def test_links_pass_through_executions(self):
        ran = execution("mkdir /new && cp /real/deep/file /new/file && rm /broken", self.origin)
        expected = {
            "current": "-> real", "real/absolute": "-> /real/deep", "real/deep/file": "hello", "new/file": "hello",
        }  # fmt: skip
        for words in ((), ("--progress", "--replace"), ("--workers=3", "--replace")):
            self.check(self.linked(ran, words=words), expected)

    def test_a_failure_is_that_of_the_execution(self):
        done = self.linked(execution("cp /none /a", self.origin))
        self.assertEqual(done.returncode, 1)
        self.assertIn("failed 1 command 0 status 1", done.stderr.decode())

    def test_hard_links_are_files_of_their_own_with_a_warning(self):
        os.link(self.at / "in/real/deep/file", self.at / "in/other")
        mkfile = made("FileActionMkFile", path="/other", mode=0o644, data=b"new", timestamp=-1)
        over = made("FileAction", input=NOTHING, secondaryInput=NOTHING, mkfile=mkfile)
        files = file_op(copied("/", "/", dirCopyContents=True), over, on=[self.origin])
        done = self.linked(files)
        self.assertEqual(done.returncode, 0, done.stderr.decode())
        found = self.made(self.at / "out")
        self.assertEqual((found["other"], found["real/deep/file"]), ("new", "hello"))
        on_source = encoded(made("Op", inputs=(edge(self.origin),), file=made("FileOp", actions=(
            made("FileAction", input=0, secondaryInput=NOTHING, output=0, mkfile=mkfile),
        ))))
        done = self.linked(on_source, words=["--replace"])
        self.assertEqual(done.returncode, 0, done.stderr.decode())
        self.assertRegex(done.stderr.decode(), r"(?m)^BuildKit: vertex 1 action 0: .*: HardLinks$")

    def test_a_source_in_any_form_has_its_links(self):
        files = file_op(copied("/current/deep", "/a"), copied("/broken", "/b", followSymlink=False), on=[self.origin])
        text = run("tree-of-directory", "--links", "--owner", "0:0", self.at / "in").stdout
        self.file(b"in.tree", text)
        with tarfile.open(self.at / "in.tar", "w") as archive:
            archive.add(self.at / "in", ".")
        for name in ("in.tree", "in.tar"):
            given = ending(self.origin, files)
            done = self.build(given, "--links", "--replace", f"src={self.at / name}")
            self.check(done, {"a/file": "hello", "b": "-> ../../none"})

    def test_an_archive_and_an_image_have_the_links(self):
        files = file_op(copied("/", "/", dirCopyContents=True), on=[self.origin])
        long = "/".join(["long"] * 60)
        (self.at / "in" / ("n" * 120)).symlink_to(long)
        for name in ("out.tar", "out.oci"):
            done = self.linked(files, result=name)
            self.assertEqual(done.returncode, 0, done.stderr.decode())
        with tarfile.open(self.at / "out.tar") as archive:
            found = {one.name: one.linkname for one in archive if one.issym()}
        expected = {"current": "real", "broken": "../../none", "real/absolute": "/real/deep", "n" * 120: long}
        self.assertEqual(found, expected)
        text = run("tree-of-tar", "--links", self.at / "out.tar").stdout
        self.assertEqual(run("tree-of-image", "--links", self.at / "out.oci").stdout, text)
        self.assertEqual(run("tar-of-tree", "--links", text=text).stdout, (self.at / "out.tar").read_bytes())

    def test_a_link_that_changes_is_made_anew(self):
        files = file_op(copied("/", "/", dirCopyContents=True), on=[self.origin])
        words = ["--replace", f"--keep={self.at / 'kept'}"]
        self.check(self.linked(files, words=words), self.made(self.at / "in"))
        (self.at / "in/current").unlink()
        (self.at / "in/current").symlink_to("real/deep")
        done = self.linked(files, words=words)
        self.check(done, self.made(self.at / "in"))
        self.assertEqual(os.readlink(self.at / "out/current"), "real/deep")
        (self.at / "in/real/deep/file").write_text("other")
        self.check(self.linked(files, words=words), self.made(self.at / "in"))

    def test_a_build_by_value_can_not_have_links(self):
        files = file_op(copied("/", "/", dirCopyContents=True), on=[self.origin])
        done = self.linked(files, words=["--by-value"])
        self.assertEqual(done.returncode, 2)
        self.assertIn("needs a token, and this build can't have any: --by-value asks for it", done.stderr.decode())

    def test_a_source_that_is_given_by_value_for_a_digest_has_links(self):
        ran = execution("sha256 /real/deep/file /sum", self.origin)
        done = self.linked(ran)
        self.assertEqual(done.returncode, 0, done.stderr.decode())
        self.assertEqual(os.readlink(self.at / "out/current"), "real")

    def test_what_unpacks_archives_is_refused(self):
        done = self.linked(file_op(copied("/real", "/a", attemptUnpackDockerCompatibility=True), on=[self.origin]))
        self.assertEqual(done.returncode, 2)
        self.assertIn("vertex 1 action 0 would unpack an archive", done.stderr.decode())

    def test_without_the_rules_links_are_refused(self):
        files = file_op(copied("/", "/", dirCopyContents=True), on=[self.origin])
        place = self.file(b"definition", ending(self.origin, files))
        words = ["--llbm", base.llbm, "--links", place, self.at / "out", f"src={self.at / 'in'}"]
        done = run("build", *words, env={**os.environ, "LLBM_RULES": "/none"})
        self.assertEqual(done.returncode, 2)
        self.assertIn("--links needs BuildKit's rules", done.stderr.decode())


class Texts(Folder):
    """Texts of trees with links."""

    def setUp(self):
        super().setUp()
        self.make(b"a/file", b"x")
        os.symlink("a/file", self.place(b"in", b"link"))
        os.symlink("/", self.place(b"in", b"a", b"root"))

    def test_a_text_has_links_and_is_written_with_them(self):
        done = self.read(b"in", "--links", "--owner", "0:0")
        self.assertEqual((done.returncode, done.stderr), (0, b"left out: nothing\n"))
        lines = done.stdout.decode().splitlines()
        self.assertIn(f"f 0777 0 0 {links.content_of(b'a/file').hex()} /link", lines)
        self.assertIn(f"f 0777 0 0 {links.content_of(b'/').hex()} /a/root", lines)
        written = run("directory-of-tree", "--links", "--mtime", "7", self.place(b"out"), text=done.stdout)
        self.assertEqual((written.returncode, written.stderr), (0, b""))
        self.assertEqual(os.readlink(self.place(b"out", b"link")), b"a/file")
        self.assertEqual(os.lstat(self.place(b"out", b"link")).st_mtime, 7)
        self.assertEqual(self.read(b"out", "--links", "--owner", "0:0").stdout, done.stdout)

    def test_owners_of_links_are_set(self):
        if not IS_ROOT:
            self.skipTest("only root sets owners")
        text = f"d 0755 0 0 /\nf 0777 3 4 {links.content_of(b'x').hex()} /l\n".encode()
        self.assertEqual(run("directory-of-tree", "--links", self.place(b"out"), text=text).returncode, 0)
        found = os.lstat(self.place(b"out", b"l"))
        self.assertEqual((found.st_uid, found.st_gid), (3, 4))
        self.assertEqual(self.read(b"out", "--links").stdout.splitlines()[1], text.splitlines()[1])

    def test_without_the_option_a_link_is_left_out_and_its_content_is_a_file(self):
        done = self.read(b"in")
        self.assertIn(b"left out: 2 symbolic links", done.stderr)
        text = f"d 0755 0 0 /\nf 0777 0 0 {links.content_of(b'x').hex()} /l\n".encode()
        self.assertEqual(self.write(text).returncode, 0)
        self.assertFalse(os.path.islink(self.place(b"out", b"l")))

    def test_a_file_that_begins_as_a_link_is_refused(self):
        self.make(b"b", links.START + b"x")
        done = self.read(b"in", "--links")
        self.assertEqual(done.returncode, 2)
        line = b"a file whose content begins as that of a symbolic link: /b\n"
        self.assertEqual(done.stderr, line)
        self.assertEqual(self.read(b"in").returncode, 0)
        place = os.fsdecode(self.place(b"in.tar"))
        with tarfile.open(place, "w") as archive:
            archive.add(os.fsdecode(self.place(b"in", b"b")), "b")
        named = line.replace(b"/b", b"b: " + os.fsencode(place))
        self.assertEqual(run("tree-of-tar", "--links", place).stderr, named)

    def test_an_archive_with_long_targets_is_read_again(self):
        targets = ["x" * 99, "y" * 100, "z" * 101, "w" * 4095, "t" * 98 + "//" + "s" * 9, "/" * 300]
        names = ["n" * (90 + number * 7) for number in range(len(targets))]
        lines = [f"f 0777 0 0 {links.content_of(one.encode()).hex()} /{name}" for name, one in zip(names, targets)]
        text = self.text(["d 0755 0 0 /", *sorted(lines, key=lambda line: line.rpartition(" ")[2])])
        packed = run("tar-of-tree", "--links", text=text)
        self.assertEqual((packed.returncode, packed.stderr), (0, b""))
        done = run("tree-of-tar", "--links", text=packed.stdout)
        self.assertEqual((done.returncode, done.stdout), (0, text))
