"""Tests of `tree-of-image` and of the tool that reads a source; against skopeo and umoci where they are installed."""

import json
import lzma
import os
import pathlib
import random
import shutil
import subprocess
import tarfile
import unittest

from llbm_tools.trees import source_texts
from tests import base
from tests.base import IS_ROOT, Folder, run
from tests.images import image_parts
from tests.images.image_parts import image, layout, saved
from tests.trees.tar_tools import entry, other, tar

LEFT = "left out: nothing"
ROOT = "d 0755 0 0 /"


def removed(path):
    """Returns the entry that removes a path of lower layers."""
    above, _, name = path.rpartition("/")
    return entry(f"{above}/.wh.{name}", b"")


def opaque(path):
    """Returns the entry that removes everything in a directory of lower layers."""
    return entry(f"{path}/.wh..wh..opq", b"")


def link(name, target, kind=tarfile.SYMTYPE):
    """Returns a link."""
    return other(name, kind, linkname=target)


def random_layer(chance):
    """Returns a layer of a few random entries; its hard links lead to files of the same layer."""
    paths = ["a", "b", "c", "a/x", "a/y", "b/x", "a/x/z", "b/x/z", "c/q"]
    found, files = [], []
    for _ in range(chance.randrange(1, 7)):
        path, kind = chance.choice(paths), chance.randrange(7)
        if kind == 0:
            found.append(removed(path))
        elif kind == 1:
            found.append(opaque(path))
        elif kind == 2 and files and files[0] != path:
            found.append(link(path, files[0], tarfile.LNKTYPE))
        elif kind < 5:
            found.append(entry(path, mode=chance.choice([0o755, 0o700])))
        else:
            found.append(entry(path, b"%d" % chance.randrange(100), mode=chance.choice([0o644, 0o600])))
            files.append(path)
    return tar(*found)


class Images(Folder):
    """A test that reads images."""

    def layout(self, *made, name=b"image"):
        """Writes an OCI layout of these images, and returns its path."""
        place = self.place(name)
        image_parts.directory(place, layout(*made))
        return place

    def read_image(self, given, *words):
        """Runs the tool on an image: a path, or an archive on standard input."""
        if isinstance(given, bytes) and not os.path.exists(given):
            return run("tree-of-image", *words, text=given)
        return run("tree-of-image", *words, given)

    def check_tree(self, layers, lines, errors=(LEFT,), words=()):
        """Checks the tree of these layers."""
        done = self.read_image(self.layout(image(*layers)), *words)
        shown = f"image one: {len(layers)} layer{'' if len(layers) == 1 else 's'}"
        self.check_success(done, self.text([ROOT, *lines]), self.text([shown, *errors]))

    def check_refused(self, given, cause, *words):
        """Checks that an image is refused, with this cause and the place on the last line."""
        done = run("tree-of-image", *words, given)
        self.assertEqual((done.returncode, done.stdout), (2, b""), done.stderr)
        last, place = done.stderr.decode().splitlines()[-1], f": {os.fsdecode(given)}"
        self.assertIn(place, last)
        self.assertRegex(last.removesuffix(place), cause)


class Layers(Images):
    """Layers, laid one over another."""

    def test_an_upper_entry_replaces_a_lower_one(self):
        lower = tar(
            entry("a", mode=0o700), entry("a/b", b"1"), entry("c", b"c"), entry("d/e", b"e"), entry("f", b"f"),
            entry("g"),
        )
        upper = tar(entry("a", mode=0o750, owner=(1, 2)), entry("c/x", b"x"), entry("d", b"d"), entry("g", mode=0o711))
        lines = ["d 0750 1 2 /a", "f 0644 0 0 31 /a/b", "f 0644 0 0 66 /f", "d 0711 0 0 /g"]
        place = self.layout(image(lower, upper), name=b"bad")
        self.check_refused(place, "^layer 2: a file with entries below it: /c$")
        upper = tar(entry("a", mode=0o750, owner=(1, 2)), entry("c"), entry("c/x", b"x"), entry("d", b"d"),
                    entry("g", mode=0o711))
        lines[2:2] = ["d 0755 0 0 /c", "f 0644 0 0 78 /c/x", "f 0644 0 0 64 /d"]
        self.check_tree([lower, upper], lines)

    def test_whiteouts_remove_what_is_below(self):
        lower = tar(entry("a/b", b"b"), entry("a/c/d", b"d"), entry("e", b"e"), entry(".wh.x", b""), entry("x", b"x"))
        upper = tar(removed("a/c"), removed("e"), entry("e", b"new"), removed("none/y"), removed("e/f"))
        lines = ["d 0755 0 0 /a", "f 0644 0 0 62 /a/b", "f 0644 0 0 6e6577 /e", "f 0644 0 0 78 /x"]
        self.check_tree([lower, upper], lines)
        self.check_tree([lower, tar(entry("e", b"new"), removed("e"), removed("a/c"))], lines)

    def test_an_opaque_directory_has_nothing_of_lower_layers(self):
        lower = tar(entry("a", mode=0o700), entry("a/b", b"b"), entry("a/c/d", b"d"), entry("a/c/e", b"e"))
        lines = ["d 0700 0 0 /a", "d 0755 0 0 /a/c", "f 0644 0 0 6e /a/c/d"]
        for upper in [tar(opaque("a"), entry("a/c/d", b"n")), tar(entry("a/c/d", b"n"), opaque("a"))]:
            self.check_tree([lower, upper], lines)
        self.check_tree([lower, tar(opaque("a")), tar(entry("a/z", b""))], [lines[0], "f 0644 0 0 - /a/z"])
        self.check_tree([lower, tar(opaque(""))], [])

    def test_notes_of_a_file_system_are_passed_over(self):
        given = tar(entry(".wh..wh.plnk", mode=0o700), entry(".wh..wh.plnk/1.2", b"x"), entry(".wh..wh.aufs", b""))
        self.check_tree([given], [])

    def test_links_in_paths_of_parents_are_followed_inside_the_image(self):
        lower = tar(
            entry("usr/bin/x", b"x"), link("bin", "usr/bin"), link("sbin", "/bin"), link("out", "../../../usr"),
            link("loop", "loop"),
        )
        upper = tar(entry("sbin/y", b"y"), removed("bin/x"), entry("out/z", b"z"))
        lines = ["d 0755 0 0 /usr", "d 0755 0 0 /usr/bin", "f 0644 0 0 79 /usr/bin/y", "f 0644 0 0 7a /usr/z"]
        errors = [f"left out: a symbolic link: /{name}" for name in ("bin", "loop", "out", "sbin")]
        self.check_tree([lower, upper], lines, [*errors, "left out: 4 symbolic links"])
        cause = "^layer 2: too many links or names on the way in a layer: /loop$"
        self.check_refused(self.layout(image(lower, tar(entry("loop/a", b""))), name=b"loop"), cause)

    def test_hard_links_lead_to_lower_layers_too(self):
        lower = tar(entry("a", b"a", mode=0o640), entry("d"), link("s", "d"), entry("d/b", b"b"))
        upper = tar(*(link(f"l{name[-1]}", name, tarfile.LNKTYPE) for name in ("a", "s/b", "d", "n")), removed("a"))
        lines = ["d 0755 0 0 /d", "f 0644 0 0 62 /d/b", "f 0640 0 0 61 /la", "f 0644 0 0 62 /lb"]
        errors = ["left out: a hard link to no entry: /ld", "left out: a hard link to no entry: /ln"]
        errors += ["left out: a symbolic link: /s", "left out: 2 hard links to no entry, 1 symbolic link"]
        self.check_tree([lower, upper], lines, errors)

    def test_what_no_tree_has_is_left_out_or_refused(self):
        deep = "/".join("a" * 129)
        given = tar(entry("../x", b""), entry(deep, b""), entry("a", b"a", pax_headers={"SCHILY.xattr.user.k": "1"}))
        errors = ["left out: not a valid name: /../x", "left out: more than 128 names: /" + deep]
        errors += ["left out: an extended attribute, SCHILY.xattr.user.k: /a"]
        errors += ["left out: 1 extended attribute, 1 path that is too long, 1 entry with an invalid name"]
        done = self.read_image(self.layout(image(given)))
        self.assertEqual((done.returncode, done.stdout), (0, self.text([ROOT, "f 0644 0 0 61 /a"])))
        self.assertEqual(sorted(done.stderr.decode().splitlines()[1:-1]), sorted(errors[:-1]))
        self.check_refused(self.place(b"image"), "^refused: something was left out$", "--strict")


class Forms(Images):
    """The forms of images."""

    def setUp(self):
        super().setUp()
        self.layers = [tar(entry("a", b"a"), entry("b", b"b", owner=(5, 6))), tar(removed("a"))]
        self.lines = [ROOT, "f 0644 5 6 62 /b"]

    def check_read(self, given, *words, shown="one"):
        """Checks that an image has the tree of the test's layers."""
        done = self.read_image(given, *words)
        self.check_success(done, self.text(self.lines), f"image {shown}: 2 layers\n{LEFT}\n".encode())

    def test_layouts_and_archives_are_read(self):
        self.check_read(self.layout(image(*self.layers)))
        archive = image_parts.archive(layout(image(*self.layers)))
        self.check_read(archive)
        self.check_read(self.file(b"x.tar", archive))
        self.check_read(self.file(b"x.tar.gz", image_parts.gzipped(archive)))
        self.check_read(image_parts.archive(saved(*self.layers)), shown="one:latest")

    def test_owners_can_be_given(self):
        self.lines = ["d 0755 7 8 /", "f 0644 7 8 62 /b"]
        self.check_read(self.layout(image(*self.layers)), "--owner", "7:8")

    def test_layers_can_be_packed(self):
        for number, pack in enumerate([bytes, image_parts.gzipped, lzma.compress]):
            self.check_read(self.layout(image(*self.layers, pack=pack), name=b"%d" % number))

    @unittest.skipUnless(shutil.which("zstd"), "there is no zstd")
    def test_layers_can_be_packed_by_zstd(self):
        def pack(data):
            return subprocess.run(["zstd", "-q", "-c"], input=data, capture_output=True).stdout

        self.check_read(self.layout(image(*self.layers, pack=pack)))

    def test_layers_of_a_saved_archive_can_be_links(self):
        files = saved(self.layers[1], self.layers[0], self.layers[1])
        members = [entry(path, data) for path, data in files.items() if path != "2/layer.tar"]
        self.lines = [ROOT, "f 0644 5 6 62 /b"]
        done = self.read_image(tar(*members, link("2/layer.tar", "../0/layer.tar")))
        self.check_success(done, self.text(self.lines), f"image one:latest: 3 layers\n{LEFT}\n".encode())

    def test_an_image_without_layers_is_an_empty_tree(self):
        done = self.read_image(self.layout(image()))
        self.check_success(done, self.text([ROOT]), f"image one: 0 layers\n{LEFT}\n".encode())

    def test_one_of_several_images_is_picked(self):
        other_image = image(tar(entry("c", b"c")), names=("two",), platform={"os": "linux", "architecture": "arm64"})
        place = self.layout(image(*self.layers), other_image)
        self.check_refused(place, "^there are 2 images, and --name or --platform picks one: one; two linux/arm64$")
        self.check_read(place, "--name", "one")
        self.check_read(place, "--platform", "linux/amd64", shown="one linux/amd64")
        done = self.read_image(place, "--platform", "linux/arm64")
        self.assertEqual(done.stdout, self.text([ROOT, "f 0644 0 0 63 /c"]))
        self.check_refused(place, "^there is no such image$", "--name", "three")
        self.check_refused(place, "^there is no such image$", "--platform", "windows/amd64")

    def test_an_index_in_an_index_is_read(self):
        made = image(*self.layers, names=("x",))
        notes = {"annotations": {"vnd.docker.reference.type": "attestation-manifest"}}
        first = {**made.descriptor[0], "annotations": {}}
        inner = {"manifests": [first, {**first, **notes}, {**first, "artifactType": "application/x"}]}
        inner = image_parts.written(inner)
        listed = image_parts.descriptor(inner, image_parts.INDEX, annotations={image_parts.NAME: "one"})
        made = made._replace(blobs={**made.blobs, listed["digest"]: inner}, descriptor=[listed])
        self.check_read(self.layout(made))

    def test_one_image_with_two_names_is_one(self):
        self.check_read(self.layout(image(*self.layers, names=("one", "two"))), shown="one, two")

    def test_damage_is_refused(self):
        files = layout(image(*self.layers))
        for path, data in files.items():
            if not path.startswith("blobs/"):
                continue
            for changed, cause in [(data + b" ", "bytes, not "), (data[:-1] + b"?", "the digest is not sha256:")]:
                self.check_run_refused(image_parts.archive({**files, path: changed}), cause)
            without = {key: value for key, value in files.items() if key != path}
            self.check_run_refused(image_parts.archive(without), "the image has no such file")

    def check_run_refused(self, archive, cause):
        """Checks that an archive is refused with this cause."""
        done = run("tree-of-image", text=archive)
        self.assertEqual((done.returncode, done.stdout), (2, b""))
        self.assertIn(cause, done.stderr.decode().splitlines()[-1])

    def test_a_layer_with_another_content_is_refused(self):
        files = saved(*self.layers)
        files["1/layer.tar"] = tar(entry("c", b"c"))
        self.check_run_refused(image_parts.archive(files), "layer 2: the digest of what it unpacks to is not sha256:")

    def test_other_files_are_no_images(self):
        cause = "neither an OCI layout nor an archive of docker save"
        self.check_run_refused(tar(entry("a", b"a")), cause)
        self.check_run_refused(tar(entry("manifest.json", b"{}")), cause)
        self.check_run_refused(b"x", "not a header of an entry")
        files = layout(image(*self.layers))
        for index in [b"[", b"[]", b"{}", b'{"manifests": [1]}', b'{"manifests": [{"digest": "x", "size": 1}]}']:
            done = run("tree-of-image", text=image_parts.archive({**files, "index.json": index}))
            self.assertEqual((done.returncode, done.stdout, done.stderr.count(b"\n")), (2, b"", 1), index)
        self.check_refused(self.place(b"none"), "^there is no such file or directory$")


class Readers(Images):
    """The tool that reads a source."""

    def test_images_are_recognized(self):
        made = image(tar(entry("a", b"a")))
        archives = {b"layout.tar": layout(made), b"save.tar": saved(tar(entry("a", b"a")))}
        for name, files in archives.items():
            self.check_reader(self.file(name, image_parts.archive(files)), source_texts.IMAGE)
        self.check_reader(self.layout(made), source_texts.IMAGE)

    def check_reader(self, place, kind):
        """Checks what a path is read as."""
        self.assertEqual(source_texts.kind_of(os.fsdecode(place)), kind)

    def test_other_archives_and_directories_are_not(self):
        apps = json.dumps([{"Config": "x"}]).encode()
        for name, files in [(b"a.tar", {"manifest.json": b"{}"}), (b"b.tar", {"oci-layout": b"x", "index.json": b"{}"}),
                            (b"c.tar", {"manifest.json": apps}), (b"d.tar", {"a": b""})]:
            self.check_reader(self.file(name, image_parts.archive(files)), source_texts.ARCHIVE)
        self.check_reader(self.file(b"e.tar", b"x"), source_texts.ARCHIVE)
        self.make(b"manifest.json", b"[]")
        self.check_reader(self.place(b"in"), source_texts.DIRECTORY)
        self.check_reader(self.file(b"f", b"d 0755 0 0 /\n"), source_texts.TEXT)


class Builds(Images):
    """Builds from images and archives, by reference and by value."""

    def setUp(self):
        super().setUp()
        if base.llbm is None:
            raise unittest.SkipTest("the program llbm is needed (--llbm PROGRAM)")
        origin = base.source("local://a")
        self.definition = self.file(b"definition", base.ending(origin, base.merge(origin)))
        self.tree_text = self.text([ROOT, "f 0644 0 0 62 /b", "d 0755 0 0 /d", "f 0644 0 0 646464 /d/d"])
        layers = [tar(entry("a", b"a"), entry("d/d", b"ddd", owner=(5, 6)), entry("b", b"b")), tar(removed("a"))]
        self.layout(image(*layers))
        self.file(b"image.tar", image_parts.archive(saved(*layers)))
        self.file(b"plain.tar.gz", image_parts.gzipped(tar(entry("b", b"b"), entry("d/d", b"ddd"))))

    def build(self, source, result, *words):
        """Runs a build with one source."""
        given = b"a=" + self.place(source)
        return run("build", "--llbm", base.llbm, *words, self.definition, self.place(result), given)

    def test_images_and_archives_are_sources(self):
        for number, source in enumerate([b"image", b"image.tar", b"plain.tar.gz"]):
            for words in [[], ["--by-value"]]:
                result = b"%d-%d.tar" % (number, len(words))
                done = self.build(source, result, "--strict", "--mtime", "5", *words)
                self.assertEqual(done.returncode, 0, done.stderr)
                self.check_success(run("tree-of-tar", self.place(result)), self.tree_text, f"{LEFT}\n".encode())
                wanted = run("tar-of-tree", "--mtime", "5", text=self.tree_text).stdout
                self.assertEqual(pathlib.Path(os.fsdecode(self.place(result))).read_bytes(), wanted)

    def test_the_time_is_that_of_the_result(self):
        for words in [[], ["--by-value"]]:
            result = b"out%d" % len(words)
            self.assertEqual(self.build(b"image.tar", result, "--mtime", "7", *words).returncode, 0)
            for names in [[], [b"b"], [b"d"], [b"d", b"d"]]:
                self.assertEqual(os.stat(self.place(result, *names)).st_mtime_ns, 7_000_000_000)

    def test_a_strict_build_refuses_what_is_left_out(self):
        self.make(b"a", b"a")
        os.symlink(b"a", self.place(b"in", b"link"))
        self.file(b"x.tar", tar(entry("a", b"a"), link("link", "a")))
        self.layout(image(tar(link("link", "a"))), name=b"linked")
        for source in [b"in", b"x.tar", b"linked"]:
            for words in [[], ["--by-value"]]:
                done = self.build(source, b"out.tar", "--strict", *words)
                lines = ["left out: a symbolic link: /link", "left out: 1 symbolic link"]
                lines += [f"refused: something was left out: {os.fsdecode(self.place(source))}", "nothing is written"]
                self.assertEqual((done.returncode, done.stderr.decode().splitlines()[-4:]), (2, lines))
        self.assertFalse(os.path.lexists(self.place(b"out.tar")))
        self.assertEqual(self.build(b"in", b"out.tar").returncode, 0)


@unittest.skipUnless(shutil.which("umoci") and IS_ROOT, "there is no umoci, or the user is not root")
class Umoci(Images):
    """Images that umoci unpacks."""

    def unpacked(self, place, number):
        """Returns the text of what umoci unpacks, or None if it refuses the image."""
        bundle = self.place(b"bundle%d" % number)
        words = ["umoci", "unpack", "--image", os.fsdecode(place) + ":one", os.fsdecode(bundle)]
        if subprocess.run(words, capture_output=True, timeout=base.GUARD).returncode:
            return None
        done = run("tree-of-directory", os.path.join(bundle, b"rootfs"))
        self.assertEqual(done.returncode, 0)
        return done.stdout

    def test_random_layers_have_the_tree_that_umoci_unpacks(self):
        chance, compared = random.Random(5), 0
        for number in range(30):
            place = self.layout(image(*(random_layer(chance) for _ in range(3))), name=b"image%d" % number)
            wanted = self.unpacked(place, number)
            if wanted is not None:
                compared += 1
                self.assertEqual(self.read_image(place).stdout, wanted, number)
        self.assertGreater(compared, 10)

    @unittest.skipUnless(shutil.which("skopeo"), "there is no skopeo")
    def test_images_that_other_programs_make_are_read(self):
        lower = tar(
            entry("etc", mode=0o700), entry("etc/a", b"a"), entry("usr/x", b"x" * 3000, mode=0o4755, owner=(3, 4)),
            link("usr/y", "usr/x", tarfile.LNKTYPE), entry("var/b", b"b"), entry("var/c/d", b"d"),
        )
        place = os.fsdecode(self.layout(image(lower)))
        bundle = pathlib.Path(os.fsdecode(self.place(b"bundle")))
        subprocess.run(["umoci", "unpack", "--image", place + ":one", bundle], check=True, capture_output=True)
        (bundle / "rootfs/etc/a").unlink()
        shutil.rmtree(bundle / "rootfs/var")
        (bundle / "rootfs/var").write_bytes(b"a file")
        (bundle / "rootfs/etc/new").write_bytes(b"new")
        subprocess.run(["umoci", "repack", "--image", place + ":two", bundle], check=True, capture_output=True)
        wanted = run("tree-of-directory", bundle / "rootfs").stdout
        self.assertIn(b" /usr/y\n", wanted)
        forms = ["docker-archive:{}/d.tar:x/y:two", "oci-archive:{}/o.tar:two", "oci:{}/packed:two"]
        for form, name in zip(forms, [b"d.tar", b"o.tar", b"packed"]):
            words = ["--dest-compress-format", "zstd", "--dest-compress"] if name == b"packed" else []
            target = form.format(os.fsdecode(self.folder))
            words = ["skopeo", "copy", "-q", *words, f"oci:{place}:two", target]
            subprocess.run(words, check=True, capture_output=True, timeout=base.GUARD)
            self.assertEqual(source_texts.kind_of(os.fsdecode(self.place(name))), source_texts.IMAGE)
            self.assertEqual(run("tree-of-image", self.place(name)).stdout, wanted, name)
