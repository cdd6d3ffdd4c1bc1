"""Tests of images that are written: `oci_layout`."""

import hashlib
import io
import json
import os
import pathlib
import shutil
import subprocess
import tarfile
import unittest

from llbm_tools.images import oci_layout
from llbm_tools.streams import Refused
from tests import base
from tests.base import ROOT, Folder, run

TREE = b"d 0755 0 0 /\nd 0700 1 2 /d\nf 0644 3 4 6869 /d/f\n"
OCI = "application/vnd.oci.image"
FIRST_RUN = ROOT / "examples" / "first-run.definition"


def digest(data):
    """Returns the digest of some bytes."""
    return hashlib.sha256(data).hexdigest()


class Layout(Folder):
    """The image of a small tree."""

    def layer(self, text=TREE, time=0):
        """Returns the plain archive of a tree."""
        done = run("tar-of-tree", "--mtime", str(time), text=text)
        self.assertEqual(done.returncode, 0, done.stderr)
        return done.stdout

    def image(self, config=b"{}", time=0, text=TREE):
        """Returns the image of a tree."""
        output = io.BytesIO()
        layer = io.BytesIO(self.layer(text, time))
        oci_layout.write(layer, output, oci_layout.config_in(config, "config"), time)
        return output.getvalue()

    def files(self, image):
        """Returns the files of an image by their names, in order."""
        with tarfile.open(fileobj=io.BytesIO(image)) as archive:
            return {member.name: archive.extractfile(member).read() for member in archive}

    def test_the_files_are_those_of_the_rule(self):
        time, layer = 1_600_000_000, self.layer(time=1_600_000_000)
        created = '"created":"2020-09-13T12:26:40Z"'
        config = (
            '{"architecture":"amd64","config":{"Cmd":["/a b"],"Env":["é=\\"\\\\\\n"]},' + created
            + ',"history":[{' + created + ',"created_by":"llbm"}],"os":"linux","rootfs":{"diff_ids":["sha256:'
            + digest(layer) + '"],"type":"layers"}}'
        ).encode()  # fmt: skip
        manifest = (
            f'{{"schemaVersion":2,"mediaType":"{OCI}.manifest.v1+json","config":{{"mediaType":"{OCI}.config.v1+json",'
            f'"digest":"sha256:{digest(config)}","size":{len(config)}}},"layers":[{{"mediaType":"{OCI}.layer.v1.tar",'
            f'"digest":"sha256:{digest(layer)}","size":{len(layer)}}}]}}'
        ).encode()
        index = (
            f'{{"schemaVersion":2,"mediaType":"{OCI}.index.v1+json","manifests":[{{'
            f'"mediaType":"{OCI}.manifest.v1+json","digest":"sha256:{digest(manifest)}","size":{len(manifest)},'
            '"annotations":{"org.opencontainers.image.created":"2020-09-13T12:26:40Z"},'
            '"platform":{"architecture":"amd64","os":"linux"}}]}'
        ).encode()
        given = '{"config": {"Env": ["é=\\"\\\\\\n"], "Cmd": ["/a b"], "Labels": null}, "history": null}'.encode()
        found = self.files(self.image(given, time))
        blobs = {f"blobs/sha256/{digest(data)}": data for data in (manifest, config, layer)}
        self.assertEqual(found, {"index.json": index, "oci-layout": b'{"imageLayoutVersion":"1.0.0"}', **blobs})
        self.assertEqual(list(found)[:3], ["index.json", "oci-layout", f"blobs/sha256/{digest(manifest)}"])

    def test_the_archive_is_always_the_same(self):
        self.assertEqual(self.image(), self.image())
        with tarfile.open(fileobj=io.BytesIO(self.image(time=7))) as archive:
            found = {(member.mode, member.uid, member.gid, member.uname, member.mtime) for member in archive}
        self.assertEqual(found, {(0o644, 0, 0, "", 7)})
        self.assertEqual(len(self.image()) % 512, 0)

    def test_what_the_configuration_has_is_kept(self):
        given = {"architecture": "arm64", "variant": "v8", "created": "2000-01-01T00:00:00Z", "x.y": [1]}
        found = self.files(self.image(json.dumps({**given, "rootfs": None}).encode()))
        manifest = json.loads(found["index.json"])["manifests"][0]
        self.assertEqual(manifest["platform"], {"architecture": "arm64", "os": "linux", "variant": "v8"})
        named = json.loads(found["blobs/sha256/" + manifest["digest"].removeprefix("sha256:")])["config"]["digest"]
        config = json.loads(found["blobs/sha256/" + named.removeprefix("sha256:")])
        self.assertEqual({name: config[name] for name in given}, given)
        self.assertEqual(config["history"], [{"created": given["created"], "created_by": "llbm"}])

    def test_a_history_becomes_one_of_one_layer(self):
        copied, env = {"created_by": "COPY"}, {"created_by": "ENV", "empty_layer": True}
        made = {"created": "1970-01-01T00:00:00Z", "created_by": "llbm"}
        for given, history in [
            ([copied, env, copied], [{**copied, "empty_layer": True}, env, copied]), ([copied, env], [copied, env]),
            ([env], [env, made]), ([], [made]), ([{"comment": None}], [{}]),
        ]:  # fmt: skip
            config = oci_layout.config_in(json.dumps({"history": given}).encode(), "FILE")
            self.assertEqual(oci_layout.whole_config(config, "", 0, False)["history"], history)

    def test_an_image_was_created_when_its_configuration_says_or_at_the_time(self):
        time, noon, later = 1_000_000_000, "2001-09-09T01:46:40", "2001-09-09T01:46:41Z"
        steps = [{"created": "2001-01-01T00:00:00Z"}, {"created": later}, {}]
        for given, free, bound in [
            ({}, noon + "Z", noon + "Z"), ({"created": "2000-01-01T00:00:00.5Z"}, "2000-01-01T00:00:00.5Z", None),
            ({"created": later}, later, noon + "Z"), ({"created": noon + ".0Z"}, noon + ".0Z", None),
            ({"created": noon + ".01Z"}, noon + ".01Z", noon + "Z"), ({"created": "soon"}, "soon", noon + "Z"),
            ({"created": "2001-09-09T03:46:40+02:00"}, "2001-09-09T03:46:40+02:00", None),
            ({"created": "2001-09-09T01:46:40-00:01"}, "2001-09-09T01:46:40-00:01", noon + "Z"),
            ({"created": "2001-02-30T00:00:00Z"}, "2001-02-30T00:00:00Z", noon + "Z"),
            ({"history": steps}, later, noon + "Z"), ({"created": "", "history": steps[:1]}, steps[0]["created"], None),
        ]:  # fmt: skip
            config = oci_layout.config_in(json.dumps(given).encode(), "FILE")
            found = [oci_layout.whole_config(config, "", time, is_bound)["created"] for is_bound in (False, True)]
            self.assertEqual(found, [free, bound or free], given)

    def test_other_configurations_are_refused(self):
        for given, cause in [
            (b"[]", "not an object: FILE"), (b'{"os": 1}', "os is not a string: FILE"), (b"\xff", "not JSON: FILE: "),
            (b'{"a": NaN}', "not JSON: FILE: "), (b"{", "not JSON: FILE: "),
            (b'{"config": []}', "config is not an object: FILE"),
            (b'{"config": {"Cmd": "x"}}', "Cmd is not an array of strings: FILE: config"),
            (b'{"config": {"Env": [1]}}', "Env is not an array of strings: FILE: config"),
            (b'{"history": {}}', "history is not an array of objects: FILE"),
            (b'{"history": [1]}', "history is not an array of objects: FILE"),
            (b'{"history": [{"empty_layer": 1}]}', "empty_layer is not a boolean: FILE: history"),
        ]:
            with self.assertRaises(Refused) as caught:
                oci_layout.config_in(given, "FILE")
            self.assertTrue(str(caught.exception).startswith(cause), caught.exception)

    def test_members_that_are_not_known_or_misplaced_are_refused(self):
        for given, cause in [
            ({"Frob": 1}, "'Frob' here: FILE"), ({"User": "me"}, "'User' here; it belongs into config: FILE"),
            ({"config": {"entrypoint": []}}, "'entrypoint' here; it is written Entrypoint: FILE: config"),
            ({"cmd": []}, "'cmd' here; it is written Cmd and it belongs into config: FILE"),
            ({"config": {"os": "linux"}}, "'os' here; it belongs into the outer object: FILE: config"),
            ({"history": [{"a": 1}]}, "'a' here: FILE: history"),
            ({"config": {"Healthcheck": {"Tst": []}}}, "'Tst' here: FILE: Healthcheck"),
            ({"config": {"Test": []}}, "'Test' here; it belongs into Healthcheck: FILE: config"),
        ]:
            with self.assertRaises(Refused) as caught:
                oci_layout.config_in(json.dumps(given).encode(), "FILE")
            self.assertEqual(str(caught.exception), f"a configuration has no member {cause}")

    def test_members_of_others_are_taken(self):
        given = {"config": {"Healthcheck": {"Test": ["NONE"]}, "Tty": True}, "org.example.own": 1, "rootfs": {}}
        self.assertEqual(json.loads(oci_layout.config_in(json.dumps(given).encode(), "FILE")), given)

    def test_a_name_that_removes_is_refused(self):
        with self.assertRaises(Refused) as caught:
            self.image(text=b"d 0755 0 0 /\nd 0755 0 0 /d\nf 0644 0 0 - /d/.wh.f\n")
        cause = "a layer of an image can't have a name that begins with .wh.: /d/.wh.f"
        self.assertEqual(str(caught.exception), cause)

    def test_tree_of_image_reads_the_tree_again(self):
        done = run("tree-of-image", text=self.image())
        self.check_success(done, TREE, b"image linux/amd64: 1 layer\nleft out: nothing\n")
        tour = (ROOT / "examples" / "tour.tree").read_bytes()
        self.assertEqual(run("tree-of-image", text=self.image(text=tour)).stdout, tour)

    @unittest.skipUnless(shutil.which("skopeo"), "skopeo is not installed")
    def test_skopeo_reads_the_image(self):
        image = self.image(b'{"config": {"Env": ["A=b"], "Labels": {"k": "v"}}}')
        place = os.fsdecode(self.file(b"result.oci", image))
        done = subprocess.run(["skopeo", "inspect", f"oci-archive:{place}"], capture_output=True, timeout=base.GUARD)
        self.assertEqual((done.returncode, done.stderr), (0, b""))
        found = json.loads(done.stdout)
        self.assertEqual(found["Layers"], [f"sha256:{digest(self.layer())}"])
        self.assertEqual((found["Labels"], found["Env"], found["Os"]), ({"k": "v"}, ["A=b"], "linux"))


class Builds(Folder):
    """Results of `build` that are images, and names of results."""

    def setUp(self):
        super().setUp()
        if base.llbm is None:
            self.skipTest("the program llbm is needed (--llbm PROGRAM)")

    def build(self, name, *words):
        """Builds a definition of one file into this place."""
        return run("build", "--llbm", base.llbm, *words, FIRST_RUN, self.place(name))

    def refused(self, cause, name, *words):
        """Checks that a build is refused for this cause, and that nothing is written."""
        done = self.build(name, *words)
        self.check_run(done, 2, b"", cause)
        self.assertFalse(os.path.lexists(self.place(name.rstrip(b"/"))))

    def test_a_result_with_the_ending_of_an_image_is_one(self):
        config = self.file(b"config", b'{"config": {"Cmd": ["/a"]}}')
        done = self.build(b"result.oci", "--config", config, "--mtime", "7")
        self.assertEqual((done.returncode, done.stdout), (0, b""), done.stderr)
        self.assertEqual(self.build(b"result.tar", "--mtime", "7").returncode, 0)
        output = io.BytesIO()
        with open(self.place(b"result.tar"), "rb") as layer:
            oci_layout.write(layer, output, oci_layout.config_in(b'{"config":{"Cmd":["/a"]}}', "config"), 7)
        with open(self.place(b"result.oci"), "rb") as image:
            self.assertEqual(image.read(), output.getvalue())
        done = run("tree-of-image", self.place(b"result.oci"))
        self.assertEqual(done.stdout, b"d 0755 0 0 /\nf 0644 0 0 6869 /a\n")

    def test_an_image_was_created_no_later_than_a_time_that_is_given(self):
        config = self.file(b"config", b'{"created": "2020-01-01T00:00:00Z"}')
        for name, words, created in [
            (b"a.oci", (), b"2020-01-01T00:00:00Z"), (b"b.oci", ("--mtime", "7"), b"1970-01-01T00:00:07Z"),
        ]:  # fmt: skip
            self.assertEqual(self.build(name, "--config", config, *words).returncode, 0)
            with open(self.place(name), "rb") as image:
                self.assertIn(b'"created":"%b"' % created, image.read())

    def test_an_image_is_replaced_if_its_configuration_changes(self):
        config, words = self.file(b"config", b"{}"), ("--replace", "--keep", self.place(b"kept"))
        self.assertEqual(self.build(b"result.oci", *words, "--config", config).returncode, 0)
        first = pathlib.Path(os.fsdecode(self.place(b"result.oci"))).read_bytes()
        self.assertIn(b"nothing to do: ", self.build(b"result.oci", *words, "--config", config).stderr)
        self.file(b"config", b'{"author": "me"}')
        self.assertEqual(self.build(b"result.oci", *words, "--config", config).returncode, 0)
        self.assertNotEqual(pathlib.Path(os.fsdecode(self.place(b"result.oci"))).read_bytes(), first)

    def test_an_unknown_ending_is_refused(self):
        known = b".tar, .tar.gz, .tgz, .tar.bz2, .tar.xz, .tar.zst, .oci"
        for ending in (b".zip", b".2"):
            place = self.place(b"result" + ending)
            cause = b"an unknown ending, %s (%s/ is a directory; others end in %s): " % (ending, place, known)
            self.refused(cause + place + b"\n", b"result" + ending)
        for name in (b"result.zip/", b"result.oci/", b".result"):
            self.assertEqual(self.build(name).returncode, 0, name)
            self.assertTrue(os.path.isfile(os.path.join(self.place(name), b"a")), name)

    def test_configurations_are_refused_for_other_results_and_if_they_are_none(self):
        config = self.file(b"config", b"[]")
        place = self.place(b"result.tar")
        self.refused(b"--config needs a RESULT that ends in .oci: %s\n" % place, b"result.tar", "--config", config)
        self.refused(b"not an object: %s\n" % config, b"result.oci", "--config", config)
        none = self.place(b"none")
        done = self.build(b"result.oci", "--config", none)
        self.assertEqual((done.returncode, done.stdout), (2, b""))
