"""Tests of the daemon with BuildKit's own clients: `buildctl`, `docker-buildx`, and the frontend for Dockerfiles.

The programs are those that `dev/dev daemon --clients` leaves in out/; without them the tests are skipped.
"""

import contextlib
import gzip
import hashlib
import json
import os
import pathlib
import re
import shutil
import signal
import subprocess
import tarfile
import tempfile
import unittest

from llbm_tools import paths
from llbm_tools.daemon import daemon, debian_packages, go_building
from tests import base
from tests.base import ROOT, run

BUILDCTL = go_building.OUT / "buildctl"
FRONTEND = go_building.OUT / "dockerfile-frontend"
STORED = ROOT / "examples" / "from-buildkit"
NOBODY = {"user": 65534, "group": 65534, "extra_groups": []}
ANOTHER = {"user": 1234, "group": 1234, "extra_groups": []}
OWNED = re.compile(rb"^([df] [0-7]+) \d+ \d+ ", re.M)


def buildx():
    """Returns the path of docker-buildx, if it is there."""
    unpacked = debian_packages.FOLDER / go_building.PLUGINS / "docker-buildx"
    return str(unpacked) if unpacked.is_file() else shutil.which("docker-buildx")


def image_in(archive):
    """Returns what the one image in an archive says of itself besides times, and its one layer, unpacked."""
    with tarfile.open(archive) as files:

        def blob(named):
            """Returns the blob that a descriptor names."""
            content = files.extractfile("blobs/" + named["digest"].replace(":", "/")).read()
            assert named["digest"] == f"sha256:{hashlib.sha256(content).hexdigest()}" and named["size"] == len(content)
            return content

        manifest = json.loads(blob(*json.load(files.extractfile("index.json"))["manifests"]))
        config, (named,) = json.loads(blob(manifest["config"])), manifest["layers"]
        layer = blob(named)
        layer = gzip.decompress(layer) if named["mediaType"].endswith("gzip") else layer
    assert config["rootfs"] == {"type": "layers", "diff_ids": [f"sha256:{hashlib.sha256(layer).hexdigest()}"]}
    return config["architecture"], config["os"], [step["created_by"] for step in config["history"]], layer


def without_owners(text):
    """Returns a tree's text in which root owns all, as clients of BuildKit send their directories."""
    return OWNED.sub(rb"\1 0 0 ", text)


def is_comparison(process):
    """Returns whether a process is llbm-rules that compares, or waits for a build to compare."""
    with contextlib.suppress(FileNotFoundError, ProcessLookupError):
        return pathlib.Path(f"/proc/{process}/cmdline").read_bytes().endswith(b"\0compare\0")
    return False


def children_of(process):
    """Returns the processes that run for a daemon, but for one that compares or waits to compare: one always does."""
    place, found = f"/proc/{process}/task", []
    for task in os.listdir(place):
        with contextlib.suppress(FileNotFoundError, ProcessLookupError):  # the thread has ended meanwhile
            found += pathlib.Path(place, task, "children").read_text().split()
    comparisons = [one for one in found if is_comparison(one)]
    return [one for one in found if one not in comparisons[:1]]


class WithDaemon(unittest.TestCase):
    """A test with a daemon that runs in a folder of its own."""

    def setUp(self):
        for program in (daemon.PROGRAM, paths.RULES, BUILDCTL, FRONTEND):
            if not program.is_file():
                self.skipTest("there is no daemon with clients: `dev/dev daemon --clients` builds them")
        if base.llbm is None:
            self.skipTest("there is no program llbm")
        self.at = pathlib.Path(self.enterContext(tempfile.TemporaryDirectory(prefix="llbmd-")))
        self.programs = {"llbmd": str(daemon.PROGRAM), "llbm": base.llbm, "buildctl": str(BUILDCTL)}
        self.who = {}

    @contextlib.contextmanager
    def daemon(self, *words):
        """Runs a daemon, which has to end well and to leave nothing in its folder."""
        store = self.at / "store"
        store.mkdir(exist_ok=True)
        if self.who:
            os.chown(store, 65534, 65534)
        self.address = f"unix://{store}/s"
        line = [self.programs["llbmd"], "-addr", self.address, "-llbm", self.programs["llbm"], *words]
        known = {**os.environ, "TMPDIR": str(store), "HOME": str(store)}
        with subprocess.Popen(line, env=known, stderr=subprocess.PIPE, text=True, **self.who) as child:
            try:
                self.assertIn("listening", child.stderr.readline())
                self.process = child.pid
                yield
                base.wait_until(lambda: not children_of(child.pid), "the end of the daemon's children")
            finally:
                child.send_signal(signal.SIGTERM)
                child.stderr.read()
        self.assertEqual(child.returncode, 0)
        self.assertEqual(os.listdir(store), [])

    def client(self, *words, given=b"", **settings):
        """Runs `buildctl`."""
        line = [self.programs["buildctl"], "--addr", self.address, "--timeout", str(base.GUARD), *words]
        settings = {"env": {**os.environ, "HOME": str(self.at)}, **settings}
        return subprocess.run(line, input=given, capture_output=True, timeout=base.GUARD, **settings)

    def directory(self, name, text):
        """Makes a directory of a tree's text, if it is not there, and returns its path."""
        place = self.at / name
        if not place.exists():
            done = run("directory-of-tree", place, text=without_owners(text))
            self.assertEqual(done.returncode, 0, done.stderr)
        return place

    def build(self, name, *trees, output=None, **settings):
        """Builds a stored definition by `buildctl`, and returns the text of the archive that it gets, and the run."""
        archive = self.at / f"{name}.tar"
        words = ["build", "--progress", "plain", "--output", output or f"type=tar,dest={archive}"]
        for tree in trees:
            text = (STORED / name / f"{tree}.tree").read_bytes()
            words += ["--local", f"{tree}={self.directory(f'{name}-{tree}', text)}"]
        done = self.client(*words, given=(STORED / name / "definition").read_bytes(), **settings)
        return (run("tree-of-tar", archive).stdout if archive.exists() else b""), done

    def wanted(self, name, *trees):
        """Returns the text of the result of a stored definition, by the program."""
        words = [base.llbm, "run"]
        for tree in trees:
            place = self.at / f"{name}-{tree}.tree"
            place.write_bytes(without_owners((STORED / name / f"{tree}.tree").read_bytes()))
            words.append(f"{tree}={place}")
        given = (STORED / name / "definition").read_bytes()
        return subprocess.run(words, input=given, capture_output=True, check=True).stdout


class Buildctl(WithDaemon):
    """`buildctl` as Debian has it."""

    def test_it_builds_what_the_program_prints(self):
        with self.daemon():
            for name, *trees in [("merge",), ("copy", "project"), ("exec", "base", "words")]:
                text, done = self.build(name, *trees)
                self.assertEqual((done.returncode, text), (0, self.wanted(name, *trees)), done.stderr)

    def test_its_images_are_those_of_the_tool(self):
        for name, *trees in [("merge",), ("copy", "project"), ("exec", "base", "words")]:
            ours, theirs, packed = (self.at / f"{name}-{which}.oci" for which in ("tool", "daemon", "packed"))
            with self.daemon():
                for more in (f",dest={theirs},compression=uncompressed", f",dest={packed}"):
                    _, done = self.build(name, *trees, output="type=oci" + more)
                    self.assertEqual(done.returncode, 0, done.stderr)
            sources = [f"{tree}={self.at / f'{name}-{tree}'}" for tree in trees]
            done = run("build", "--llbm", base.llbm, STORED / name / "definition", ours, *sources)
            self.assertEqual(done.returncode, 0, done.stderr)
            self.assertTrue(ours.read_bytes() == theirs.read_bytes(), name)
            texts = [run("tree-of-image", place).stdout for place in (ours, packed)]
            self.assertEqual(texts, [self.wanted(name, *trees)] * 2, name)
            self.assertTrue(image_in(ours) == image_in(packed), name)

    def test_its_images_have_names_and_types_as_in_buildkit(self):
        image = self.at / "named.oci"
        with self.daemon():
            _, done = self.build("merge", output=f"type=oci,dest={image},name=a,oci-mediatypes=false")
            self.assertEqual(done.returncode, 0, done.stderr)
            _, refused = self.build("merge", output=f"type=oci,dest={self.at / 'refused'},name=UPPER")
        with tarfile.open(image) as files:
            (named,) = json.load(files.extractfile("index.json"))["manifests"]
        names = [named["annotations"][key] for key in ("io.containerd.image.name", "org.opencontainers.image.ref.name")]
        self.assertEqual(names, ["docker.io/library/a:latest", "latest"])
        self.assertEqual(named["mediaType"], "application/vnd.docker.distribution.manifest.v2+json")
        self.assertEqual(run("tree-of-image", image).stdout, self.wanted("merge"))
        self.assertIn(b"failed to parse UPPER: invalid reference format", refused.stderr)

    def test_what_no_frontend_can_be_given_is_refused_with_the_next_step(self):
        words = ["build", "--progress", "plain", "--frontend", "dockerfile.v0", "--opt"]
        with self.daemon("-frontend", f"dockerfile.v0={FRONTEND}"):
            done = self.client(*words, f"build-arg:LONG={'x' * 131050}")
        self.assertEqual((done.returncode, done.stdout), (1, b""))
        cause = (
            b"error: failed to solve: InvalidArgument: frontend dockerfile.v0: "
            b"the option build-arg:LONG has 131050 bytes, and an option has at most 131071 with its name\n"
            b"a file of a source has room for more\n"
        )
        self.assertEqual(done.stderr, cause)

    def test_an_image_is_refused_by_name(self):
        with self.daemon():
            text, done = self.build("image")
        self.assertEqual((done.returncode, text), (1, b""))
        self.assertRegex(done.stderr, rb"fault 88 |source\.image")

    def test_it_shows_workers_and_disk_usage_and_prunes(self):
        with self.daemon():
            for words in (["debug", "workers"], ["debug", "info"], ["du"], ["prune"]):
                done = self.client(*words)
                self.assertEqual(done.returncode, 0, (words, done.stderr))
            self.assertIn(b"PLATFORMS", self.client("debug", "workers").stdout)

    def test_a_client_that_is_killed_leaves_nothing(self):
        lines = [b"d 0755 0 0 /\n", *(b"f 0644 0 0 %s /f%05d\n" % (b"61" * 500, place) for place in range(500))]
        context = self.directory("context", b"".join(lines))
        (context / "Dockerfile").write_text("FROM scratch\nCOPY . /a\nCOPY . /b\n", "utf-8")
        words = ["build", "--frontend", "dockerfile.v0", "--local", f"context={context}"]
        words += ["--local", f"dockerfile={context}"]
        to_out, to_last = (["--output", f"type=local,dest={self.at / name}"] for name in ("out", "last"))
        with self.daemon("-frontend", f"dockerfile.v0={FRONTEND}"):
            line = [self.programs["buildctl"], "--addr", self.address, *words, "--progress=plain", *to_out]
            whole = subprocess.run(line, capture_output=True, timeout=base.GUARD)
            self.assertEqual(whole.returncode, 0, whole.stderr)
            said = whole.stderr.count(b"\n")
            # A client is killed as soon as it has said a share of what a whole build says.
            for share in range(6):
                with subprocess.Popen(line, stdout=subprocess.DEVNULL, stderr=subprocess.PIPE) as child:
                    for _ in range(said * share // 6):
                        child.stderr.readline()
                    child.kill()
                base.wait_until(lambda: not children_of(self.process), "the end of the daemon's children")
            # A client that is killed while it writes leaves an unfinished file of its own in `out`.
            self.assertEqual(self.client(*words, *to_last).returncode, 0)
            self.assertEqual(len(os.listdir(self.at / "last" / "b")), 501)


@unittest.skipUnless(base.IS_ROOT, "only root can become another user")
class Users(WithDaemon):
    """The daemon as a user without rights."""

    def setUp(self):
        super().setUp()
        os.chmod(self.at, 0o711)
        shutil.copy(paths.RULES, self.at)
        for name, program in self.programs.items():
            self.programs[name] = str(shutil.copy(program, self.at / name))
        self.who = NOBODY

    def test_it_builds_for_its_user_and_refuses_another(self):
        (self.at / "merge.tar").touch()
        os.chown(self.at / "merge.tar", 65534, 65534)
        with self.daemon():
            text, done = self.build("merge", **NOBODY)
            self.assertEqual((done.returncode, text), (0, self.wanted("merge")), done.stderr)
            for mode in (None, 0o777):
                if mode is not None:
                    os.chmod(self.at / "store", 0o711)
                    os.chmod(self.at / "store" / "s", mode)
                done = self.client("--timeout", "2", "debug", "workers", **ANOTHER)
                self.assertEqual((done.returncode, done.stdout), (1, b""), mode)


class Buildx(WithDaemon):
    """`docker-buildx` as Debian has it, with BuildKit's frontend for Dockerfiles as a child of the daemon."""

    def setUp(self):
        super().setUp()
        if not buildx():
            self.skipTest("there is no docker-buildx: `dev/dev daemon` unpacks it")
        self.context = self.at / "context"
        self.context.mkdir()
        (self.context / "a").write_text("a\n", "utf-8")
        self.known = {**os.environ, "HOME": str(self.at), "BUILDX_CONFIG": str(self.at / "buildx")}

    def call(self, *words):
        """Runs docker-buildx."""
        line = [buildx(), *words]
        return subprocess.run(line, env=self.known, capture_output=True, timeout=base.GUARD, cwd=self.at)

    def built(self, text, *words):
        """Builds a Dockerfile into the directory `out`."""
        (self.context / "Dockerfile").write_text(text, "utf-8")
        done = self.call("create", "--name", "ours", "--driver", "remote", self.address)
        self.assertEqual(done.returncode, 0, done.stderr)
        words = ["--builder", "ours", "--progress", "plain", "--output", f"type=local,dest={self.at / 'out'}", *words]
        done = self.call("build", *words, str(self.context))
        self.call("rm", "ours")
        return done

    def test_it_builds_a_dockerfile(self):
        with self.daemon("-frontend", f"dockerfile.v0={FRONTEND}"):
            done = self.built("FROM scratch\nCOPY a /b/\nRUN cp /b/a /c && sha256 /c /d\nWORKDIR /e\n")
        self.assertEqual(done.returncode, 0, done.stderr)
        out = self.at / "out"
        self.assertEqual(sorted(os.listdir(out)), ["b", "c", "d", "e"])
        self.assertEqual((out / "c").read_text("utf-8"), "a\n")

    def test_several_platforms_have_a_directory_each(self):
        with self.daemon("-frontend", f"dockerfile.v0={FRONTEND}"):
            done = self.built("FROM scratch\nCOPY a /\n", "--platform", "linux/amd64,linux/arm64")
        self.assertEqual(done.returncode, 0, done.stderr)
        self.assertEqual(sorted(os.listdir(self.at / "out")), ["linux_amd64", "linux_arm64"])

    def test_a_failure_names_its_line(self):
        with self.daemon("-frontend", f"dockerfile.v0={FRONTEND}"):
            done = self.built("FROM scratch\nCOPY a /\nRUN cp /missing /b\n")
        self.assertEqual(done.returncode, 1)
        self.assertIn(b">>> RUN cp /missing /b", done.stderr)

    def test_directories_with_one_name_and_files_of_one_time_have_their_own_contents(self):
        found = []
        with self.daemon("-frontend", f"dockerfile.v0={FRONTEND}"):
            for place, text in enumerate(("one\n", "two\n")):
                self.context = self.at / str(place) / "context"
                self.context.mkdir(parents=True)
                (self.context / "a").write_text(text, "utf-8")
                os.utime(self.context / "a", (1_500_000_000, 1_500_000_000))
                done = self.built("FROM scratch\nCOPY a /\n")
                self.assertEqual(done.returncode, 0, done.stderr)
                found.append((self.at / "out" / "a").read_text("utf-8"))
        self.assertEqual(found, ["one\n", "two\n"])

    def test_an_image_is_refused_by_its_number(self):
        with self.daemon("-frontend", f"dockerfile.v0={FRONTEND}"):
            done = self.built("FROM alpine\n")
        self.assertEqual(done.returncode, 1)
        self.assertIn(b"fault 88", done.stderr)

    def test_an_image_of_an_oci_layout_has_its_configuration_and_a_rule_its_stand_in(self):
        rules, layout, archive = self.at / "rules", self.at / "layout", self.at / "out.tar"
        rules.mkdir()
        (rules / "mine.rules").write_text("pattern '*go build*' => cp /base /app\n", "utf-8")
        with self.daemon("-frontend", f"dockerfile.v0={FRONTEND}"):
            (self.context / "Dockerfile").write_text("FROM scratch\nCOPY a /base\nENV A=b\nUSER 7\n", "utf-8")
            self.call("create", "--name", "ours", "--driver", "remote", self.address)
            line = ["build", "--builder", "ours", "--progress", "plain", "--provenance", "false"]
            output = f"type=oci,tar=false,dest={layout}"
            first = self.call(*line, "--output", output, str(self.context))
            self.assertEqual(first.returncode, 0, first.stderr)
            (self.context / "Dockerfile").write_text("FROM base\nRUN go build -o /app\n", "utf-8")
            words = ["--build-context", f"base=oci-layout://{layout}", "--build-context", f"llbm-rules={rules}"]
            second = self.call(*line, *words, "--output", f"type=docker,dest={archive},name=made:1", str(self.context))
            self.call("rm", "ours")
        self.assertEqual(second.returncode, 0, second.stderr)
        self.assertRegex(second.stderr, rb"a stand-in runs, by line 1 of the rules: cp /base /app")
        text = run("tree-of-image", archive).stdout
        self.assertEqual(text, b"d 0755 0 0 /\nf 0644 0 0 610a /app\nf 0644 0 0 610a /base\n")
        with tarfile.open(archive) as files:
            (saved,) = json.load(files.extractfile("manifest.json"))
            config = json.load(files.extractfile(saved["Config"]))["config"]
        self.assertEqual((saved["RepoTags"], config["User"], config["Env"][-1]), (["made:1"], "7", "A=b"))
