"""Tests of the daemon on Dockerfiles as real projects have them, which are in daemon/dockerfiles
(`llbm_tools.daemon.stored_dockerfiles`)."""

import json
import os
import re
import tarfile

from llbm_tools.daemon.stored_dockerfiles import options_of, stored
from tests.base import ROOT
from tests.daemon.daemon_clients import FRONTEND, WithDaemon

EXAMPLE = ROOT / "examples" / "dockerfile"


def listed(archive):
    """Returns a line for each entry of an archive but the root: mode, owner, path and content."""
    lines = []
    with tarfile.open(archive) as files:
        for one in files:
            content = "" if one.isdir() else " " + json.dumps(files.extractfile(one).read().decode())
            name = one.name + "/" * one.isdir()
            lines.append(f"{one.mode:04o} {one.uid}:{one.gid} {name}{content}\n")
    return "".join(sorted(lines, key=lambda line: line.split()[2].rstrip("/").split("/")))


def config_in(archive):
    """Returns the member `config` of the configuration of the one image in an archive."""
    with tarfile.open(archive) as files:

        def blob(named):
            return json.load(files.extractfile("blobs/" + named["digest"].replace(":", "/")))

        (named,) = json.load(files.extractfile("index.json"))["manifests"]
        return blob(blob(named)["config"])["config"]


def built(test, folder, dockerfile, *words):
    """Builds the Dockerfile in a folder by `buildctl`; returns the lines of the tree and the image's configuration."""
    tar, oci = test.at / "made.tar", test.at / "made.oci"
    line = ["build", "--progress", "plain", "--frontend", "dockerfile.v0", "--output", f"type=tar,dest={tar}"]
    line += ["--output", f"type=oci,dest={oci}", "--local", f"context={folder}", "--local", f"dockerfile={dockerfile}"]
    done = test.client(*line, *words)
    test.assertEqual(done.returncode, 0, done.stderr.decode())
    return listed(tar), config_in(oci)


class Dockerfiles(WithDaemon):
    """Each Dockerfile has a test, which is made below."""

    def write(self, place, text):
        """Writes a file, with modes that do not depend on the user's mask."""
        folders = [folder for folder in place.parents if not folder.exists()]
        place.parent.mkdir(parents=True, exist_ok=True)
        place.write_text(text)
        for path in [*folders, place]:
            os.chmod(path, 0o755 if path.is_dir() else 0o644)

    def place_of(self, name):
        """Returns where a part is written, or None if it is no file."""
        kind, _, rest = name.partition(" ")
        if name == "Dockerfile" or name.startswith("context/"):
            return self.at / name.replace("Dockerfile", "dockerfile/Dockerfile")
        if name == "rules":
            return self.at / "rules" / "standins.rules"
        image, _, path = rest.partition(" ")
        image += ":latest" * (":" not in image.rpartition("/")[2])
        return {"image": self.at / "images" / image / path, "config": self.at / "images" / f"{image}.json"}.get(kind)

    def check(self, parts):
        """Builds a Dockerfile, and compares what it makes."""
        for name, content in parts.items():
            place = self.place_of(name)
            if place:
                self.write(place, content)
        for folder in ("context", "images"):
            (self.at / folder).mkdir(exist_ok=True)
        words = options_of(parts)
        if "rules" in parts:
            words += ["--local", f"mine={self.at / 'rules'}", "--opt", "context:llbm-rules=local:mine"]
        if "skip" in parts:
            words += ["--opt", "llbm:run=skip"]
        with self.daemon("-frontend", f"dockerfile.v0={FRONTEND}", "-images", str(self.at / "images")):
            tree, config = built(self, self.at / "context", self.at / "dockerfile", *words)
        self.assertEqual(tree, parts["tree"])
        for key, value in json.loads(parts.get("made", "{}")).items():
            self.assertEqual(config.get(key), value, key)


def test_of(parts):
    """Returns the test of a Dockerfile."""
    return lambda self: self.check(parts)


for its_name, its_parts in stored():
    setattr(Dockerfiles, f"test_{its_name.replace('-', '_')}", test_of(its_parts))


class Example(WithDaemon):
    """The Dockerfile with which docs/DAEMON.md begins."""

    def test_the_first_steps_of_the_page_build_it(self):
        page = (ROOT / "docs" / "DAEMON.md").read_text("utf-8")
        words = re.search(r"^    out/llbmd ((?:.*\\\n)*.*) &$", page, re.M)[1].replace("\\\n", " ").split()
        self.assertEqual(words[:6:2], ["-addr", "-llbm", "-frontend"])
        given = [re.sub(r"(^|=)examples/", rf"\g<1>{ROOT}/examples/", word) for word in words[6:]]
        with self.daemon("-frontend", f"dockerfile.v0={FRONTEND}", *given):
            tree, config = built(self, EXAMPLE / "app", EXAMPLE / "app")
        program, users = ((EXAMPLE / path).read_text() for path in ("app/main.go", "images/distroless/etc/passwd"))
        self.assertEqual(
            re.sub("^[0-7]+ ", "", tree, flags=re.M),
            f"0:0 app {json.dumps(program)}\n0:0 etc/\n0:0 etc/passwd {json.dumps(users)}\n",
        )
        self.assertEqual((config["Entrypoint"], config["User"]), (["/app"], "65532"))
