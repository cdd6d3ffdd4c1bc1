"""Dockerfiles as real projects have them, which are in daemon/dockerfiles, with their images as OCI layouts.

A file there begins with a line that says what it is, and has parts after lines `-- NAME --`: the Dockerfile, the files
of its context, those of images and their configurations, rules for its RUNs, options of the frontend, and what it
makes: the tree, with a line `MODE OWNER PATH CONTENT` for each entry, and members of the image's configuration. These
were worked out by hand, by BuildKit's rules for Dockerfiles and by the stand-ins.
"""

import hashlib
import io
import json
import pathlib
import re
import tarfile
from collections.abc import Iterator

from llbm_tools import paths
from llbm_tools.daemon.link_cases import MOUNT_POINTS
from llbm_tools.trees import tree_maps
from llbm_tools.trees.tree_maps import ROOT, Entry, Tree

STORED = paths.ROOT / "daemon" / "dockerfiles"
PART = re.compile(r"^-- (.+) --$", re.M)
ARCHITECTURES = ("amd64", "arm64")
OCI = "application/vnd.oci.image."


def parts_of(text: str) -> dict[str, str]:
    """Returns the parts of a file by their names; what is before the first one says what the file is."""
    _, *parts = PART.split(text)
    return {name: content.removeprefix("\n") for name, content in zip(parts[::2], parts[1::2])}


def stored() -> Iterator[tuple[str, dict[str, str]]]:
    """Yields each Dockerfile by its name, with its parts."""
    for place in sorted(STORED.glob("*.txt")):
        yield place.stem, parts_of(place.read_text("utf-8"))


def context_of(parts: dict[str, str]) -> Tree:
    """Returns the tree of the context."""
    tree: Tree = {(): ROOT}
    for name, content in parts.items():
        if name.startswith("context/"):
            tree_maps.add(tree, name.removeprefix("context/"), tree_maps.file_of(content))
    return tree


def with_mount_points() -> Tree:
    """Returns a tree with the directories at which BuildKit mounts something in each execution, as real images have."""
    return {(): ROOT, **{(name.encode(),): Entry(0o755, 0, 0) for name in MOUNT_POINTS}}


def images_of(parts: dict[str, str]) -> dict[str, tuple[Tree, dict[str, object]]]:
    """Returns the trees of images, and their configurations, by their names."""
    found: dict[str, tuple[Tree, dict[str, object]]] = {}
    for name, content in parts.items():
        kind, _, rest = name.partition(" ")
        image, _, path = rest.partition(" ")
        if kind not in ("image", "config"):
            continue
        tree, config = found.setdefault(image, (with_mount_points(), {}))
        if kind == "image":
            tree_maps.add(tree, path, tree_maps.file_of(content))
        else:
            config.update(json.loads(content))
    return found


def options_of(parts: dict[str, str]) -> list[str]:
    """Returns the words of options for both daemons."""
    return [word for line in parts.get("options", "").splitlines() if line for word in ("--opt", line)]


def without_syntax(dockerfile: bytes) -> bytes:
    """Returns a Dockerfile that does not name the image of a frontend: the daemon's own one reads it."""
    return re.sub(rb"\A# *syntax=", b"# ", dockerfile)


def layer_of(tree: Tree) -> bytes:
    """Returns a tree as a layer."""
    out = io.BytesIO()
    with tarfile.open(fileobj=out, mode="w") as archive:
        for path, entry in sorted(tree.items()):
            if not path:
                continue
            header = tarfile.TarInfo(b"/".join(path).decode())
            header.mode, header.type = entry.mode, tarfile.DIRTYPE if entry.content is None else tarfile.REGTYPE
            data = bytes.fromhex((entry.content or b"").decode())
            header.size = len(data)
            archive.addfile(header, io.BytesIO(data))
    return out.getvalue()


class Layout:
    """An OCI layout in a folder, of an image for two platforms."""

    def __init__(self, folder: pathlib.Path, tree: Tree, config: dict[str, object]) -> None:
        self.folder = folder
        (folder / "blobs" / "sha256").mkdir(parents=True)
        layer = self.blob("layer.v1.tar", layer_of(tree))
        manifests = [self.manifest(layer, config, name) for name in ARCHITECTURES]
        index = self.blob("index.v1+json", self.json({"schemaVersion": 2, "manifests": manifests}))
        (folder / "index.json").write_bytes(self.json({"schemaVersion": 2, "manifests": [index]}))
        (folder / "oci-layout").write_text('{"imageLayoutVersion": "1.0.0"}', "utf-8")
        self.digest = index["digest"]

    @staticmethod
    def json(held: object) -> bytes:
        """Returns a value as JSON."""
        return json.dumps(held).encode()

    def blob(self, kind: str, data: bytes) -> dict[str, object]:
        """Writes a blob, and returns its descriptor."""
        digest = hashlib.sha256(data).hexdigest()
        (self.folder / "blobs" / "sha256" / digest).write_bytes(data)
        return {"mediaType": OCI + kind, "digest": f"sha256:{digest}", "size": len(data)}

    def manifest(self, layer: dict[str, object], config: dict[str, object], architecture: str) -> dict[str, object]:
        """Writes the manifest for a platform, and returns its descriptor."""
        where = {"os": "linux", "architecture": architecture}
        rootfs = {"type": "layers", "diff_ids": [layer["digest"]]}
        named = self.blob("config.v1+json", self.json({**config, **where, **{"rootfs": rootfs}}))
        held = {"schemaVersion": 2, "mediaType": OCI + "manifest.v1+json", "config": named, "layers": [layer]}
        return {**self.blob("manifest.v1+json", self.json(held)), "platform": where}


def image_words(parts: dict[str, str], folder: pathlib.Path) -> list[str]:
    """Writes the images into a folder, and returns the words by which both daemons take them."""
    words = []
    for number, (name, (tree, config)) in enumerate(images_of(parts).items()):
        layout = Layout(folder / f"image{number}", tree, config)
        words += ["--oci-layout", f"image{number}={layout.folder}"]
        words += ["--opt", f"context:{name.removesuffix(':latest')}=oci-layout://image{number}@{layout.digest}"]
    return words
