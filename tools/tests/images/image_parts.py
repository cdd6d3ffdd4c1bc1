"""Images that tests make: layers, OCI layouts, and archives of `docker save`."""

import gzip
import hashlib
import json
import os
import pathlib
from typing import NamedTuple

from tests.trees.tar_tools import entry, tar

MANIFEST = "application/vnd.oci.image.manifest.v1+json"
INDEX = "application/vnd.oci.image.index.v1+json"
CONFIG = "application/vnd.oci.image.config.v1+json"
LAYER = "application/vnd.oci.image.layer.v1.tar+gzip"
NAME = "org.opencontainers.image.ref.name"


def digest(data):
    """Returns the digest of bytes."""
    return "sha256:" + hashlib.sha256(data).hexdigest()


def written(value):
    """Returns a value as JSON."""
    return json.dumps(value).encode()


class Made(NamedTuple):
    """The blobs of an image by digest, and the descriptor of its manifest."""

    blobs: dict
    descriptor: dict


def descriptor(data, kind, **others):
    """Returns the descriptor of a blob."""
    return {"mediaType": kind, "digest": digest(data), "size": len(data), **others}


def image(*layers, pack=None, system="linux", machine="amd64", names=("one",), **others):
    """Returns an image of these layers, packed by gzip or a function; the manifest has one descriptor for each name."""
    packed = [(pack or gzipped)(layer) for layer in layers]
    root = {"type": "layers", "diff_ids": [digest(layer) for layer in layers]}
    config = written({"os": system, "architecture": machine, "rootfs": root})
    manifest = {"schemaVersion": 2, "mediaType": MANIFEST, "config": descriptor(config, CONFIG)}
    manifest = written({**manifest, "layers": [descriptor(layer, LAYER) for layer in packed]})
    found = [descriptor(manifest, MANIFEST, annotations={NAME: name}, **others) for name in names]
    return Made({digest(data): data for data in [*packed, config, manifest]}, found)


def layout(*made):
    """Returns the files of an OCI layout of these images, by path."""
    listed = [one for image_made in made for one in image_made.descriptor]
    files = {"oci-layout": written({"imageLayoutVersion": "1.0.0"})}
    files["index.json"] = written({"schemaVersion": 2, "mediaType": INDEX, "manifests": listed})
    for image_made in made:
        files |= {"blobs/" + key.replace(":", "/"): data for key, data in image_made.blobs.items()}
    return files


def saved(*layers, names=("one:latest",)):
    """Returns the files of a `docker save` archive of one image, by path."""
    root = {"type": "layers", "diff_ids": [digest(layer) for layer in layers]}
    config = written({"os": "linux", "architecture": "amd64", "rootfs": root})
    places = [f"{number}/layer.tar" for number in range(len(layers))]
    held = hashlib.sha256(config).hexdigest() + ".json"
    manifest = written([{"Config": held, "RepoTags": list(names), "Layers": places}])
    return {held: config, "manifest.json": manifest, **dict(zip(places, layers))}


def archive(files):
    """Returns the archive of files by path."""
    return tar(*(entry(path, data) for path, data in files.items()))


def directory(place, files):
    """Writes files below a directory."""
    for path, data in files.items():
        target = pathlib.Path(os.fsdecode(place)) / path
        target.parent.mkdir(parents=True, exist_ok=True)
        target.write_bytes(data)


def gzipped(data):
    """Returns bytes packed by gzip, without a time."""
    return gzip.compress(data, mtime=0)
