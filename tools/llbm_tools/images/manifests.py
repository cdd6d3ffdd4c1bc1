"""The images that an OCI layout or an archive of `docker save` has, and their layers.

Manifests, configurations and layers are checked against the digests and the sizes by which they are named, and unpacked
layers against the digests in the configuration.
"""

import hashlib
import json
import re
from collections.abc import Iterator
from typing import NamedTuple, TypeVar

from llbm_tools.images.image_files import Files
from llbm_tools.images.packing import INDEX, LAYOUT
from llbm_tools.streams import Refused

MANIFEST = "manifest.json"
LAYOUT_VERSION = "imageLayoutVersion"
MOST_OF_JSON = 1 << 24
MOST_NESTED = 4

DIGEST = re.compile(r"sha256:[0-9a-f]{64}|sha384:[0-9a-f]{96}|sha512:[0-9a-f]{128}")
HEX_NAME = re.compile(r"(?:.*/)?([0-9a-f]{64})(?:\.json)?")
NAMES = ("org.opencontainers.image.ref.name", "io.containerd.image.name")
INDEX_TYPES = (
    "application/vnd.oci.image.index.v1+json",
    "application/vnd.docker.distribution.manifest.list.v2+json",
)
MANIFEST_TYPES = (
    "application/vnd.oci.image.manifest.v1+json",
    "application/vnd.docker.distribution.manifest.v2+json",
)
ATTESTATION, ARTIFACT = "vnd.docker.reference.type", "artifactType"

Held = TypeVar("Held")


class Blob(NamedTuple):
    """A file of an image: its path, and its digest and its size where they are known."""

    path: str
    digest: str = ""
    size: int | None = None


class Layer(NamedTuple):
    """A layer: its file, which may be packed, and the digest of its unpacked content."""

    blob: Blob
    content: str


class Image(NamedTuple):
    """An image: its names, its platform, its manifest in a layout, its configuration and the files of its layers."""

    names: tuple[str, ...]
    platform: str
    manifest: Blob | None
    config: Blob | None = None
    layers: tuple[Blob, ...] = ()


def member(held: object, key: str, kind: type[Held], where: str) -> Held:
    """Returns a member of a JSON object; one that is missing or of another kind is refused."""
    found = held.get(key) if isinstance(held, dict) else None
    if not isinstance(found, kind):
        raise Refused(f"{key} is missing or of another kind: {where}")
    return found


def optional(held: object, key: str, kind: type[Held], default: Held) -> Held:
    """Returns a member of a JSON object, or a default if it is missing or of another kind."""
    found = held.get(key) if isinstance(held, dict) else None
    return found if isinstance(found, kind) else default


def checked(files: Files, blob: Blob) -> Iterator[bytes]:
    """Yields the content of a file; at its end it is checked against its size and its digest."""
    held = hashlib.new(blob.digest.partition(":")[0]) if blob.digest else None
    size = 0
    for piece in files.pieces(blob.path):
        size += len(piece)
        if held:
            held.update(piece)
        yield piece
    if blob.size is not None and size != blob.size:
        raise Refused(f"there are {size} bytes, not {blob.size} as the image says: {blob.path}")
    if held and held.hexdigest() != blob.digest.partition(":")[2]:
        raise Refused(f"the digest is not {blob.digest}: {blob.path}")


def json_in(files: Files, blob: Blob) -> object:
    """Returns the content of a JSON file."""
    data = bytearray()
    for piece in checked(files, blob):
        data += piece
        if len(data) > MOST_OF_JSON:
            raise Refused(f"there are more than {MOST_OF_JSON} bytes: {blob.path}")
    try:
        return json.loads(data.decode("utf-8"))
    except (ValueError, RecursionError) as fault:
        raise Refused(f"not JSON: {blob.path}: {fault}") from fault


def blob_of(descriptor: object, where: str) -> Blob:
    """Returns the file that a descriptor names."""
    digest = member(descriptor, "digest", str, where)
    if not DIGEST.fullmatch(digest):
        raise Refused(f"not a digest of a known kind: {where}: {digest}")
    return Blob("blobs/" + digest.replace(":", "/"), digest, member(descriptor, "size", int, where))


def platform_in(held: object) -> str:
    """Returns a platform as `OS/ARCHITECTURE` or `OS/ARCHITECTURE/VARIANT`, or nothing if it is not known."""
    parts = [optional(held, key, str, "") for key in ("os", "architecture", "variant")]
    return "/".join(filter(None, parts)) if all(parts[:2]) else ""


def images_in_index(files: Files, blob: Blob, names: tuple[str, ...] = (), depth: int = 1) -> Iterator[Image]:
    """Yields the images that an index lists, also by further indexes."""
    if depth > MOST_NESTED:
        raise Refused(f"an index below {MOST_NESTED} others: {blob.path}")
    for descriptor in member(json_in(files, blob), "manifests", list, blob.path):
        notes = optional(descriptor, "annotations", dict, {})
        own = tuple(dict.fromkeys(notes[key] for key in NAMES if isinstance(notes.get(key), str))) or names
        kind = optional(descriptor, "mediaType", str, MANIFEST_TYPES[0])
        if kind in INDEX_TYPES:
            yield from images_in_index(files, blob_of(descriptor, blob.path), own, depth + 1)
        elif kind in MANIFEST_TYPES and ATTESTATION not in notes and not optional(descriptor, ARTIFACT, str, ""):
            platform = platform_in(optional(descriptor, "platform", dict, {}))
            yield Image(own, platform, blob_of(descriptor, blob.path))


def images_of_layout(files: Files) -> list[Image]:
    """Returns the images of an OCI layout, each once."""
    found: dict[Blob | None, Image] = {}
    for image in images_in_index(files, Blob(INDEX)):
        before = found.get(image.manifest)
        names = (*before.names, *image.names) if before else image.names
        found[image.manifest] = image._replace(names=tuple(dict.fromkeys(names)))
    return list(found.values())


def config_at(path: str) -> Blob:
    """Returns the file of a configuration that a `docker save` archive names; most are named by their digest."""
    named = HEX_NAME.fullmatch(path)
    return Blob(path, f"sha256:{named[1]}" if named else "")


def images_of_save(files: Files) -> list[Image]:
    """Returns the images of an archive of `docker save`."""
    found = []
    for one in saved_in(json_in(files, Blob(MANIFEST))) or []:
        config = config_at(member(one, "Config", str, MANIFEST))
        names = tuple(name for name in optional(one, "RepoTags", list, []) if isinstance(name, str))
        layers = member(one, "Layers", list, MANIFEST)
        if not all(isinstance(path, str) for path in layers):
            raise Refused(f"Layers has something else than paths: {MANIFEST}")
        found.append(Image(names, "", None, config, tuple(map(Blob, layers))))
    return found


def saved_in(held: object) -> list[object] | None:
    """Returns the images that the manifest of a `docker save` archive lists, or None if it is another file."""
    if not isinstance(held, list) or not held:
        return None
    return held if all(isinstance(one, dict) and "Config" in one and "Layers" in one for one in held) else None


def is_layout(files: Files) -> bool:
    """Returns whether these are the files of an OCI layout."""
    if not files.has(LAYOUT) or not files.has(INDEX):
        return False
    try:
        held = json_in(files, Blob(LAYOUT))
    except Refused:
        return False
    return isinstance(held, dict) and LAYOUT_VERSION in held


def is_save(files: Files) -> bool:
    """Returns whether these are the files of an archive of `docker save`."""
    try:
        return files.has(MANIFEST) and saved_in(json_in(files, Blob(MANIFEST))) is not None
    except Refused:
        return False


def images_in(files: Files) -> list[Image]:
    """Returns all images, an OCI layout's in the first place."""
    if is_layout(files):
        return images_of_layout(files)
    if is_save(files):
        return images_of_save(files)
    raise Refused("neither an OCI layout nor an archive of docker save")


def with_config(files: Files, image: Image) -> Image:
    """Returns an image with its configuration and the files of its layers."""
    if image.manifest is None:
        return image
    manifest = json_in(files, image.manifest)
    where = image.manifest.path
    layers = [blob_of(one, where) for one in member(manifest, "layers", list, where)]
    return image._replace(config=blob_of(member(manifest, "config", dict, where), where), layers=tuple(layers))


def config_of(image: Image) -> Blob:
    """Returns the configuration of an image, which has one."""
    if image.config is None:
        raise Refused(f"an image without a configuration: {shown(image)}")
    return image.config


def with_platform(files: Files, image: Image) -> Image:
    """Returns an image with its platform, which is read from its configuration if nothing else says it."""
    if image.platform:
        return image
    image = with_config(files, image)
    return image._replace(platform=platform_in(json_in(files, config_of(image))))


def is_for(image: Image, platform: str) -> bool:
    """Returns whether an image is for a platform, which may be given without its variant."""
    return image.platform == platform or image.platform.startswith(f"{platform}/")


def shown(image: Image) -> str:
    """Returns the names and the platform of an image for a person."""
    return " ".join(filter(None, [", ".join(image.names), image.platform])) or "without a name"


def chosen(files: Files, name: str | None, platform: str | None) -> Image:
    """Returns the one image with this name and this platform, where they are given."""
    found = images_in(files)
    if name is not None:
        found = [image for image in found if name in image.names]
    if platform is not None:
        found = [image for image in (with_platform(files, image) for image in found) if is_for(image, platform)]
    if len(found) == 1:
        return with_config(files, found[0])
    if not found:
        raise Refused("there is no such image")
    listed = "; ".join(shown(image) for image in found)
    raise Refused(f"there are {len(found)} images, and --name or --platform picks one: {listed}")


def layers_of(files: Files, image: Image) -> list[Layer]:
    """Returns the layers of an image that was chosen, the lowest first."""
    config = config_of(image)
    where = config.path
    root = member(json_in(files, config), "rootfs", dict, where)
    contents = member(root, "diff_ids", list, where)
    if len(contents) != len(image.layers):
        raise Refused(f"there are {len(contents)} digests of layers, but {len(image.layers)} layers: {where}")
    for digest in contents:
        if not isinstance(digest, str) or not DIGEST.fullmatch(digest):
            raise Refused(f"a digest of a layer is not one of a known kind: {where}")
    return list(map(Layer, image.layers, contents))
