"""Writes a tree as an image: an OCI layout in one tar archive, with one layer.

The same tree, time and configuration always make the same bytes, those of the daemon's exporter `oci` with
`compression=uncompressed` too; docs/FORMATS.md, "Images", has the rule.

A name of the tree that begins with `.wh.` is refused: in a layer it would remove what it names.
"""

import datetime
import hashlib
import io
import json
import re
import tarfile
from typing import BinaryIO, cast

from llbm_tools.images import archive_writing
from llbm_tools.streams import PIECE, Refused

WHITEOUT = ".wh."
PLATFORM = ("architecture", "os", "variant")
MOST_OF_CONFIG = 1 << 24

LAYER_TYPE = "application/vnd.oci.image.layer.v1.tar"
CONFIG_TYPE = "application/vnd.oci.image.config.v1+json"
MANIFEST_TYPE = "application/vnd.oci.image.manifest.v1+json"
INDEX_TYPE = "application/vnd.oci.image.index.v1+json"

CREATED = "org.opencontainers.image.created"
TIME = re.compile(r"([0-9]{4}-[0-9]{2}-[0-9]{2}T[0-9]{2}:[0-9]{2}:[0-9]{2})(\.[0-9]+)?(Z|[+-][0-9]{2}:[0-9]{2})")

TEXT, TEXTS, MAP, MAPS, FLAG = "a string", "an array of strings", "an object", "an array of objects", "a boolean"
MEMBERS = {
    "architecture": TEXT, "os": TEXT, "variant": TEXT, "created": TEXT, "author": TEXT, "config": MAP, "history": MAPS,
}  # fmt: skip
MEMBERS_OF_STEP = {"created": TEXT, "created_by": TEXT, "author": TEXT, "comment": TEXT, "empty_layer": FLAG}
MEMBERS_OF_CONFIG = {
    "User": TEXT, "WorkingDir": TEXT, "StopSignal": TEXT, "Env": TEXTS, "Entrypoint": TEXTS, "Cmd": TEXTS,
    "ExposedPorts": MAP, "Volumes": MAP, "Labels": MAP,
}  # fmt: skip

# Members that frontends and clients also write, each in its place; a name with a dot is somebody's own.
MORE = {"id", "parent", "comment", "container", "container_config", "docker_version", "rootfs"}
MORE_OF_CONFIG = {
    "ArgsEscaped", "AttachStderr", "AttachStdin", "AttachStdout", "CpuShares", "Domainname", "Healthcheck", "Hostname",
    "Image", "MacAddress", "Memory", "MemorySwap", "NetworkDisabled", "OnBuild", "OpenStdin", "Shell", "StdinOnce",
    "StopTimeout", "Tty",
}  # fmt: skip
HEALTH = "Healthcheck"
PLACES = {
    "": {*MEMBERS, *MORE}, "config": {*MEMBERS_OF_CONFIG, *MORE_OF_CONFIG}, "history": {*MEMBERS_OF_STEP},
    HEALTH: {"Test", "Interval", "Timeout", "StartPeriod", "StartInterval", "Retries"},
}  # fmt: skip

Object = dict[str, object]

# What else than JSON asks for is escaped.
ESCAPED = {ord(one): f"\\u{ord(one):04x}" for one in "<>&\u2028\u2029"}


def is_kind(kind: str, value: object) -> bool:
    """Returns whether a value of JSON is of a kind."""
    if kind in (TEXTS, MAPS):
        return isinstance(value, list) and all(isinstance(one, str if kind == TEXTS else dict) for one in value)
    return isinstance(value, {TEXT: str, FLAG: bool, MAP: dict}[kind])


def hint(name: str, place: str) -> str:
    """Returns how a member that is not known in a place is written, and where it belongs, if another one is meant."""
    for other, known in sorted(PLACES.items(), key=lambda pair: pair[0] != place):
        for one in sorted(known):
            if one.lower() == name.lower():
                spelled = f" is written {one}" if one != name else ""
                belongs = f" belongs into {other or 'the outer object'}" if other != place else ""
                return f"; it{spelled}{' and it' if spelled and belongs else ''}{belongs}"
    return ""


def checked(held: object, members: dict[str, str], file: str, place: str = "") -> Object:
    """Returns an object without its members that are null; one of another kind, or that is not known, is refused."""
    where = f"{file}: {place}" if place else file
    if not isinstance(held, dict):
        raise Refused(f"not an object: {where}")
    found = {name: value for name, value in held.items() if value is not None}
    for name, kind in members.items():
        if name in found and not is_kind(kind, found[name]):
            raise Refused(f"{name} is not {kind}: {where}")
    for name in found:
        if name not in PLACES[place] and "." not in name:
            raise Refused(f"a configuration has no member {name!r} here{hint(name, place)}: {where}")
    return found


def config_in(data: bytes, where: str) -> bytes:
    """Returns the configuration of an image in the bytes of a file, which `where` names, in its one form as JSON."""
    if len(data) > MOST_OF_CONFIG:
        raise Refused(f"a configuration has at most {MOST_OF_CONFIG:,} bytes: {where}")
    try:
        held = json.loads(data.decode("utf-8"))
        as_json(held)
    except (ValueError, RecursionError) as fault:
        raise Refused(f"not JSON: {where}: {fault}") from fault
    config = checked(held, MEMBERS, where)
    if "config" in config:
        inner = checked(config["config"], MEMBERS_OF_CONFIG, where, "config")
        config["config"] = inner
        if HEALTH in inner:
            checked(inner[HEALTH], {}, where, HEALTH)
    if "history" in config:
        steps = cast(list[object], config["history"])
        config["history"] = [checked(step, MEMBERS_OF_STEP, where, "history") for step in steps]
    return config_json(config)


def as_json(held: object, sort_keys: bool = False) -> bytes:
    """Returns a value as JSON, with the bytes that Go's package encoding/json writes."""
    text = json.dumps(held, ensure_ascii=False, allow_nan=False, separators=(",", ":"), sort_keys=sort_keys)
    return text.translate(ESCAPED).encode("utf-8")


def config_json(config: object) -> bytes:
    """Returns a configuration as JSON; the members of all its objects are in the order of their names."""
    return as_json(config, sort_keys=True)


def time_text(time: int) -> str:
    """Returns a time in seconds since 1970 as the text of an image's time."""
    return datetime.datetime.fromtimestamp(time, datetime.timezone.utc).strftime("%Y-%m-%dT%H:%M:%SZ")


def is_later(text: str, time: int) -> bool:
    """Returns whether the text of a time is that of a later one, or of none."""
    found = TIME.fullmatch(text)
    try:
        there = datetime.datetime.fromisoformat(found[1] + found[3].replace("Z", "+00:00")) if found else None
    except ValueError:
        there = None
    if found is None or there is None:
        return True
    return (int(there.timestamp()), (found[2] or "").strip(".0") > "") > (time, False)


def created_in(config: Object, steps: list[Object], time: int, is_bound: bool) -> str:
    """Returns when an image was created: as it says itself, or with the last step that says it, or at the time."""
    texts = [config.get("created"), *(step.get("created") for step in reversed(steps))]
    text = str(next(filter(None, texts), ""))
    return time_text(time) if not text or is_bound and is_later(text, time) else text


def with_layer(steps: list[Object], created: str) -> list[Object]:
    """Returns a history of one layer: the last step that made a layer made it, and the others none."""
    makers = [place for place, step in enumerate(steps) if not step.get("empty_layer")]
    if not makers:
        return [*steps, {"created": created, "created_by": "llbm"}]
    return [{**step, "empty_layer": True} if place in makers[:-1] else step for place, step in enumerate(steps)]


def whole_config(data: bytes, layer: str, time: int, is_bound: bool) -> Object:
    """Returns the configuration with what it has to say of the layer."""
    config: Object = json.loads(data)
    steps = cast(list[Object], config.get("history", []))
    created = created_in(config, steps, time, is_bound)
    return {
        **config, "architecture": config.get("architecture") or "amd64", "os": config.get("os") or "linux",
        "created": created, "history": with_layer(steps, created),
        "rootfs": {"type": "layers", "diff_ids": [f"sha256:{layer}"]},
    }  # fmt: skip


def check_names(layer: BinaryIO) -> None:
    """Refuses a layer with a name that readers of layers take for a removal."""
    layer.seek(0)
    with tarfile.open(fileobj=layer, mode="r:") as archive:
        for member in archive:
            if any(name.startswith(WHITEOUT) for name in member.name.split("/")):
                raise Refused(f"a layer of an image can't have a name that begins with {WHITEOUT}: /{member.name}")
            archive.members.clear()  # type: ignore[attr-defined]


def digest_in(file: BinaryIO) -> str:
    """Returns the digest of a file."""
    held = hashlib.sha256()
    file.seek(0)
    while piece := file.read(PIECE):
        held.update(piece)
    return held.hexdigest()


def descriptor(kind: str, digest: str, size: int) -> Object:
    """Returns what names a blob."""
    return {"mediaType": kind, "digest": f"sha256:{digest}", "size": size}


def described(kind: str, data: bytes) -> tuple[Object, str]:
    """Returns what names a blob of these bytes, and its path."""
    digest = hashlib.sha256(data).hexdigest()
    return descriptor(kind, digest, len(data)), blob_path(digest)


def blob_path(digest: str) -> str:
    """Returns the path of a blob."""
    return f"blobs/sha256/{digest}"


def size_of(file: BinaryIO) -> int:
    """Returns the size of a file."""
    return file.seek(0, io.SEEK_END)


def write(layer: BinaryIO, output: BinaryIO, given: bytes, time: int, is_bound: bool = False) -> None:
    """Writes the image of a layer, whose plain archive can be read several times, with a configuration and a time.

    The configuration is what `config_in` returns. With `is_bound` the image was created at the time, if it would be
    later.
    """
    check_names(layer)
    digest, size = digest_in(layer), size_of(layer)
    config = whole_config(given, digest, time, is_bound)
    config_data = config_json(config)
    config_named, config_path = described(CONFIG_TYPE, config_data)
    layers = [descriptor(LAYER_TYPE, digest, size)]
    manifest: Object = {"schemaVersion": 2, "mediaType": MANIFEST_TYPE, "config": config_named, "layers": layers}
    manifest_data = as_json(manifest)
    manifest_named, manifest_path = described(MANIFEST_TYPE, manifest_data)
    manifest_named["annotations"] = {CREATED: time_text(time)}
    manifest_named["platform"] = {name: config[name] for name in PLATFORM if config.get(name)}
    index = as_json({"schemaVersion": 2, "mediaType": INDEX_TYPE, "manifests": [manifest_named]})
    for path, data in (
        ("index.json", index), ("oci-layout", as_json({"imageLayoutVersion": "1.0.0"})),
        (manifest_path, manifest_data), (config_path, config_data),
    ):  # fmt: skip
        add(output, path, io.BytesIO(data), len(data), time)
    layer.seek(0)
    add(output, blob_path(digest), layer, size, time)
    output.write(archive_writing.END)


def add(archive: BinaryIO, path: str, content: BinaryIO, size: int, time: int) -> None:
    """Adds a file to the archive."""
    header = tarfile.TarInfo(path)
    header.size, header.mode, header.mtime = size, 0o644, time
    archive_writing.add(archive, header, content)
