"""The file in which a build keeps what it read and what it made, so that the next build does only what is needed.

The file has a line that names its form, a line of JSON, and then bytes whose lengths the JSON has: the parts of what
was read of each source (`kept_sources`), and the text of the result with tokens in the place of contents. A file of
another form, or one that is cut off, is as if there were none. Nothing else is replaced or removed: neither a file that
does not begin like one of any form, unless it is empty, nor what is no file.
"""

import contextlib
import json
import os
import stat
from collections.abc import Iterator
from typing import BinaryIO, NamedTuple

from llbm_tools.hashes import sha256
from llbm_tools.inputs import reading
from llbm_tools.streams import Failed, Refused, write_and_rename
from llbm_tools.trees.kept_sources import Kept, Part, Stored, bytes_of

KEPT_BUILD = b"llbm-build kept "
FIRST_LINE = KEPT_BUILD + b"3\n"
PARTS = 8
PIECE = 1 << 20

State = list[int]


def state_at(place: str) -> State | None:
    """Returns what shows that a file, or a directory but not what is below it, was replaced; None if there is none."""
    try:
        found = os.stat(place, follow_symlinks=False)
    except OSError:
        return None
    return [found.st_dev, found.st_ino, found.st_mode, found.st_size, found.st_mtime_ns, found.st_ctime_ns]


def digest_of_file(place: str) -> str:
    """Returns the digest of a file."""
    digest = sha256()
    with open(place, "rb") as file:
        while piece := file.read(PIECE):
            digest.update(piece)
    return digest.hexdigest()


class File(NamedTuple):
    """What was read of a source that is one file: its state, and its digest."""

    state: State | None
    digest: str


class Build(NamedTuple):
    """What is kept of a build: what it was asked for, when it began to read, its sources, the state and the text of its
    result, its definition, how many bytes the result's contents have, whether the text has tokens, and the digests of
    the contents that are no files of a directory, by their tokens.
    """

    asked: dict[str, object]
    began: int
    sources: list[Kept | File]
    result: State | None
    text: Part
    definition: Part
    bytes: int
    has_tokens: bool
    others: dict[int, str]


def load(place: str) -> Build | None:
    """Returns what is kept in a file, or None if there is no such file or it has another form."""
    try:
        return build_in(open(place, "rb"))
    except (OSError, ValueError, KeyError, TypeError, AttributeError):
        return None


def build_in(file: BinaryIO) -> Build | None:
    """Returns what is kept in an open file, whose larger parts are read later."""
    if file.readline() != FIRST_LINE:
        return None
    head = json.loads(file.readline())
    place = file.tell()
    sources: list[Kept | File] = []
    for one in head["sources"]:
        if "parts" not in one:
            sources.append(File(one["state"], one["digest"]))
            continue
        parts: list[Part] = []
        for length in one["parts"]:
            parts.append(Stored(file, place, length))
            place += length
        if len(parts) != PARTS or place > os.fstat(file.fileno()).st_size:
            return None
        sources.append(Kept(one["mode"], one["latest"], parts))
    text = Stored(file, place, head["text"])
    definition = Stored(file, place + head["text"], head["definition"])
    if definition.start + definition.length != os.fstat(file.fileno()).st_size:
        return None
    others = {int(number): digest for number, digest in head["others"].items()}
    size, has_tokens = head["bytes"], head["tokens"]
    return Build(head["asked"], head["began"], sources, head["result"], text, definition, size, has_tokens, others)


def head_of(build: Build, parts: list[list[bytes]]) -> bytes:
    """Returns the line of JSON."""
    given = iter(parts)
    sources: list[dict[str, object]] = []
    for one in build.sources:
        if isinstance(one, File):
            sources.append({"state": one.state, "digest": one.digest})
        else:
            sizes = [len(part) for part in next(given)]
            sources.append({"mode": one.mode, "latest": one.latest, "parts": sizes})
    head = {"asked": build.asked, "began": build.began, "sources": sources, "result": build.result}
    lengths = {name: len(bytes_of(part)) for name, part in (("text", build.text), ("definition", build.definition))}
    rest = {"bytes": build.bytes, "tokens": build.has_tokens, "others": build.others}
    return json.dumps({**head, **lengths, **rest}).encode() + b"\n"


def pieces_of(build: Build) -> Iterator[bytes]:
    """Yields the bytes of the file."""
    parts = [one.parts() for one in build.sources if isinstance(one, Kept)]
    yield FIRST_LINE + head_of(build, parts)
    for part in parts:
        yield from part
    yield from (bytes_of(build.text), bytes_of(build.definition))


def is_replaceable(place: str) -> bool:
    """Returns whether there is a file at a place that is empty or begins like what a build has kept."""
    if not stat.S_ISREG(os.lstat(place).st_mode):
        return False
    with open(place, "rb") as file:
        return file.read(len(KEPT_BUILD)) in (b"", KEPT_BUILD)


def check_place(place: str) -> None:
    """Refuses a place that is in no directory, or at which there is what no build has kept."""
    if not os.path.isdir(os.path.dirname(place) or "."):
        raise Refused(f"there is no such directory to keep it in: {place}")
    with reading(place):
        if os.path.lexists(place) and not is_replaceable(place):
            raise Refused(f"--keep replaces only what a build has kept: {place}")


def store(place: str, build: Build) -> None:
    """Writes what is kept to a file, which appears complete. The result is written before, so nothing is refused."""
    try:
        check_place(place)
        with reading(place):
            write_and_rename(pieces_of(build), place)
    except (Refused, Failed) as fault:
        raise Failed(f"what is kept could not be stored: {fault}") from fault


def forget(place: str) -> None:
    """Removes what is kept, before the result is changed; there may be none."""
    check_place(place)
    with reading(place), contextlib.suppress(FileNotFoundError):
        os.unlink(place)
