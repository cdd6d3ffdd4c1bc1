"""Packs and unpacks streams by gzip, bzip2, xz and zstd.

The modules are those of the standard library; where it has none for zstd, the program `zstd` does it. One version of
these always packs the same bytes to the same bytes, since no time and no name goes into the packed stream.
"""

import gzip
import importlib
import os
import shutil
import subprocess
from typing import BinaryIO, NamedTuple

from llbm_tools.streams import PIECE, Refused


class Form(NamedTuple):
    """A form of packing: its name, the start of its streams, its module, and the endings of its archives."""

    name: str
    magic: bytes
    module: str
    endings: tuple[str, ...]


FORMS = (
    Form("gzip", b"\x1f\x8b", "gzip", (".tar.gz", ".tgz")),
    Form("bzip2", b"BZh", "bz2", (".tar.bz2",)),
    Form("xz", b"\xfd7zXZ\x00", "lzma", (".tar.xz",)),
    Form("zstd", b"\x28\xb5\x2f\xfd", "compression.zstd", (".tar.zst",)),
)

NAMES = tuple(form.name for form in FORMS)
PLAIN = ".tar"
ENDINGS = (PLAIN, *(ending for form in FORMS for ending in form.endings))
IMAGE = ".oci"
# The file by which a directory is an image, and its index.
LAYOUT, INDEX = "oci-layout", "index.json"
MOST_OF_MAGIC = max(len(form.magic) for form in FORMS)
PACKER, UNPACKING = "zstd", "-d"


def is_archive(place: str) -> bool:
    """Returns whether a path is read as an archive: by its name, unless it is a directory."""
    return place.endswith(ENDINGS) and not os.path.isdir(place)


def form_of_start(start: bytes) -> Form | None:
    """Returns the form of a stream that begins like this, or None if it is not packed."""
    return next((form for form in FORMS if start.startswith(form.magic)), None)


def form_named(name: str) -> Form:
    """Returns the form with a name."""
    return next(form for form in FORMS if form.name == name)


def form_of_name(place: str) -> Form | None:
    """Returns the form that the ending of a path asks for, or None for a plain archive."""
    return next((form for form in FORMS if place.endswith(form.endings)), None)


def ending_of(place: str) -> str:
    """Returns the ending of an archive's path, or nothing if the path does not end like an archive."""
    return next((ending for ending in ENDINGS if place.endswith(ending)), "")


def ending_of_result(place: str) -> str:
    """Returns the ending of a result that is an archive or an image, or nothing if it is a directory."""
    return "" if place.endswith("/") else IMAGE if place.endswith(IMAGE) else ending_of(place)


def check_ending(place: str) -> None:
    """Refuses the path of a result whose ending is unknown; `/` at its end says that it is a directory."""
    ending = os.path.splitext(os.path.basename(place))[1]
    if ending and not ending_of_result(place) and not os.path.isdir(place):
        known = ", ".join([*ENDINGS, IMAGE])
        raise Refused(f"an unknown ending, {ending} ({place}/ is a directory; others end in {known}): {place}")


def has_module(form: Form) -> bool:
    """Returns whether this Python has the module of a form."""
    try:
        importlib.import_module(form.module)
    except ImportError:
        return False
    return True


def check_form(form: Form) -> None:
    """Refuses a form that neither this Python nor a program can pack and unpack."""
    if not has_module(form) and not (form.name == PACKER and shutil.which(PACKER)):
        raise Refused(f"neither this Python nor a program `{PACKER}` packs or unpacks it: {form.name}")


def by_program(words: list[str], given: BinaryIO, stored: BinaryIO) -> None:
    """Runs the program `zstd` from one file into another; an error is raised as Refused."""
    os.lseek(given.fileno(), 0, os.SEEK_SET)
    stored.flush()
    done = subprocess.run([PACKER, "-q", "-T1", "-c", *words], stdin=given, stdout=stored, stderr=subprocess.PIPE)
    if done.returncode:
        lines = done.stderr.decode("utf-8", "backslashreplace").strip().splitlines() or ["it failed"]
        raise Refused(f"the archive could not be {'unpacked' if UNPACKING in words else 'packed'}: {lines[0]}")


def by_module(form: Form, packed: BinaryIO, stored: BinaryIO) -> None:
    """Unpacks a stream with the module of its form; an error is raised as Refused."""
    opened = importlib.import_module(form.module).open(packed, "rb")
    try:
        shutil.copyfileobj(opened, stored, PIECE)
    except OSError as fault:
        if fault.errno is not None:
            raise
        raise Refused(f"the archive could not be unpacked: {fault}") from fault
    except MemoryError:
        raise
    except Exception as fault:  # each of these modules raises its own types
        raise Refused(f"the archive could not be unpacked: {fault}") from fault


def unpack(form: Form | None, packed: BinaryIO, stored: BinaryIO) -> None:
    """Unpacks a file from its start into another file, or copies it if it has no form."""
    packed.seek(0)
    if form is None:
        shutil.copyfileobj(packed, stored, PIECE)
        return
    check_form(form)
    if has_module(form):
        by_module(form, packed, stored)
    else:
        by_program([UNPACKING], packed, stored)


def pack(form: Form, plain: BinaryIO, stored: BinaryIO) -> None:
    """Packs a file from its start into another file."""
    check_form(form)
    plain.seek(0)
    if form.name == "gzip":
        with gzip.GzipFile(filename="", mode="wb", fileobj=stored, mtime=0) as opened:
            shutil.copyfileobj(plain, opened, PIECE)
    elif has_module(form):
        with importlib.import_module(form.module).open(stored, "wb") as opened:
            shutil.copyfileobj(plain, opened, PIECE)
    else:
        by_program([], plain, stored)


def open_unpacked(given: BinaryIO, first: BinaryIO, second: BinaryIO) -> BinaryIO:
    """Returns the unpacked archive: the given stream if it is plain and seekable, else a temporary file."""
    if not given.seekable() or given.tell():
        shutil.copyfileobj(given, first, PIECE)
        given = first
    given.seek(0)
    form = form_of_start(given.read(MOST_OF_MAGIC))
    given.seek(0)
    if form is None:
        return given
    unpack(form, given, second)
    second.seek(0)
    return second
