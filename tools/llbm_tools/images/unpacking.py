"""Reads an image: chooses it, stores and unpacks its layers, and lays them one over another."""

import contextlib
import hashlib
import os
import tarfile
from collections.abc import Callable, Iterator
from typing import BinaryIO

from llbm_tools.common import say
from llbm_tools.images import archives, manifests, packing
from llbm_tools.images import image_files
from llbm_tools.images.archive_entries import Path, Placed, entries_of
from llbm_tools.images.layers import Layers
from llbm_tools.inputs import opened_file
from llbm_tools.streams import PIECE, Failed, Refused, temporary_file


@contextlib.contextmanager
def files_in(given: BinaryIO) -> Iterator[image_files.Files]:
    """Yields the files of an image that is an archive."""
    with temporary_file("the archive") as first, temporary_file("the archive") as second:
        yield image_files.ArchiveFiles(entries_of(archives.open_archive(packing.open_unpacked(given, first, second))))


@contextlib.contextmanager
def files_at(place: str) -> Iterator[image_files.Files]:
    """Yields the files of an image that is an archive or a directory."""
    if os.path.isdir(place):
        yield image_files.DirectoryFiles(place)
        return
    with opened_file(place) as file, files_in(file) as files:
        yield files


def is_image(place: str) -> bool:
    """Returns whether a directory is an OCI layout, or an archive one or what `docker save` writes.

    A path that can't be read is no image.
    """
    try:
        with files_at(place) as files:
            return manifests.is_layout(files) or (not os.path.isdir(place) and manifests.is_save(files))
    except (Failed, OSError, Refused):
        return False


def digest_of(file: BinaryIO, kind: str) -> str:
    """Returns the digest of a file."""
    held = hashlib.new(kind)
    file.seek(0)
    while piece := file.read(PIECE):
        held.update(piece)
    file.seek(0)
    return f"{kind}:{held.hexdigest()}"


def archive_of(files: image_files.Files, layer: manifests.Layer, held: contextlib.ExitStack) -> tarfile.TarFile:
    """Returns the archive of a layer, in a temporary file that is closed with the rest of what is held."""
    with temporary_file("a layer") as packed:
        packed.writelines(manifests.checked(files, layer.blob))
        packed.seek(0)
        bare = held.enter_context(temporary_file("a layer"))
        form = packing.form_of_start(packed.read(packing.MOST_OF_MAGIC))
        packing.unpack(form, packed, bare)
    if digest_of(bare, layer.content.partition(":")[0]) != layer.content:
        raise Refused(f"the digest of what it unpacks to is not {layer.content}")
    return archives.open_archive(bare)


def entries_in(files: image_files.Files, image: manifests.Image, held: contextlib.ExitStack) -> dict[Path, Placed]:
    """Returns the entries of the tree of an image; their contents are in temporary files that are held."""
    tree: Layers | None = None
    for number, layer in enumerate(manifests.layers_of(files, image), 1):
        try:
            archive = archive_of(files, layer, held)
            tree = tree or Layers(archive)
            tree.lay(archive)
        except Refused as fault:
            raise Refused(f"layer {number}: {fault}") from fault
    return tree.entries() if tree else {}


@contextlib.contextmanager
def tree_of(
    files: image_files.Files, name: str | None, platform: str | None, say: Callable[[str], None] = say
) -> Iterator[dict[Path, Placed]]:
    """Yields the entries of the tree of one image, and prints which it is."""
    image = manifests.chosen(files, name, platform)
    say(f"image {manifests.shown(image)}: {len(image.layers)} layer{'s' * (len(image.layers) != 1)}")
    with contextlib.ExitStack() as held:
        yield entries_in(files, image, held)
