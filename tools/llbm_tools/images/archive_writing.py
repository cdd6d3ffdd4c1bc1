"""Archives that the tools write: in GNU's form of tar, with the bytes that Go's package archive/tar writes.

The daemon writes with that package, so one tree has one archive, and one digest, whoever writes it. Python's module
differs from it in two fields, which are set here.
"""

import shutil
import tarfile
from typing import BinaryIO

from llbm_tools.streams import PIECE

BLOCK = tarfile.BLOCKSIZE
END = bytes(2 * BLOCK)

LAST_OF_NAME, SUM, LINK, DEVICE = 99, slice(148, 156), 157, slice(329, 345)
MOST_OF_A_TARGET = 100
NO_DEVICE = 2 * b"0000000\0"


def blocks_of(header: tarfile.TarInfo) -> bytes:
    """Returns the blocks of a header; the last one is the entry's own, after those of a name of over 100 bytes, and
    those of a target that is as long.

    That one has numbers of a device, whatever the entry is, and no slash at the end of a name or a target that is cut
    off.
    """
    blocks = header.tobuf(tarfile.GNU_FORMAT, "utf-8", "surrogateescape")
    before, own = blocks[:-BLOCK], bytearray(blocks[-BLOCK:])
    target = header.linkname.encode("utf-8", "surrogateescape")
    if len(target) > MOST_OF_A_TARGET:
        size = BLOCK - (len(target) + 1) // -BLOCK * BLOCK
        before = before[size:] + before[:size]
        cut = target[:MOST_OF_A_TARGET].rstrip(b"/")
        if len(cut) < MOST_OF_A_TARGET:
            own[LINK + len(cut)] = 0
    if before and own[LAST_OF_NAME] == ord("/"):
        own[LAST_OF_NAME] = 0
    own[DEVICE], own[SUM] = NO_DEVICE, b" " * 8
    own[SUM] = b"%06o\0 " % sum(own)
    return before + own


def add(archive: BinaryIO, header: tarfile.TarInfo, content: BinaryIO) -> None:
    """Writes an entry: its header, its content, which has the header's size, and zeros up to the next block."""
    archive.write(blocks_of(header))
    shutil.copyfileobj(content, archive, PIECE)
    archive.write(bytes(-header.size % BLOCK))
