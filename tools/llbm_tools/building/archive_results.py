"""Writes a result whose contents are tokens as an archive that is not packed."""

import binascii
from typing import BinaryIO

from llbm_tools.building.entry_writing import entry_at, not_written
from llbm_tools.building.result_texts import Checked, Line, lines_in
from llbm_tools.images.archive_writing import BLOCK, END, blocks_of
from llbm_tools.trees.content_tokens import Copier, Table, write_all
from llbm_tools.trees.tar_of_tree import header_of


def write_archive(text: str, place: str, table: Table | None, time: int, most: int | None = None) -> None:
    """Writes the text of a result as a new plain archive, the same as `tree to tar`; the text is checked before."""
    copier = Copier(table)
    with open(text, "rb") as lines:
        checked = Checked(copier.size, most)
        checked.read(lines)
        with open(place, "xb", buffering=0) as archive:
            for part in checked.parts:
                for line in lines_in(lines, part):
                    try:
                        write_member(line, archive, copier, time)
                    except OSError as fault:
                        raise not_written(line.path, fault) from fault
            write_all(archive.fileno(), END)
    copier.close()


def write_member(line: Line, archive: BinaryIO, copier: Copier, time: int) -> None:
    """Writes an entry of an archive: its header, its content, and zeros up to the next block."""
    content = binascii.unhexlify(line.content or b"")
    target = copier.target(content)
    header = header_of(entry_at(line), time, target)
    header.size = copier.size(content)
    write_all(archive.fileno(), blocks_of(header))
    if target is None:
        copier.copy(content, archive.fileno())
    write_all(archive.fileno(), bytes(-header.size % BLOCK))
