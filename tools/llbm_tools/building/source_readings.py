"""What is read of the sources of a build for the next one, and which contents of two builds are the same."""

import binascii
import os

from llbm_tools.building.build_requests import Named
from llbm_tools.building.given_sources import Given
from llbm_tools.building.kept_builds import Build, File, digest_of_file, state_at
from llbm_tools.hashes import sha256
from llbm_tools.streams import Refused
from llbm_tools.trees import links, source_texts
from llbm_tools.trees.content_tokens import PIECE, Table, pieces_of, read_part
from llbm_tools.trees.kept_sources import Hidden, Kept, Recorder


def recorder_of(last: Build | None, number: int) -> Recorder:
    """Returns what records the reading of a source that is a directory."""
    before = last.sources[number] if last else None
    return Recorder(before, before.young(last.began)) if last and isinstance(before, Kept) else Recorder(None, [])


def recorders_of(last: Build | None, sources: list[Named]) -> list[Recorder | None]:
    """Returns what records the reading of each source, or None for one that is no directory."""
    kinds = [source_texts.kind_of(source.place) for source in sources]
    return [recorder_of(last, number) if kind == source_texts.DIRECTORY else None for number, kind in enumerate(kinds)]


def kept_of(last: Build | None, given: Given, hidden: Hidden) -> list[Kept | File]:
    """Returns what is kept of the sources: what was recorded, and the states and digests of all others."""
    found: list[Kept | File] = []
    for number, (source, record, state) in enumerate(zip(given.sources, given.records, given.states)):
        if record is None and os.path.isdir(source.place):
            record = recorder_of(last, number)
            record.scan(os.open(source.place, os.O_RDONLY), b"", hidden)
        if record:
            found.append(record.kept())
            continue
        found.append(File(state, digest_of_file(source.place)))
        if state_at(source.place) != state:
            raise Refused(f"changed during the build: {source.shown}")
    return found


def digests_of(build: Build) -> dict[int, bytes]:
    """Returns the digests of contents by their tokens."""
    found = {number: bytes.fromhex(digest) for number, digest in build.others.items()}
    for kept in build.sources:
        if isinstance(kept, Kept):
            found |= {number: kept.digest(place) for place, number in enumerate(kept.numbers) if number >= 0}
    return found


def resolved(content: bytes, digests: dict[int, bytes]) -> list[tuple[bool, bytes]]:
    """Returns the pieces of a content of a result's text: literal bytes, and the digests of what its tokens are for."""
    pieces = pieces_of(binascii.unhexlify(content))
    return [(False, one) if isinstance(one, bytes) else (True, digests.get(one, b"")) for one in pieces]


def other_digests(table: Table) -> dict[int, str]:
    """Returns the digests of the contents that are parts of archives, and of symbolic links, by their tokens."""
    found = {number: sha256(links.content_of(target)).hexdigest() for number, target in table.targets.items()}
    for number, holder in enumerate(table.holders):
        if holder < 0:
            digest = sha256()
            for start in range(0, table.sizes[number], PIECE):
                size = min(PIECE, table.sizes[number] - start)
                digest.update(read_part(table.archives[-1 - holder].descriptor, table.starts[number] + start, size))
            found[number] = digest.hexdigest()
    return found
