"""Finds the vertices of a definition that read the same of two trees of a local source: `llbm show --agrees`.

By the law `reads_end_alike` of the crate `llb_laws`, such a vertex has the same plain outcome, whichever of them the
source has, if its other inputs have the same trees. Each content is given to the program as its digest.
"""

import contextlib
import re
import tempfile
from collections.abc import Iterator, Mapping
from typing import NamedTuple

from llbm_tools import inputs
from llbm_tools.definitions.matched_vertices import DIGEST
from llbm_tools.hashes import sha256
from llbm_tools.llb.program_questions import ask

LINE = re.compile(rf"[0-9]+ ({DIGEST}) agrees yes")


class Trees(NamedTuple):
    """The places of the two trees of a source."""

    before: str
    after: str


def trees_of(name: str, places: tuple[Mapping[str, str], Mapping[str, str]]) -> Trees | None:
    """Returns the places of a source's trees; None if one of them is not known, or can be read only once."""
    both = [given[name] for given in places if name in given]
    # What can be read only once was read for its digest.
    return None if len(both) < len(places) or any(map(inputs.is_pipe, both)) else Trees(*both)


@contextlib.contextmanager
def short_text(place: str) -> Iterator[str]:
    """Yields a file with the text of the tree at a place, which has the digest of each content in its place."""
    # Most definitions are compared without trees, and need not import what reads them.
    from llbm_tools.trees.source_texts import Reading, text_at
    from llbm_tools.trees.trees import checked_at, line_start, path_of

    with tempfile.NamedTemporaryFile(prefix="llbm-impact-") as file, text_at(place, Reading(quiet=True)) as text:
        for line, entry in checked_at(inputs.shown(place), text):
            if not entry.content:
                file.write(line)
                continue
            digest = sha256(entry.content).hexdigest().encode()
            start = line_start(b"f", entry.mode, (entry.user, entry.group))
            file.write(start + digest + b" %b\n" % path_of(entry.names))
        file.flush()
        yield file.name


def agreed(data: bytes, word: str, trees: Trees, program: str) -> frozenset[str]:
    """Returns the digests of the vertices that read the same of the source with this name, whichever tree it has.

    The definition is one that the program accepts. Of trees whose texts are too long for it nothing is known.
    """
    with short_text(trees.before) as before, short_text(trees.after) as after:
        answer = ask(program, "show", "--agrees", after, "--older", f"{word}={before}", given=data)
    if answer.is_refused:
        return frozenset()
    found = [LINE.fullmatch(line) for line in answer.text.splitlines()]
    return frozenset(one[1] for one in found if one)
