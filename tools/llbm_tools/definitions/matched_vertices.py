"""Finds the vertices of two definitions that do the same on inputs that match: `llbm show --matches`.

By the law `matched_vertices_end_alike` of the crate `llb_laws`, such vertices have the same plain outcome. The program
takes local sources of one name for the same; so sources are given the words of their trees as names first.
"""

import re
import tempfile
from collections.abc import Mapping

from llbm_tools.llb import definition, messages, op_reading
from llbm_tools.llb.ops import LOCAL
from llbm_tools.llb.program_questions import ask
from llbm_tools.llb.rewriting import changed, relinked, with_message, with_text
from llbm_tools.llb.wire import Record

IDENTIFIER = 1
SOURCE = messages.NUMBERS["Op"]["source"]
KINDS = frozenset(messages.NUMBERS["Op"][kind] for kind in ("exec", "source", "file", "build", "merge", "diff"))
DIGEST = "sha256:[0-9a-f]{64}"
LINE = re.compile(rf"([0-9]+) ({DIGEST}) matches (?:([0-9]+) ({DIGEST})|-)")

Words = Mapping[str, str]


class NotAccepted(Exception):
    """The program does not accept one of two definitions."""


def matches_of(old: bytes, new: bytes, program: str) -> dict[str, str]:
    """Returns the digest of the lowest vertex of the older definition that matches, by the digest of each of the newer
    one that has such a vertex."""
    with tempfile.NamedTemporaryFile(prefix="llbm-impact-") as file:
        file.write(old)
        file.flush()
        answer = ask(program, "show", "--matches", file.name, given=new)
    if answer.is_refused:
        raise NotAccepted
    found = [LINE.fullmatch(line) for line in answer.text.splitlines()]
    return {one[2]: one[4] for one in found if one and one[4]}


def with_name(entry: bytes, words: Words) -> bytes:
    """Returns an entry; a local source has the word of its name in place of it."""
    op = op_reading.read_op(entry)
    if op.source is None or not op.source.identifier.startswith(LOCAL):
        return entry
    identifier = LOCAL + words[op.source.identifier.removeprefix(LOCAL)]

    def named(records: list[Record]) -> list[Record]:
        """Returns the records of the op with another identifier."""
        return with_message(
            records, SOURCE, lambda held: changed(held, lambda one: with_text(one, IDENTIFIER, identifier)), KINDS
        )

    return changed(entry, named)


def with_names(entries: list[bytes], rows: list[int], words: Words) -> tuple[bytes, dict[str, str]]:
    """Returns a definition whose local sources have words in place of their names, and the new digest of each vertex.

    `rows` has the rows of its vertices. What these do not need is left out.
    """
    digests: dict[str, str] = {}
    made = []
    for row in rows:
        made.append(relinked(with_name(entries[row], words), digests))
        digests[definition.digest_of(entries[row])] = definition.digest_of(made[-1])
    return messages.definition_of([*made, relinked(entries[-1], digests)]), digests
