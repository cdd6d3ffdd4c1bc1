"""Rewrites a definition so that BuildKit and llbm agree on it, as far as that is possible."""

import base64
import tempfile
from collections.abc import Callable, Mapping
from typing import NamedTuple

from llbm_tools.rules import rules_program
from llbm_tools.trees.source_files import source_words

Say = Callable[[str], None]


class Rewritten(NamedTuple):
    """The rewritten definition, and the changes by row, in words."""

    data: bytes
    changes: dict[int, list[str]]


def rewritten(data: bytes, sources: Mapping[str, str], say: Say) -> Rewritten:
    """Returns a definition rewritten, given paths of trees of local sources by name: with them also what depends on
    trees is rewritten."""
    with tempfile.TemporaryDirectory(prefix="llbm-rewriting-") as folder:
        *rows, last = rules_program.answers("rewrite", *source_words(sources, folder, say), given=data)
    return Rewritten(base64.b64decode(last["definition"]), {row["row"]: row["changes"] for row in rows})
