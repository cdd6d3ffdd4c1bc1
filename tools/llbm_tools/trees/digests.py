"""Computes the digest of a tree, as the program's `tree_digest` does: the SHA-256 of its text."""

import hashlib

from llbm_tools import inputs
from llbm_tools.trees.source_texts import Reading, text_at
from llbm_tools.trees.trees import checked_at


def tree_digest(place: str) -> str:
    """Returns the digest of the tree in a directory, in an archive, in an image or in a file with its text."""
    digest = hashlib.sha256()
    with text_at(place, Reading(quiet=True)) as text:
        for line, _ in checked_at(inputs.shown(place), text):
            digest.update(line)
    return f"sha256:{digest.hexdigest()}"
