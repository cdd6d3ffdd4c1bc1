"""SHA-256 for tools that may do without it: Python's module loads a library, so it is imported at its first use."""

from typing import TYPE_CHECKING

if TYPE_CHECKING:
    import hashlib


def sha256(data: bytes = b"") -> "hashlib._Hash":
    """Returns a digest that has begun with some bytes."""
    import hashlib

    return hashlib.sha256(data)
