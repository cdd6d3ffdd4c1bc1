"""Symbolic links in the texts of trees, which have only directories and files.

A link is a file whose content is the byte 255, `-> ` and the target, as docs/FORMATS.md says. Tools with --links write
links so, and make links of such files; a file of theirs that begins so and is no link is refused.
"""

import os
from collections.abc import Callable

from llbm_tools.streams import Refused
from llbm_tools.trees.content_tokens import MARK
from llbm_tools.trees.trees import MOST_OF_AN_OWNER, Entry

MODE = 0o777
START = MARK + b"-> "
MOST_OF_A_TARGET = 4095

# Returns the content of a link in a text, by its target.
Contents = Callable[[bytes], bytes]


def content_of(target: bytes) -> bytes:
    """Returns the content of a link to a target."""
    return START + target


def is_target(target: bytes) -> bool:
    """Returns whether a link can lead to a target."""
    return 0 < len(target) <= MOST_OF_A_TARGET and b"\0" not in target


def target_of(content: bytes) -> bytes | None:
    """Returns the target of the link that a content is, or None."""
    target = content.removeprefix(START)
    return target if content.startswith(START) and is_target(target) else None


def check_content(start: bytes, path: str) -> None:
    """Refuses a file whose content begins as that of a link."""
    if start.startswith(START):
        raise Refused(f"a file whose content begins as that of a symbolic link: {path}")


def make(target: bytes, parent: int, name: bytes, entry: Entry, time: int | None) -> None:
    """Makes a link in an open directory, with the owner of its entry; a link has no mode of its own."""
    os.symlink(target, name, dir_fd=parent)
    if time is not None:
        os.utime(name, (time, time), dir_fd=parent, follow_symlinks=False)
    if os.geteuid() == 0:
        if MOST_OF_AN_OWNER in (entry.user, entry.group):
            raise OSError(None, "the system has no such owner")
        os.chown(name, entry.user, entry.group, dir_fd=parent, follow_symlinks=False)
