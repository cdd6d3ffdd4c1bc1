"""Extended attributes of files and directories, which no tree has."""

import errno
import os

LABELS = {"security.selinux"}
NO_ATTRIBUTES = (errno.ENOTSUP, errno.ENOSYS)


def attributes_of(place: int | bytes) -> list[str]:
    """Returns the extended attributes of an open file or directory, or of one at a path, which may be a link.

    The label that a system puts on every file is not one of them.
    """
    try:
        found = os.listxattr(place) if isinstance(place, int) else os.listxattr(place, follow_symlinks=False)
    except OSError as fault:
        if fault.errno in NO_ATTRIBUTES:
            return []
        raise
    return sorted(set(found) - LABELS)


def path_in(directory: int, name: bytes) -> bytes:
    """Returns a path of a name in an open directory, for calls that take no descriptor of it."""
    return b"/proc/self/fd/%d/%b" % (directory, name)
