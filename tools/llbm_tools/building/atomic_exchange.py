"""Puts a new file or directory in the place of an old one in one step, where the kernel and the file system can."""

import errno
import os
from collections.abc import Callable

EXCHANGE = 2
HERE = -100
UNABLE = (errno.ENOSYS, errno.EINVAL, errno.ENOTSUP)


def kernel_call() -> Callable[..., int] | None:
    """Returns the call of the C library that exchanges two paths, or None if there is none."""
    # Most results are new: their builds need not import this.
    import ctypes

    try:
        return ctypes.CDLL(None, use_errno=True).renameat2
    except (AttributeError, OSError):
        return None


def exchange(new: str, old: str) -> bool:
    """Exchanges two paths, and returns whether this was one step.

    Where the kernel or the file system can't, the old one is moved beside the new one first, in a second step.
    """
    import ctypes

    call = kernel_call()
    if call and call(HERE, os.fsencode(new), HERE, os.fsencode(old), EXCHANGE) == 0:
        return True
    number = ctypes.get_errno() if call else errno.ENOSYS
    if number not in UNABLE:
        raise OSError(number, os.strerror(number), old)
    aside = f"{new}.old"
    os.rename(old, aside)
    try:
        os.rename(new, old)
    except OSError:
        os.rename(aside, old)
        raise
    os.rename(aside, new)
    return False
