"""The folders that a build makes and removes, and those that a build left which was killed.

A folder gets the name that a build's folders have once it is locked; the kernel ends the lock with the last process
that holds it, however that ends. So a folder of this name that can be locked is used by nobody.
"""

import contextlib
import fcntl
import os
import re
import tempfile

from llbm_tools.building import child_processes
from llbm_tools.common import say
from llbm_tools.streams import of_place

# The folder of the texts, in TMPDIR, and the one that becomes the result, beside it; and their names at first.
TEXTS, RESULT = "llbm-build-", ".llbm-build-"
BEGUN = "llbm-begun-"
NAME = r"[a-z0-9_]{8}"
OPEN = os.O_RDONLY | os.O_DIRECTORY | os.O_NOFOLLOW | os.O_CLOEXEC


def made(prefix: str, above: str) -> str:
    """Returns a new folder, which is locked until this process ends; where the file system has no locks it is not."""
    try:
        begun = tempfile.mkdtemp(prefix=f"{prefix.partition('llbm')[0]}{BEGUN}", dir=above)
    except OSError as fault:
        raise of_place(fault, above) from fault
    descriptor = os.open(begun, OPEN)
    with contextlib.suppress(OSError):
        fcntl.flock(descriptor, fcntl.LOCK_EX)
    folder = os.path.join(above, prefix + begun[-8:])
    os.rename(begun, folder)
    return folder


def is_left(folder: str) -> bool:
    """Returns whether a folder is this user's and nobody's who runs."""
    try:
        descriptor = os.open(folder, OPEN)
    except OSError:
        return False
    try:
        fcntl.flock(descriptor, fcntl.LOCK_EX | fcntl.LOCK_NB)
        return os.fstat(descriptor).st_uid == os.geteuid()
    except OSError:
        return False
    finally:
        os.close(descriptor)


def remove_left(prefix: str, above: str) -> None:
    """Removes what builds have left in a folder that did not end by themselves, and says so."""
    left = re.compile(re.escape(prefix) + NAME)
    with contextlib.suppress(OSError):
        for name in sorted(os.listdir(above)):
            folder = os.path.join(above, name)
            if left.fullmatch(name) and is_left(folder):
                child_processes.remove(folder)
                say(f"removed what a build left that was killed: {folder}")
