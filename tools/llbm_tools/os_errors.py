"""Words for failed calls of the system: what is wrong first, then the file."""

import errno
import os

# What is wrong with a file that was named wrongly; all other errors are failures of the system.
WRONGLY_NAMED = {
    errno.ENOENT: "there is no such file or directory",
    errno.ENOTDIR: "not a directory",
    errno.EISDIR: "is a directory",
    errno.EACCES: "permission denied",
    errno.EPERM: "not permitted",
    errno.ELOOP: "too many symbolic links",
    errno.ENAMETOOLONG: "the name is too long",
    errno.ENXIO: "not a file that can be read or written",
}


def in_words(fault: OSError) -> str:
    """Returns why a call of the system failed."""
    return WRONGLY_NAMED.get(fault.errno or 0, fault.strerror or str(fault))


def os_error_text(fault: OSError) -> str:
    """Returns a failed call as one line: what is wrong, and the file if the call names one."""
    if fault.errno is None:
        return fault.strerror or str(fault)
    if fault.filename is None or isinstance(fault.filename, int):
        return f"a read or a write failed: {fault.strerror}"
    return f"{in_words(fault)}: {os.fsdecode(fault.filename)}"
