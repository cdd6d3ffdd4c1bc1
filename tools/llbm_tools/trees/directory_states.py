"""What shows that the entries of a directory have changed, as numbers of 64 bits: seven for each entry.

They are the mode, and of a file also the size, the times of change of its content and of its state (seconds and
nanoseconds each), and the inode; of others zeros. Python makes an object of a dozen numbers for each file that it looks
at, which takes longer than the call of the system. So the C library is called directly where its structure is known.
"""

import array
import functools
import os
import stat
from collections.abc import Callable

STATE = 7
BYTES = 8
SECOND = 1_000_000_000

# The structure `stat` of Linux on x86-64: its size, and the places of its fields in words of 64 bits.
SIZE = 144
INODE, LENGTH, TIMES = 1, 6, (11, 12, 13, 14)
MODE_OF_32_BITS = 6
NO_LINKS = 0x100
KIND, FILES = 0o170000, (stat.S_IFREG, stat.S_IFLNK)

State = tuple[int, ...]


def state_of(found: os.stat_result) -> State:
    """Returns the state of an entry."""
    mode = found.st_mode
    if mode & KIND not in FILES:
        return mode, *(0,) * (STATE - 1)
    modified, changed = divmod(found.st_mtime_ns, SECOND), divmod(found.st_ctime_ns, SECOND)
    return mode, found.st_size, *modified, *changed, found.st_ino


def words_of(data: bytes) -> "array.array[int]":
    """Returns the states of the structures of some entries."""
    words = array.array("q", data)
    modes = array.array("q", array.array("I", data)[MODE_OF_32_BITS :: SIZE // 4])
    states = array.array("q", bytes(STATE * BYTES * len(modes)))
    states[::STATE] = modes
    for column, field in enumerate((LENGTH, *TIMES, INODE), 1):
        states[column::STATE] = words[field :: SIZE // BYTES]
    if any(mode & KIND not in FILES for mode in set(modes)):
        for place, mode in enumerate(modes):
            if mode & KIND not in FILES:
                states[STATE * place + 1 : STATE * (place + 1)] = array.array("q", bytes(BYTES * (STATE - 1)))
    return states


@functools.cache
def c_call() -> Callable[[int, bytes, int, int], int] | None:
    """Returns the C library's call that looks at an entry of an open directory; None if its structure is not known."""
    # Only a build that is repeated looks at many entries: others need not import these.
    import ctypes
    import platform

    if platform.machine() != "x86_64" or platform.system() != "Linux":
        return None
    try:
        call = ctypes.CDLL(None).fstatat
    except (AttributeError, OSError):
        return None
    call.argtypes = [ctypes.c_int, ctypes.c_char_p, ctypes.c_void_p, ctypes.c_int]
    buffer = ctypes.create_string_buffer(SIZE)
    done = call(os.open("/", os.O_RDONLY | os.O_CLOEXEC), __file__.encode(), ctypes.addressof(buffer), NO_LINKS)
    same = done == 0 and tuple(words_of(buffer.raw)) == state_of(os.lstat(__file__))
    return call if same else None


def states_in(directory: int, names: list[bytes]) -> "array.array[int]":
    """Returns the states of entries of an open directory, in the order of their names."""
    call = c_call()
    if call is None:
        found = (os.stat(name, dir_fd=directory, follow_symlinks=False) for name in names)
        return array.array("q", (word for one in found for word in state_of(one)))
    import ctypes

    buffer = ctypes.create_string_buffer(SIZE * len(names))
    place = ctypes.addressof(buffer)
    for name in names:
        if call(directory, name, place, NO_LINKS):
            raise FileNotFoundError(name)
        place += SIZE
    return words_of(buffer.raw)
