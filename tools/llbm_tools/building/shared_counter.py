"""A counter that processes share: each takes the next number, which no other process has taken."""

import mmap
import multiprocessing
from collections.abc import Iterator


class SharedCounter:
    """The counter, for this process and those that it starts by a fork."""

    def __init__(self) -> None:
        self.next = mmap.mmap(-1, mmap.PAGESIZE)
        self.lock = multiprocessing.Lock()

    def numbers(self) -> Iterator[int]:
        """Yields the numbers that this process takes."""
        while True:
            with self.lock:
                number = int.from_bytes(self.next[:8], "little")
                self.next[:8] = (number + 1).to_bytes(8, "little")
            yield number
