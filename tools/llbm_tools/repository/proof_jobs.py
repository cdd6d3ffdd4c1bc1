"""How many proofs run at a time: one on each processor, as many as the free memory holds."""

import os
import pathlib
import re
from collections.abc import Iterator

MEMORY = pathlib.Path("/proc/meminfo")
FREE = r"MemAvailable: +([0-9]+) kB"
KILO = 1024
# What a check may take of the memory, in bytes (`llb_refusals`, its tests: 4.96 GB), and what one of them takes more
# (`llb_examples`, its tests: 6.4 GB).
CHECK = 5_000_000_000
MORE = 1_500_000_000
# In both versions of control groups: the files with the limit of the memory and with what is in use, and with how long
# the processors may be used in a period.
GROUPS = pathlib.Path("/sys/fs/cgroup")
LIMITS = [
    (("memory.max", r"^([0-9]+)"), ("memory.stat", r"^anon ([0-9]+)")),
    (("memory/memory.limit_in_bytes", r"^([0-9]+)"), ("memory/memory.stat", r"^total_rss ([0-9]+)")),
]
QUOTAS = [
    (("cpu.max", r"^([0-9]+)"), ("cpu.max", r" ([0-9]+)")),
    (("cpu/cpu.cfs_quota_us", r"^([0-9]+)"), ("cpu/cpu.cfs_period_us", r"^([0-9]+)")),
]


def number_in(path: pathlib.Path, pattern: str) -> int | None:
    """Returns the number that a pattern finds in a file, if there is one."""
    try:
        found = re.search(pattern, path.read_text("utf-8"), re.M)
    except OSError:
        return None
    return int(found[1]) if found else None


def numbers_of_group(rows: list[tuple[tuple[str, str], tuple[str, str]]]) -> Iterator[tuple[int, int]]:
    """Yields the two numbers of each row that the control group of this process has."""
    for row in rows:
        one, other = (number_in(GROUPS / name, pattern) for name, pattern in row)
        if one is not None and other is not None:
            yield one, other


def checks_at_once() -> int:
    """Returns how many checks to run at a time: one on each processor, as many as the free memory holds."""
    quotas = (quota // period for quota, period in numbers_of_group(QUOTAS) if period)
    processors = min([len(os.sched_getaffinity(0)), *quotas])
    free = [limit - used for limit, used in numbers_of_group(LIMITS)]
    machine = number_in(MEMORY, FREE)
    if machine is not None:
        free.append(KILO * machine)
    return max(1, min([processors, *((size - MORE) // CHECK for size in free)]))
