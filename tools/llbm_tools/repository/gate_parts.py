"""Parts of the gate: commands that are run, one after another or beside each other, with one line for each.

The line of a part has its counts and its processor time, that of all processes that it started and waited for. What it
printed is shown below the line if it failed; lines of expected failures are left out of that.
"""

import os
import pathlib
import re
import subprocess
import sys
import tempfile
import time
from collections.abc import Callable, Iterable, Iterator
from typing import IO, NamedTuple

from llbm_tools import counts as counting
from llbm_tools.common import shortened
from llbm_tools.counts import Counts
from llbm_tools.os_errors import os_error_text
from llbm_tools.paths import ROOT

PAUSE = 0.2
MINUTE = 60
# How many characters of a command its line has.
MOST_SHOWN = 100
# What the address sanitizer says of memory that a test wants refused.
EXPECTED = re.compile(r"==[0-9]+==WARNING: AddressSanitizer failed to allocate .*")


class Part(NamedTuple):
    """A command, the folder that it runs in, and what is set in its environment."""

    command: list[str]
    folder: pathlib.Path = ROOT
    settings: tuple[tuple[str, str], ...] = ()

    def shown(self) -> str:
        """Returns the part as one line."""
        words = self.command[1:] if self.command[0] == sys.executable else self.command
        line = " ".join(os.path.relpath(word, ROOT) if word.startswith(str(ROOT)) else word for word in words)
        return line if self.folder == ROOT else f"(cd {os.path.relpath(self.folder, ROOT)} && {line})"

    def start(self, out: int) -> subprocess.Popen[bytes]:
        """Starts the part, with all its output to one stream; what the environment has goes before its settings."""
        return subprocess.Popen(
            self.command, cwd=self.folder, env={**dict(self.settings), **os.environ}, stdin=subprocess.DEVNULL,
            stdout=out, stderr=subprocess.STDOUT,
        )  # fmt: skip


class Ended(NamedTuple):
    """How a part ended: its exit status, the seconds that it used of the processors, and what it printed."""

    status: int
    seconds: float
    lines: list[str]

    def counts(self) -> Counts:
        """Returns the counts of the part, from its last line with counts; a nonzero status is always a failure."""
        found = [counts for line in self.lines if (counts := counting.read(line))]
        counts = found[-1] if found else Counts(int(self.status == 0))
        return counts._replace(failed=max(counts.failed, 1)) if self.status else counts


def text_of(line: bytes) -> str:
    """Returns a line of output as text."""
    return line.decode("utf-8", "backslashreplace").rstrip("\n")


def end_of(child: subprocess.Popen[bytes], block: bool) -> tuple[int, float] | None:
    """Waits for the end of a process, or looks whether it has ended; returns its exit status and its seconds."""
    number, status, usage = os.wait4(child.pid, 0 if block else os.WNOHANG)
    if not number:
        return None
    child.returncode = os.waitstatus_to_exitcode(status)
    return child.returncode, usage.ru_utime + usage.ru_stime


def tell(part: Part, ended: Ended, shown: bool) -> Counts:
    """Prints the line of a part, and what it printed if it failed and that is not shown yet; returns its counts."""
    counts, command = ended.counts(), shortened(part.shown(), MOST_SHOWN)
    print(f"{command}: {counts.line()} ({ended.seconds / MINUTE:.2f} processor minutes)", flush=True)
    for line in ended.lines if counts.failed and not shown else ():
        if not EXPECTED.fullmatch(line):
            print(f"    {line}", flush=True)
    return counts


def not_started(part: Part, fault: OSError) -> Counts:
    """Prints why a part did not start, and returns its counts."""
    return tell(part, Ended(1, 0.0, [os_error_text(fault)]), False)


def lines_of(child: subprocess.Popen[bytes], shown: bool) -> Iterator[str]:
    """Yields what a process prints, line by line, and prints it if it is to be shown."""
    for line in child.stdout or ():
        text = text_of(line)
        if shown:
            print(text, flush=True)
        yield text


def run(part: Part, shown: bool = False, watch: Callable[[int], None] = lambda process: None) -> Counts:
    """Runs a part, prints its line, and returns its counts; what the part prints is shown at once if it is to be.

    `watch` is called with the number of the part's process when that has started.
    """
    try:
        child = part.start(subprocess.PIPE)
    except OSError as fault:
        return not_started(part, fault)
    with child:
        watch(child.pid)
        try:
            lines = list(lines_of(child, shown))
            status, seconds = end_of(child, True) or (0, 0.0)
        except KeyboardInterrupt:
            child.terminate()
            raise
    return tell(part, Ended(status, seconds, lines), shown)


class Running(NamedTuple):
    """A part that runs beside others: its process, and the file of its output."""

    part: Part
    child: subprocess.Popen[bytes]
    out: IO[bytes]

    def look(self) -> Counts | None:
        """Returns the counts of the part if it has ended, and prints its line then."""
        ended = end_of(self.child, False)
        if ended is None:
            return None
        self.out.seek(0)
        lines = [text_of(line) for line in self.out]
        self.out.close()
        return tell(self.part, Ended(*ended, lines), False)


def run_together(parts: Iterable[Part], jobs: int) -> Iterator[Counts]:
    """Runs parts, at most this many at a time, and yields their counts as they end; their lines are printed then."""
    waiting = list(parts)
    running: list[Running] = []
    try:
        while waiting or running:
            while waiting and len(running) < jobs:
                part, out = waiting.pop(0), tempfile.TemporaryFile()
                try:
                    running.append(Running(part, part.start(out.fileno()), out))
                except OSError as fault:
                    yield not_started(part, fault)
            each = [(one, one.look()) for one in running]
            running = [one for one, counts in each if counts is None]
            yield from (counts for _, counts in each if counts is not None)
            time.sleep(PAUSE)
    finally:
        for one in running:
            one.child.terminate()
