"""Writes a result whose contents are tokens as a directory, whose files several processes write."""

import itertools
import os
import select
import signal
from collections.abc import Iterable, Iterator
from typing import NamedTuple

from llbm_tools.building.entry_writing import Files, finish_directories, make_directories
from llbm_tools.building.result_texts import Checked, Part, lines_in
from llbm_tools.streams import FAILED, PIECE, REFUSED, Failed, Refused
from llbm_tools.trees.content_tokens import Copier, Table, write_all

MOST_WORKERS = 8
FILES_OF_A_WORKER = 1000
SIGNALS = (signal.SIGINT, signal.SIGTERM, signal.SIGHUP)
END = b"\n"


def workers_for(files: int) -> int:
    """Returns how many processes write this many files."""
    return max(1, min(len(os.sched_getaffinity(0)), MOST_WORKERS, files // FILES_OF_A_WORKER))


class Worker(NamedTuple):
    """A process that writes files, and the pipe on which it says why it ended: an empty text if all is well."""

    process: int
    report: int


class Crew:
    """Processes that write the parts of a text; each takes the next part that none has taken."""

    def __init__(self, text: str, root: int, table: Table | None, parts: list[Part], time: int | None) -> None:
        self.time = time
        self.text = text
        self.root = root
        self.table = table
        self.parts = parts
        self.numbers: Iterable[int] = itertools.count()
        self.workers: list[Worker] = []

    def share(self) -> None:
        """Lets all processes that are started take parts."""
        # Small results are written by one process, which does not need these modules.
        from llbm_tools.building.shared_counter import SharedCounter

        self.numbers = SharedCounter().numbers()

    def taken(self) -> Iterator[Part]:
        """Yields the parts that this process takes."""
        for number in self.numbers:
            if number >= len(self.parts):
                return
            yield self.parts[number]

    def work(self) -> None:
        """Writes parts until there are no more."""
        with open(self.text, "rb") as text:
            files = Files(self.root, self.table, self.time)
            for part in self.taken():
                files.write(text, part)
            files.close()

    def ended(self) -> str:
        """Does the work, and returns why it ended: the digit of a status and a message, or nothing."""
        try:
            self.work()
            return ""
        except Refused as fault:
            return f"{REFUSED}{fault}"
        except Failed as fault:
            return f"{FAILED}{fault}"
        except MemoryError:
            return f"{FAILED}out of memory"

    def start(self) -> None:
        """Starts a process. Signals are blocked meanwhile, and it ends by SIGTERM alone."""
        report, sender = os.pipe()
        process = os.fork()
        if process:
            os.close(sender)
            self.workers.append(Worker(process, report))
            return
        status = 1
        try:
            for number in SIGNALS:
                signal.signal(number, signal.SIG_DFL if number == signal.SIGTERM else signal.SIG_IGN)
            signal.pthread_sigmask(signal.SIG_UNBLOCK, SIGNALS)
            write_all(sender, self.ended().encode("utf-8", "surrogateescape") + END)
            status = 0
        finally:
            os._exit(status)

    def wait(self) -> None:
        """Waits for all processes; the first refusal or failure is raised."""
        reports = {worker.report: b"" for worker in self.workers}
        left = set(reports)
        while left:
            for report in select.select(left, [], [])[0]:
                piece = os.read(report, PIECE)
                reports[report] += piece
                if not piece:
                    left.remove(report)
                    check_report(reports[report])

    def end(self) -> None:
        """Stops the processes that are still running."""
        while self.workers:
            process, report = self.workers[-1]
            os.kill(process, signal.SIGTERM)
            os.waitpid(process, 0)
            os.close(report)
            self.workers.pop()


def check_report(report: bytes) -> None:
    """Raises what the report of a process says."""
    text = report.decode("utf-8", "surrogateescape")
    if not report.endswith(END):
        raise Failed("a process that writes files ended early")
    if text[:-1]:
        raise (Refused if text[0] == str(REFUSED) else Failed)(text[1:-1])


class DirectoryWriter:
    """Writes the text of a result as a directory that exists and is empty; without a table it has no tokens."""

    def __init__(
        self, text: str, directory: str, table: Table | None, time: int | None, most: int | None = None
    ) -> None:
        self.time = time
        self.text = text
        self.directory = directory
        self.table = table
        self.most = most
        self.crew: Crew | None = None

    def write(self) -> None:
        """Writes the whole result; the text is checked before, and refused if its contents have more than `most`."""
        checked = Checked(Copier(self.table).size, self.most)
        with open(self.text, "rb") as text:
            checked.read(text)
        root = os.open(self.directory, os.O_RDONLY | os.O_CLOEXEC | os.O_DIRECTORY)
        mask = os.umask(0o077)
        try:
            make_directories(root, checked.directories)
            self.write_files(root, checked)
            finish_directories(root, checked.directories, self.time)
        finally:
            os.umask(mask)
            os.close(root)

    def write_files(self, root: int, checked: Checked) -> None:
        """Writes the files, in this process if they are few."""
        self.crew = Crew(self.text, root, self.table, checked.parts, self.time)
        count = workers_for(checked.files)
        if count == 1:
            self.crew.work()
            return
        self.crew.share()
        before = signal.pthread_sigmask(signal.SIG_BLOCK, SIGNALS)
        try:
            for _ in range(count):
                self.crew.start()
        finally:
            signal.pthread_sigmask(signal.SIG_SETMASK, before)
        self.crew.wait()

    def end(self) -> None:
        """Stops the processes that are still running."""
        if self.crew:
            self.crew.end()
