"""Measures llbmd beside BuildKit's own daemon: the same builds, one after the other on both.

In: the daemon out/llbmd with `buildctl` and the frontend for Dockerfiles beside it, as `dev/dev daemon --clients`
leaves them, the program --llbm PROGRAM or that of the repository, and Debian's packages in the cache folder, or
--packages FOLDER, from which BuildKit's daemon is built, and of which docker-buildx is one; only root can run that
daemon, and as another user llbmd is measured alone. Both daemons keep their state below --folder FOLDER, which is best
in memory (/dev/shm), or else below a temporary folder. Each build is done --runs N times (5 by default), in turn on
each daemon, with --no-cache and an export into a new local directory; between runs both daemons are pruned. --part N
makes all counts of files N times smaller. The builds are these, or only those named NAME ..:

- `mkfile`: one file;
- `merge`: a merge of 20 vertices that make a file each;
- `chain`: 200 file ops, each on the one before;
- `files`: a copy of a local directory with 10,000 files that the daemon has not seen;
- `many`: the same with 100,000 files;
- `changed`: the directory of `many` again, with one file changed since both daemons had it;
- `together`: 20 builds at once, of one file each.

The client is `buildctl`, and docker-buildx with a Dockerfile for `changed`: its sessions have a shared key, and without
one llbmd reads each file again.

Out: a line on standard error for each build, and then on standard output a line that names the program, and a table in
Markdown: for both daemons the least and the median of the seconds, and the ratio of the least; and the most memory that
each daemon and its processes had during a build of each kind, in megabytes (sampled ten times a second). The program
without proof is compiled without optimization and has checks, so on large trees it takes hundreds of times as long as
the proved one, with which the daemons are to be compared.

Exit status: 0 the table is written; 1 a build failed, or BuildKit's daemon was not built; 2 the command line is
refused, or a program or the packages are not there; 3 a read or a write failed.
"""

import argparse
import contextlib
import os
import pathlib
import re
import shutil
import statistics
import subprocess
import tempfile
import threading
import time
from collections.abc import Iterator
from typing import NamedTuple

from llbm_tools import common
from llbm_tools.command_line import Parser
from llbm_tools.daemon import buildkitd, daemon, runs, debian_packages, go_building, started_daemon
from llbm_tools.daemon.go_building import OUT
from llbm_tools.llb.messages import definition_of, edge, encoded, made
from llbm_tools.measuring import large_definition
from llbm_tools.measuring.large_definition import file_op, mkfile
from llbm_tools.measuring.measure import RUNS, number
from llbm_tools.streams import Refused, exit_status, program_at

OURS, THEIRS = "llbmd", "buildkitd"
FILES_OF_DIRECTORY = 100
FILES = {"files": 10_000, "many": 100_000}
DOCKERFILE = b"FROM scratch\nCOPY . /out/\n"
FRONTEND = OUT / "dockerfile-frontend"
NAMES = ["mkfile", "merge", "chain", "together", *FILES]
PATIENCE = 900
PERIOD = 0.1
PAGE = os.sysconf("SC_PAGE_SIZE")


class Failed(Exception):
    """A build failed; the argument is what it printed."""


class Daemon(NamedTuple):
    """A daemon that runs: its name, its address, and its process."""

    name: str
    address: str
    process: int


class Cost(NamedTuple):
    """The seconds of a build, and the most memory of the daemon and its processes meanwhile, in megabytes."""

    seconds: float
    memory: float


def ending(entries: list[bytes]) -> bytes:
    """Returns the definition whose result is the last entry."""
    return definition_of([*entries, encoded(made("Op", inputs=(edge(entries[-1]),)))])


def one_file(content: bytes) -> bytes:
    """Returns the definition of one file."""
    return ending([file_op([], mkfile("/a", content))])


def merge_of(count: int) -> bytes:
    """Returns the definition of a merge of vertices that make a file each."""
    parts = [file_op([], mkfile(f"/f{place}", b"%d" % place)) for place in range(count)]
    return ending([*parts, large_definition.merge(parts)])


def chain_of(count: int) -> bytes:
    """Returns the definition of file ops that each make a file on the one before."""
    entries: list[bytes] = []
    for place in range(count):
        entries.append(file_op(entries[-1:], mkfile(f"/f{place}", b"%d" % place, on=0 if place else -1)))
    return ending(entries)


def copy_of(name: str) -> bytes:
    """Returns the definition of a copy of a local source."""
    values = made(
        "FileActionCopy", src="/", dest="/out", mode=-1, dirCopyContents=True, createDestPath=True, timestamp=-1
    )
    given = [large_definition.source(name)]
    action = made("FileAction", input=-1, secondaryInput=0, copy=values)
    return ending([*given, file_op(given, action)])


def make_files(folder: pathlib.Path, count: int) -> None:
    """Makes a directory with this many small files, 100 in each directory."""
    for place in range(count):
        at = folder / f"d{place // FILES_OF_DIRECTORY:04}"
        if place % FILES_OF_DIRECTORY == 0:
            at.mkdir(parents=True)
        (at / f"f{place % FILES_OF_DIRECTORY:02}").write_text(f"{place}\n" * 3, "utf-8")


def processes_of(process: int) -> Iterator[int]:
    """Yields a process and all that it started."""
    yield process
    with contextlib.suppress(OSError):
        for task in os.listdir(f"/proc/{process}/task"):
            for child in pathlib.Path(f"/proc/{process}/task/{task}/children").read_text("utf-8").split():
                yield from processes_of(int(child))


def memory_of(process: int) -> float:
    """Returns the memory of a process and of all that it started, in megabytes."""
    pages = 0
    for one in processes_of(process):
        with contextlib.suppress(OSError):
            pages += int(pathlib.Path(f"/proc/{one}/statm").read_text("utf-8").split()[1])
    return pages * PAGE / 1e6


class Sampler(threading.Thread):
    """Samples the memory of a daemon until it is stopped."""

    def __init__(self, process: int) -> None:
        super().__init__(daemon=True)
        self.process = process
        self.most = 0.0
        self.ended = threading.Event()

    def run(self) -> None:
        """Samples."""
        while True:
            self.most = max(self.most, memory_of(self.process))
            if self.ended.wait(PERIOD):
                return


def by_buildctl(one: Daemon, *local: str) -> list[str]:
    """Returns the words of a build of the definition on standard input."""
    return [str(OUT / "buildctl"), "--addr", one.address, "build", "--no-cache", "--progress=plain", *local]


def by_buildx(program: str, one: Daemon, context: pathlib.Path) -> list[str]:
    """Returns the words of a build of the Dockerfile on standard input, by a builder with the daemon's name."""
    words = [program, "build", "--builder", one.name, "--no-cache", "--progress=plain", "--provenance=false"]
    return [*words, "--file=-", str(context)]


def cost_of(one: Daemon, folder: pathlib.Path, words: list[str], given: list[bytes]) -> Cost:
    """Builds what is given, at the same time and each into a new directory, and returns the cost."""
    outs = [folder / f"result-{place}" for place in range(len(given))]
    for out in outs:
        shutil.rmtree(out, ignore_errors=True)
    known = {**os.environ, "BUILDX_CONFIG": str(folder / "buildx")}
    sampler = Sampler(one.process)
    sampler.start()
    start = time.monotonic()
    builds = [
        subprocess.Popen(
            [*words, f"--output=type=local,dest={out}"],
            env=known, stdin=subprocess.PIPE, stdout=subprocess.DEVNULL, stderr=subprocess.PIPE,
        )
        for out in outs
    ]  # fmt: skip
    for build, text in zip(builds, given):
        assert build.stdin is not None
        build.stdin.write(text)
        build.stdin.close()
        build.stdin = None
    printed = [build.communicate(timeout=PATIENCE)[1] for build in builds]
    seconds = time.monotonic() - start
    sampler.ended.set()
    sampler.join()
    for build, said, out in zip(builds, printed, outs):
        if build.returncode:
            raise Failed(f"a build failed: {one.name}: {said.decode('utf-8', 'replace')[-500:]}")
        shutil.rmtree(out)
    return Cost(seconds, sampler.most)


class Trial:
    """Measures both daemons below a folder."""

    def __init__(self, daemons: list[Daemon], folder: pathlib.Path, part: int, buildx: str) -> None:
        self.daemons, self.folder, self.part, self.buildx = daemons, folder, part, buildx
        self.costs: dict[str, dict[str, list[Cost]]] = {}

    def add(self, case: str, one: Daemon, definitions: list[bytes], *local: str) -> None:
        """Builds definitions by `buildctl`, and notes the cost."""
        self.note(case, one, cost_of(one, self.folder, by_buildctl(one, *local), definitions))

    def note(self, case: str, one: Daemon, cost: Cost) -> None:
        """Notes a cost."""
        self.costs.setdefault(case, {}).setdefault(one.name, []).append(cost)
        common.say(f"{case} {one.name}: {cost.seconds:.2f} s, {cost.memory:.0f} MB, load {os.getloadavg()[0]:.0f}")

    def prune(self, one: Daemon) -> None:
        """Empties what a daemon keeps."""
        words = [str(OUT / "buildctl"), "--addr", one.address, "prune", "--all"]
        subprocess.run(words, stdin=subprocess.DEVNULL, stdout=subprocess.DEVNULL, check=True)

    def run(self, run: int, names: list[str]) -> None:
        """Does each of these builds once on each daemon; `changed` comes with `many`."""
        for case, definitions in small_builds().items():
            for one in self.daemons if case in names else []:
                self.add(case, one, definitions)
        for case, count in FILES.items():
            if case in names:
                self.run_files(case, count, f"{case}{run}", case == "many")
                for one in self.daemons:
                    self.prune(one)

    def run_files(self, case: str, count: int, name: str, again: bool) -> None:
        """Builds a directory that the daemons have not seen, and again with a file changed if this is asked for."""
        context = self.folder / case
        if not context.exists():
            make_files(context, max(1, count // self.part))
        local = ["--local", f"{name}={context}"]
        for one in self.daemons:
            self.add(case, one, [copy_of(name)], *local)
        if again:
            self.run_changed(context, name)

    def run_changed(self, context: pathlib.Path, name: str) -> None:
        """Builds a directory by docker-buildx, and again with a file changed, which is what is measured."""
        for one in self.daemons:
            cost_of(one, self.folder, by_buildx(self.buildx, one, context), [DOCKERFILE])
        (context / "d0000" / "f00").write_text(f"changed for {name}\n", "utf-8")
        for one in self.daemons:
            self.note("changed", one, cost_of(one, self.folder, by_buildx(self.buildx, one, context), [DOCKERFILE]))

    def name_builders(self) -> None:
        """Gives docker-buildx a builder for each daemon, with its name."""
        known = {**os.environ, "BUILDX_CONFIG": str(self.folder / "buildx")}
        for one in self.daemons:
            words = [self.buildx, "create", "--name", one.name, "--driver", "remote", one.address]
            subprocess.run(words, env=known, stdin=subprocess.DEVNULL, stdout=subprocess.DEVNULL, check=True)


def small_builds() -> dict[str, list[bytes]]:
    """Returns the definitions of the builds without a source."""
    return {
        "mkfile": [one_file(b"hi")],
        "merge": [merge_of(20)],
        "chain": [chain_of(200)],
        "together": [one_file(b"%d" % place) for place in range(20)],
    }


def heading(program: str) -> str:
    """Returns the line that says which program the daemon ran, and on how many processors."""
    found = re.search(r"^llbm .*", common.said_by(program), re.MULTILINE)
    return f"llbmd ran `{found[0] if found else program}`, on {os.cpu_count()} processors."


def rows_of(costs: dict[str, dict[str, list[Cost]]]) -> Iterator[str]:
    """Yields the lines of the table."""
    heads = [f"{name}, {what}" for name in (OURS, THEIRS) for what in ("least", "median", "memory")]
    yield "| " + " | ".join(["Build", *heads, "Ratio of least"]) + " |"
    yield "|---" * (len(heads) + 2) + "|"
    for case, by_name in costs.items():
        cells = [case]
        least = []
        for name in (OURS, THEIRS):
            found = by_name.get(name)
            if not found:
                cells += ["-"] * 3
                continue
            seconds = [cost.seconds for cost in found]
            least.append(min(seconds))
            most = max(cost.memory for cost in found)
            cells += [f"{min(seconds):.2f} s", f"{statistics.median(seconds):.2f} s", f"{most:.0f} MB"]
        cells.append(f"{least[0] / least[1]:.2f}" if len(least) > 1 else "-")
        yield "| " + " | ".join(cells) + " |"


def measure(options: argparse.Namespace) -> int:
    """Prints the table, and returns the exit status."""
    options.llbm = program_at(options.llbm)
    buildx = options.packages / go_building.PLUGINS / "docker-buildx"
    for place in (options.daemon, OUT / "buildctl", FRONTEND, buildx):
        if not place.is_file():
            raise Refused(f"there is no such program: {place}; `dev/dev daemon --clients` builds it")
    try:
        with contextlib.ExitStack() as stack:
            folder = pathlib.Path(stack.enter_context(tempfile.TemporaryDirectory(prefix="m", dir=options.folder)))
            for name in (OURS, THEIRS):
                (folder / name).mkdir()
            words = ["-frontend", f"{runs.FRONTEND}={FRONTEND}"]
            running = started_daemon.llbmd(options.daemon, options.llbm, folder / OURS, *words)
            daemons = [Daemon(OURS, *stack.enter_context(running))]
            if os.geteuid() == 0:
                buildkitd.build(options.packages)
                daemons.append(Daemon(THEIRS, *stack.enter_context(buildkitd.running(folder / THEIRS))))
            trial = Trial(daemons, folder, options.part, str(buildx))
            if "many" in (options.name or NAMES):
                trial.name_builders()
            for run in range(options.runs):
                trial.run(run, options.name or NAMES)
    except debian_packages.Missing as fault:
        raise Refused(str(fault)) from fault
    except (Failed, go_building.NotBuilt) as fault:
        common.say(str(fault))
        return 1
    print("\n".join([heading(options.llbm), "", *rows_of(trial.costs)]))
    return 0


def main() -> int:
    """Runs the tool, and returns its exit status."""
    parser = Parser(description="Measures llbmd beside BuildKit's daemon.")
    parser.add_argument("--llbm", metavar="PROGRAM", help="the program llbm")
    parser.add_argument("--daemon", metavar="PROGRAM", type=pathlib.Path, default=daemon.PROGRAM, help="the daemon")
    parser.add_argument(
        "--packages", metavar="FOLDER", type=pathlib.Path, default=debian_packages.FOLDER,
        help="where Debian's packages are, or are unpacked",
    )  # fmt: skip
    parser.add_argument("--folder", metavar="FOLDER", help="where the daemons keep their state")
    parser.add_argument("--runs", metavar="N", type=number, default=RUNS, help="how often each build is done")
    parser.add_argument("--part", metavar="N", type=number, default=1, help="make all counts of files N times smaller")
    parser.add_argument("name", metavar="NAME", nargs="*", help=f"a build (default: all): {', '.join(NAMES)}")
    options = parser.parse_args()
    for name in options.name:
        if name not in NAMES:
            parser.error(f"there is no build {name}")
    return exit_status(lambda: measure(options))
