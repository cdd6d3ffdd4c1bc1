"""BuildKit's own daemon, built from Debian's packages if it is not there, and llbmd: both run until a comparison ends.
"""

import contextlib
import os
import pathlib
import shutil
import subprocess
import tempfile
from collections.abc import Iterator
from typing import NamedTuple

from llbm_tools import common
from llbm_tools.daemon import buildkitd, debian_packages, link_cases
from llbm_tools.daemon import daemon as daemons
from llbm_tools.daemon.runs import Daemon, DaemonBusy, DaemonLost
from llbm_tools.daemon.go_building import OUT, NotBuilt
from llbm_tools.rules import examples

MEMORY = pathlib.Path("/dev/shm")
ENOUGH = 1 << 30
SPACE = " \t*"
NO_CACHE = "--no-cache"


class NoDaemon(Exception):
    """There is no daemon to compare with; the message says why."""


def place() -> str | None:
    """Returns where the daemon keeps its state: in memory, if that has a gigabyte, or else in a temporary folder."""
    with contextlib.suppress(OSError):
        if os.access(MEMORY, os.W_OK) and shutil.disk_usage(MEMORY).free > ENOUGH:
            return str(MEMORY)
    return None


def check(daemon: Daemon) -> None:
    """Raises NoDaemon unless the daemon copies from a source, and merges."""
    for one in examples.examples():
        if one.rule in ("MergeLayers", "LocalRoot"):
            try:
                ran = daemon.run(one.data, one.sources)
            except (DaemonBusy, DaemonLost, OSError, subprocess.TimeoutExpired) as fault:
                raise NoDaemon(f"buildkitd does not build here: {fault}") from fault
            if ran.tree is None:
                raise NoDaemon(f"buildkitd does not build here: {ran.said.strip(SPACE)}")


def build(packages: pathlib.Path) -> None:
    """Builds the daemon and its client, without fetching anything, or raises NoDaemon."""
    try:
        daemons.check_offline(packages)
        buildkitd.build(packages)
    except (debian_packages.Missing, NotBuilt, OSError) as fault:
        last = str(fault).strip().splitlines()[-1:]
        raise NoDaemon(f"buildkitd is not built: {''.join(last)}") from fault


class Started(NamedTuple):
    """A daemon that builds; if it runs scripts of llbm, these are its executions, or stand-ins by the rules in a file.
    """

    daemon: Daemon
    rules: pathlib.Path
    runs_scripts: bool


def runs_scripts(daemon: Daemon) -> bool:
    """Returns whether the daemon runs scripts of llbm, and prints why not: for want of runc, or of rights for it."""
    least = link_cases.least()
    ran = daemon.run(least.data, {link_cases.NAME: link_cases.tree()})
    if ran.tree is None:
        print(f"executions are left out: buildkitd runs none here: {common.printable(ran.said)}", flush=True)
    return ran.tree is not None


@contextlib.contextmanager
def started(packages: pathlib.Path) -> Iterator[Started]:
    """Yields a daemon that builds, or raises NoDaemon."""
    if os.geteuid() != 0:
        raise NoDaemon("only root can run buildkitd")
    build(packages)
    with contextlib.ExitStack() as stack:
        made = tempfile.TemporaryDirectory(prefix="b", dir=place(), ignore_cleanup_errors=True)
        folder = pathlib.Path(stack.enter_context(made))
        try:
            runc = buildkitd.scripted_runc(packages, folder)
            address, _ = stack.enter_context(buildkitd.running(folder, runc))
        except (debian_packages.Missing, NotBuilt, OSError) as fault:
            raise NoDaemon(f"buildkitd does not start here: {fault}") from fault
        daemon = Daemon(str(OUT / "buildctl"), address, NO_CACHE)
        check(daemon)
        yield Started(daemon, folder / buildkitd.RULES, runs_scripts(daemon))


@contextlib.contextmanager
def llbmd(program: pathlib.Path, llbm: str, folder: pathlib.Path, *words: str) -> Iterator[tuple[str, int]]:
    """Runs llbmd with its state in a folder, whose path has to be short, and yields its address and its process."""
    address = f"unix://{folder}/s"
    line = [str(program), "-addr", address, "-llbm", llbm, "-store", str(folder), *words]
    with (
        open(folder / "printed", "wb") as printed,
        subprocess.Popen(
            line, env={**os.environ, "TMPDIR": str(folder)}, stdin=subprocess.DEVNULL, stdout=printed, stderr=printed
        ) as child,
    ):
        try:
            buildkitd.wait_for(address, child)
            yield address, child.pid
        finally:
            child.terminate()
