"""Builds the daemon llbmd, which speaks BuildKit's API, the program llbm-rules with BuildKit's rules, and clients.

In: daemon/ of the repository around this folder. If `go` is installed and has, or gets, the module that daemon/go.mod
names and those that this needs, it builds the daemon. Else packages of Debian (130 MB) are downloaded by apt from the
repositories that this host is set up with, and unpacked (670 MB) into the cache folder, or --packages FOLDER, and the
daemon is built from them. Nothing is installed, and root is not needed. With --offline only what is there already is
used.

Out: the daemon, out/llbmd or -o FILE, and llbm-rules beside it. With --clients also BuildKit's `buildctl` and its
frontend for Dockerfiles beside it, built from Debian's packages, and for BuildKit's own daemon, which `dev/dev
against-buildkit` builds, runc is fetched if this host has none; docker-buildx is in
FOLDER/usr/libexec/docker/cli-plugins. Builds are kept in out/go-cache, for the next one.

Exit status: 0 the programs are built; 1 one does not compile; 2 the command line is refused, or there are no modules
and the packages can't be had; 3 a read or a write failed; 130 interrupted.
"""

import argparse
import os
import pathlib

from llbm_tools import common, paths
from llbm_tools.command_line import Parser
from llbm_tools.daemon import debian_packages, go_building, runc
from llbm_tools.daemon.go_building import BUILDKIT, MODULE, OUT, Go
from llbm_tools.streams import Refused, exit_status

PROGRAM = OUT / "llbmd"
# The frontend takes `COPY --parents` and `--exclude`, as that of the images `docker/dockerfile` does.
STATIC = ["-tags", "osusergo,netgo,dfparents,dfexcludepatterns"]
CLIENTS = {
    "buildctl": f"{BUILDKIT}/cmd/buildctl",
    "dockerfile-frontend": f"{BUILDKIT}/frontend/dockerfile/cmd/dockerfile-frontend",
}


def check_offline(packages: pathlib.Path) -> None:
    """Refuses a folder that lacks packages."""
    names = debian_packages.names_in(debian_packages.NAMES.read_text("utf-8"))
    if not debian_packages.are_there(packages, names):
        raise debian_packages.Missing(f"the packages are not there: {packages}; dev/dev daemon fetches them")


def go_of(packages: pathlib.Path, offline: bool) -> Go:
    """Returns Go with Debian's packages."""
    if offline:
        check_offline(packages)
    return go_building.with_packages(packages)


def build_daemon(go: Go, to: pathlib.Path) -> None:
    """Builds the daemon, and beside it the program with BuildKit's rules."""
    go.build(f"{MODULE}/cmd/llbmd", to, *STATIC)
    go.build(f"{MODULE}/cmd/llbm-rules", to.with_name(paths.RULES.name), *STATIC)


def build_clients(go: Go, folder: pathlib.Path) -> None:
    """Builds the clients that are not there yet, from packages."""
    for name, package in CLIENTS.items():
        if not (folder / name).exists():
            go.build(package, folder / name, *STATIC)


def fetch_runc() -> None:
    """Fetches runc for BuildKit's own daemon, or says why that will run no executions."""
    try:
        runc.fetched()
    except debian_packages.Missing as fault:
        common.say(f"runc can't be had: {fault}; dev/dev against-buildkit will leave executions out")


def make(options: argparse.Namespace) -> int:
    """Builds what is asked for, and returns the exit status."""
    try:
        modules = None if options.clients or options.offline else go_building.with_modules()
        go = modules or go_of(options.packages, options.offline)
        build_daemon(go, options.o.absolute())
        if options.clients:
            build_clients(go, options.o.absolute().parent)
            fetch_runc()
    except debian_packages.Missing as fault:
        raise Refused(f"the packages can't be had: {fault}") from fault
    except go_building.NotBuilt as fault:
        for line in str(fault).splitlines():
            common.say(line)
        return 1
    means = "Go's modules" if modules else "Debian's packages"
    print(f"{os.path.relpath(options.o)}: {options.o.stat().st_size} bytes, built from {means}")
    return 0


def main() -> int:
    """Runs the tool, and returns its exit status."""
    parser = Parser(description="Builds the daemon llbmd, which speaks BuildKit's API.")
    parser.add_argument("-o", metavar="FILE", type=pathlib.Path, default=PROGRAM, help="where the daemon is written")
    parser.add_argument(
        "--packages", metavar="FOLDER", type=pathlib.Path, default=debian_packages.FOLDER,
        help="where Debian's packages are, or are unpacked",
    )  # fmt: skip
    parser.add_argument("--clients", action="store_true", help="build buildctl and the frontend for Dockerfiles too")
    parser.add_argument("--offline", action="store_true", help="fetch nothing")
    options = parser.parse_args()
    return exit_status(lambda: make(options))
