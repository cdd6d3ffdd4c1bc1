"""Builds programs in Go, of this repository and of BuildKit, from packages of Debian or, where there are any, modules.

From packages, Go works without modules: the packages are one entry of its path, and a folder that leads to the
repository's daemon is another. A build reaches no network then.
"""

import hashlib
import os
import pathlib
import shutil
import subprocess
from typing import NamedTuple

from llbm_tools import paths
from llbm_tools.daemon import debian_packages

DAEMON = paths.ROOT / "daemon"
MODULE = "llbm/daemon"
BUILDKIT = "github.com/moby/buildkit"
OUT = paths.ROOT / "out"
CACHE = OUT / "go-cache"
GO = pathlib.Path("usr", "lib", "go-1.24")
CODE = pathlib.Path("usr", "share", "gocode")
PLUGINS = pathlib.Path("usr", "libexec", "docker", "cli-plugins")
# How many seconds Go may take: ten times what it takes on a slow host to build the daemon from nothing. Where it does
# not find out in its own time whether it has all modules, Debian's packages have them.
PATIENCE = 6000
MODULES_PATIENCE = 300


class NotBuilt(Exception):
    """A program could not be built; the argument has what Go printed."""


class Go(NamedTuple):
    """A command `go`, with its environment; `code` is the folder with sources of packages, or None for modules."""

    command: str
    environment: dict[str, str]
    code: pathlib.Path | None

    def call(self, *words: str, seconds: int = PATIENCE) -> str:
        """Runs `go` in the daemon's folder, and returns what it prints; it has to end with status 0 in time."""
        try:
            done = subprocess.run(
                [self.command, *words], cwd=DAEMON, env=self.environment, stdin=subprocess.DEVNULL,
                stdout=subprocess.PIPE, stderr=subprocess.STDOUT, text=True, errors="replace", timeout=seconds,
            )  # fmt: skip
        except subprocess.TimeoutExpired as fault:
            raise NotBuilt(f"no answer in {seconds} seconds: go {words[0]}") from fault
        if done.returncode:
            raise NotBuilt(f"ended with status {done.returncode}: go {' '.join(words)}\n{done.stdout.strip()}")
        return done.stdout

    def build(self, package: str, to: pathlib.Path, *words: str) -> None:
        """Builds a program, which appears at its place complete."""
        to.parent.mkdir(parents=True, exist_ok=True)
        new = to.with_name(f".{to.name}-new")
        try:
            self.call("build", *words, "-o", str(new), package)
            new.replace(to)
        finally:
            new.unlink(missing_ok=True)


def with_modules() -> Go | None:
    """Returns Go with modules, if it is installed and has, or gets, all modules of the daemon.

    Which versions and digests the modules have is noted in out/, by Go; the repository names only BuildKit's version.
    """
    command = shutil.which("go")
    if not command:
        return None
    noted = OUT / "go-modules" / "go.mod"
    noted.parent.mkdir(parents=True, exist_ok=True)
    shutil.copyfile(DAEMON / "go.mod", noted)
    flags = f"-mod=mod -modfile={noted}"
    go = Go(command, {**os.environ, "CGO_ENABLED": "0", "GOFLAGS": flags, "GOTOOLCHAIN": "local"}, None)
    try:
        go.call("list", "-deps", "./cmd/llbmd", "./cmd/llbm-rules", seconds=MODULES_PATIENCE)
    except (NotBuilt, OSError):
        return None
    return go


def entry_of_path() -> pathlib.Path:
    """Returns an entry of Go's path that leads to the daemon."""
    name = hashlib.sha256(os.fsencode(paths.ROOT)).hexdigest()[:16]
    entry = paths.CACHE / "go-path" / name
    link = entry / "src" / MODULE
    link.parent.mkdir(parents=True, exist_ok=True)
    if not link.is_symlink() or os.readlink(link) != str(DAEMON):
        link.unlink(missing_ok=True)
        link.symlink_to(DAEMON)
    return entry


def with_packages(packages: pathlib.Path, *entries: pathlib.Path) -> Go:
    """Returns Go of Debian's packages, which are there or are fetched, with further entries of its path before them."""
    names = debian_packages.names_in(debian_packages.NAMES.read_text("utf-8"))
    root = debian_packages.unpacked(packages.absolute(), names)
    home = root / GO
    way = [*entries, entry_of_path(), root / CODE]
    environment = {
        **os.environ,
        "CGO_ENABLED": "0", "GO111MODULE": "off", "GOFLAGS": "", "GOTOOLCHAIN": "local", "GOPROXY": "off",
        "GOROOT": str(home), "GOPATH": os.pathsep.join(map(str, way)),
        "GOCACHE": os.environ.get("GOCACHE", str(CACHE)),
    }  # fmt: skip
    return Go(str(home / "bin" / "go"), environment, root / CODE / "src")
