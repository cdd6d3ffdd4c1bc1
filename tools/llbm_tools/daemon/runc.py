"""runc, by which BuildKit's daemon runs executions: that of this host, or else of this host's release of Debian."""

import os
import pathlib
import platform
import shutil

from llbm_tools import paths
from llbm_tools.daemon import debian_packages
from llbm_tools.daemon.debian_packages import Missing

NAMES = ["runc"]
FOLDER = paths.CACHE / "debian-runc"
UNPACKED = FOLDER / "usr" / "sbin" / "runc"
FAILS = "#!/bin/sh\necho there is no runc here >&2\nexit 1\n"


def found() -> pathlib.Path | None:
    """Returns the path of runc on this host, or that of what was fetched before."""
    there = shutil.which("runc")
    if there is None and debian_packages.are_there(FOLDER, NAMES):
        return UNPACKED
    return pathlib.Path(there) if there else None


def fetched() -> pathlib.Path:
    """Returns the path of runc, which is downloaded and unpacked if it is not there; raises Missing."""
    there = found()
    if there:
        return there
    release = platform.freedesktop_os_release().get("VERSION_CODENAME", "")
    if not release:
        raise Missing("there is no such program, and this host is no release of Debian: runc")
    debian_packages.unpacked(FOLDER, NAMES, release)
    return UNPACKED


def put(place: pathlib.Path) -> None:
    """Copies runc to a path; where there is none, a program that fails: the daemon starts, and its executions fail."""
    there, new = found(), place.with_name(f"{place.name}-{os.getpid()}")
    if there:
        shutil.copyfile(there, new)
    else:
        new.write_text(FAILS, "utf-8")
    new.chmod(0o755)
    # (a running daemon may use the one that is there)
    new.replace(place)
