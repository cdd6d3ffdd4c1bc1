"""BuildKit's own daemon, built from Debian's packages and run beside llbmd, to compare and to measure both.

Debian lacks some packages that buildkitd imports. Go's flag -overlay leaves these imports out of two files: those of
the caches azblob, gha and s3, and of the snapshotters stargz and fuse-overlayfs; two more packages are replaced by
those in daemon/buildkitd/testdata. Nothing on the way of local sources, file actions, merges, executions and exporters
changes.
"""

import contextlib
import json
import os
import pathlib
import re
import shlex
import subprocess
import sys
import time
from collections.abc import Iterator

from llbm_tools import paths
from llbm_tools.daemon import daemon, go_building, runc
from llbm_tools.daemon.debian_packages import Missing
from llbm_tools.daemon.go_building import BUILDKIT, DAEMON, OUT, Go, NotBuilt

FOLDER = paths.CACHE / "buildkitd"
PROGRAM = FOLDER / "bin" / "buildkitd"
STUBS = DAEMON / "buildkitd" / "testdata"
SYSTEMD = pathlib.Path("src", "github.com", "coreos", "go-systemd", "v22")
TAGS = ["-tags", "no_containerd_worker,osusergo,netgo,static_build,dfparents,dfexcludepatterns"]
SETTINGS = "[worker.oci]\n  gc = false\n"
APPLETS = f"{go_building.MODULE}/buildkitd/applets"
RULES = "rules"
PATIENCE = 3000
PAUSE = 0.1

LEFT_OUT = {
    "main.go": [
        (r'^[^\n]*remotecache/(azblob|gha|s3)"\n', ""),
        (r'^\t\t"(gha|s3|azblob)": [^\n]*\n', ""),
    ],
    "main_oci_worker.go": [
        (r'^\t(fuseoverlayfs|sgz\w+|remotesn) "[^\n]*\n', ""),
        (r"\t\t\tif err2 := fuseoverlayfs.*?\n\t\t\t\}\n\t\t\}", '\t\t\tname = "native"\n\t\t}'),
        (r'\tcase "fuse-overlayfs":.*?\tdefault:', "\tdefault:"),
        (r"^const \(\n\t// targetRefLabel.*\Z", ""),
        (r'^\t"github.com/(containerd/containerd/reference|moby/buildkit/util/resolver)"\n', ""),
        (r'^\t"github.com/(pelletier/go-toml|sirupsen/logrus)"\n', ""),
        (r'^\t"(fmt|path/filepath|strings)"\n', ""),
    ],
}


def without(text: str, name: str) -> str:
    """Returns a file of buildkitd without what Debian has no packages for."""
    for pattern, instead in LEFT_OUT[name]:
        text, count = re.subn(pattern, instead, text, flags=re.S | re.M)
        if not count:
            raise NotBuilt(f"nothing matches {pattern}: cmd/buildkitd/{name}")
    return text


def overlay_of(code: pathlib.Path) -> pathlib.Path:
    """Writes the changed files, and returns the file that says what they replace."""
    folder = FOLDER / "overlay"
    folder.mkdir(parents=True, exist_ok=True)
    replaced = {}
    for name in LEFT_OUT:
        place = code / BUILDKIT / "cmd" / "buildkitd" / name
        (folder / name).write_text(without(place.read_text("utf-8"), name), "utf-8")
        replaced[str(place)] = str(folder / name)
    table = FOLDER / "overlay.json"
    table.write_text(json.dumps({"Replace": replaced}), "utf-8")
    return table


def systemd_of(packages: pathlib.Path) -> pathlib.Path:
    """Returns an entry of Go's path with go-systemd, which Debian has without the last part of its path."""
    link = FOLDER / "path" / SYSTEMD
    link.parent.mkdir(parents=True, exist_ok=True)
    link.unlink(missing_ok=True)
    link.symlink_to(packages.absolute() / go_building.CODE / SYSTEMD.parent)
    return FOLDER / "path"


def build(packages: pathlib.Path) -> None:
    """Builds the daemon and buildctl, if they are not there, and puts runc beside it.

    Nothing is fetched: if runc is not there, the daemon's executions fail.
    """
    if not (PROGRAM.exists() and (OUT / "buildctl").exists()):
        go: Go = go_building.with_packages(packages, systemd_of(packages), STUBS)
        assert go.code is not None
        go.build(f"{BUILDKIT}/cmd/buildkitd", PROGRAM, *TAGS, f"-overlay={overlay_of(go.code)}")
        daemon.build_clients(go, OUT)
    runc.put(PROGRAM.with_name("runc"))


def scripted_runc(packages: pathlib.Path, folder: pathlib.Path) -> pathlib.Path:
    """Writes a program in the place of runc that runs scripts of llbm, by the rules in the file `rules` of a folder."""
    applets = PROGRAM.with_name("applets")
    go_building.with_packages(packages).build(APPLETS, applets)
    known = {"PYTHONPATH": paths.TOOLS, "LLBM_RUNC": PROGRAM.with_name("runc"), "LLBM_APPLETS": applets}
    known["LLBM_RULES"] = folder / RULES
    place = folder / "scripted-runc"
    lines = [f"export {name}={shlex.quote(str(value))}" for name, value in known.items()]
    lines.append(f'exec {shlex.quote(sys.executable)} -m llbm_tools.daemon.scripted_runc "$@"')
    place.write_text("\n".join(["#!/bin/sh", *lines, ""]), "utf-8")
    place.chmod(0o755)
    return place


def answers(address: str) -> bool:
    """Returns whether a daemon answers."""
    words = [str(OUT / "buildctl"), "--addr", address, "debug", "workers"]
    return subprocess.run(words, stdin=subprocess.DEVNULL, capture_output=True).returncode == 0


def wait_for(address: str, child: subprocess.Popen[bytes]) -> None:
    """Waits until a daemon answers."""
    end = time.monotonic() + PATIENCE
    while not answers(address):
        if child.poll() is not None or time.monotonic() > end:
            raise NotBuilt("buildkitd does not answer; what it printed is in its folder's file `printed`")
        time.sleep(PAUSE)


def end(child: subprocess.Popen[bytes]) -> None:
    """Ends the daemon, at once if it does not end by itself."""
    child.terminate()
    try:
        child.wait(PATIENCE)
    except subprocess.TimeoutExpired:
        child.kill()


@contextlib.contextmanager
def running(folder: pathlib.Path, instead: pathlib.Path | None = None) -> Iterator[tuple[str, int]]:
    """Runs the daemon with its state in a folder, and yields its address and its process; only root can do this.

    The path of the folder has to be short: a socket is below it. In memory the daemon does not wait for a disk. Another
    program can be given in the place of runc.
    """
    if os.geteuid() != 0:
        raise Missing("only root can run buildkitd")
    settings = folder / "settings.toml"
    settings.write_text(SETTINGS, "utf-8")
    address = f"unix://{folder}/socket"
    words = [str(PROGRAM), "--config", str(settings), "--root", str(folder / "state"), "--addr", address]
    words += [f"--oci-worker-binary={instead}"] if instead else []
    known = {"HOME": str(folder), "TMPDIR": str(folder), "PATH": f"{PROGRAM.parent}:/usr/sbin:/usr/bin:/sbin:/bin"}
    with (
        open(folder / "printed", "wb") as printed,
        subprocess.Popen(
            [*words, "--oci-worker-snapshotter=native", "--oci-worker-net=host"],
            env=known, stdin=subprocess.DEVNULL, stdout=printed, stderr=subprocess.STDOUT,
        ) as child,
    ):  # fmt: skip
        try:
            wait_for(address, child)
            yield address, child.pid
        finally:
            end(child)
