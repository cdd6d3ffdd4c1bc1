"""Packages of Debian, downloaded and unpacked into a folder: nothing is installed, and any user can do it.

apt runs on a folder of its own, with the repositories that this host's apt is set up with and the host's settings, such
as a proxy. It checks the signatures of the release by Debian's keyring, and the digests of what it downloads. The
folder appears complete: it has the packages' files, and their names in the file `unpacked`.
"""

import contextlib
import fcntl
import os
import pathlib
import shutil
import subprocess
import tempfile
from collections.abc import Iterator

from llbm_tools import paths

RELEASE = "trixie"
NAMES = paths.ROOT / "daemon" / "packages.txt"
FOLDER = paths.CACHE / "debian"
STAMP = "unpacked"

COMMANDS = ("apt-get", "dpkg-deb")
KEYRINGS = [pathlib.Path("/usr/share/keyrings/debian-archive-keyring" + end) for end in (".pgp", ".gpg")]
URIS = ["indextargets", "--no-release-info", "--format", "$(REPO_URI)", "Created-By: Packages"]
MOST_SECONDS = 6000
MOST_LINES = 5

# The commands that the host runs after an update are for its own folders.
SETTINGS = """#clear APT::Update::Post-Invoke;
#clear APT::Update::Post-Invoke-Success;
#clear DPkg::Post-Invoke;
Dir::State "{apt}";
Dir::State::lists "{apt}/lists";
Dir::State::status "{apt}/status";
Dir::Cache "{apt}/cache";
Dir::Etc::sourcelist "{apt}/sources.list";
Dir::Etc::sourceparts "/dev/null";
Dir::Etc::preferences "/dev/null";
Dir::Etc::preferencesparts "/dev/null";
APT::Sandbox::User "{user}";
APT::Get::AllowUnauthenticated "false";
Acquire::AllowInsecureRepositories "false";
Acquire::Languages "none";
Acquire::Retries "2";
Acquire::http::Timeout "30";
Acquire::https::Timeout "30";
"""


class Missing(Exception):
    """The packages can't be had; the argument is a line that says why."""


def names_in(text: str) -> list[str]:
    """Returns the names in a list of packages: a name on each line that is not empty and not a comment."""
    return [line.strip() for line in text.splitlines() if line.strip() and not line.startswith("#")]


def are_there(folder: pathlib.Path, names: list[str]) -> bool:
    """Returns whether these packages are unpacked in a folder."""
    try:
        return set(names) <= set(names_in((folder / STAMP).read_text("utf-8")))
    except OSError:
        return False


def keyring() -> pathlib.Path:
    """Returns the keyring of Debian's archive on this host."""
    for place in KEYRINGS:
        if place.is_file():
            return place
    raise Missing(f"there is no keyring: {KEYRINGS[-1]} (package debian-archive-keyring)")


def said(done: subprocess.CompletedProcess[str]) -> str:
    """Returns the last lines that a failed command printed, as one line."""
    return "; ".join(done.stdout.strip().splitlines()[-MOST_LINES:]) or f"status {done.returncode}"


class Apt:
    """apt on a folder of its own."""

    def __init__(self, folder: pathlib.Path) -> None:
        self.folder = folder.absolute()
        for name in ("lists/partial", "cache/archives/partial"):
            (self.folder / name).mkdir(parents=True, exist_ok=True)
        (self.folder / "status").touch()
        user = "root" if os.geteuid() == 0 else ""
        (self.folder / "settings").write_text(SETTINGS.format(apt=self.folder, user=user), "utf-8")

    def call(self, *words: str, into: pathlib.Path | None = None) -> subprocess.CompletedProcess[str]:
        """Runs apt-get in a folder; it has to end in time."""
        command = ["apt-get", "--quiet=2", "--config-file", str(self.folder / "settings"), *words]
        try:
            return subprocess.run(
                command, cwd=into or self.folder, stdin=subprocess.DEVNULL, stdout=subprocess.PIPE,
                stderr=subprocess.STDOUT, text=True, errors="replace", timeout=MOST_SECONDS,
                env={**os.environ, "LC_ALL": "C"},
            )  # fmt: skip
        except subprocess.TimeoutExpired as fault:
            raise Missing(f"no answer in {MOST_SECONDS} seconds: apt-get {words[0]}") from fault

    def update(self, release: str) -> None:
        """Gets the lists of a release from the first of the host's repositories that has it."""
        faults = []
        for uri in uris():
            line = f"deb [signed-by={keyring()}] {uri} {release} main\n"
            (self.folder / "sources.list").write_text(line, "utf-8")
            done = self.call("update", "--error-on=any")
            if done.returncode == 0:
                return
            faults.append(said(done))
        raise Missing(faults[0] if faults else "apt is set up with no repository (apt-get indextargets)")

    def download(self, names: list[str], into: pathlib.Path) -> None:
        """Downloads the archives of packages into a folder."""
        done = self.call("download", *names, into=into)
        if done.returncode:
            raise Missing(said(done))


def uris() -> list[str]:
    """Returns the repositories that this host's apt is set up with, each once, in its order."""
    done = subprocess.run(["apt-get", *URIS], stdin=subprocess.DEVNULL, capture_output=True, text=True)
    return list(dict.fromkeys(done.stdout.split()))


@contextlib.contextmanager
def alone(folder: pathlib.Path) -> Iterator[None]:
    """Waits until no other process makes a folder."""
    folder.parent.mkdir(parents=True, exist_ok=True)
    with open(folder.parent / f".{folder.name}.lock", "w") as lock:
        fcntl.flock(lock, fcntl.LOCK_EX)
        yield


def unpack(archives: pathlib.Path, root: pathlib.Path) -> None:
    """Unpacks all archives of a folder."""
    for archive in sorted(archives.glob("*.deb")):
        done = subprocess.run(
            ["dpkg-deb", "--extract", str(archive), str(root)],
            stdin=subprocess.DEVNULL, stdout=subprocess.PIPE, stderr=subprocess.STDOUT, text=True,
        )  # fmt: skip
        if done.returncode:
            raise Missing(f"could not be unpacked: {archive.name}: {said(done)}")


def fill(work: pathlib.Path, names: list[str], release: str) -> pathlib.Path:
    """Downloads and unpacks packages below a folder, and returns their root, which is complete."""
    root, archives = work / "root", work / "archives"
    root.mkdir()
    archives.mkdir()
    private = Apt(work / "apt")
    private.update(release)
    private.download(names, archives)
    unpack(archives, root)
    (root / STAMP).write_text("".join(f"{name}\n" for name in names), "utf-8")
    root.chmod(0o755)
    return root


def check_usable(folder: pathlib.Path) -> None:
    """Refuses what is not an older folder of packages, nor empty; such a folder is not replaced."""
    if folder.exists() and not (folder / STAMP).is_file() and not (folder.is_dir() and not any(folder.iterdir())):
        raise Missing(f"not an empty folder, nor one with packages: {folder}")
    for command in COMMANDS:
        if not shutil.which(command):
            raise Missing(f"there is no such program: {command}")


def put(root: pathlib.Path, folder: pathlib.Path) -> None:
    """Moves a complete root to its folder, in place of an older one."""
    if (folder / STAMP).is_file():
        shutil.rmtree(folder)
    root.rename(folder)


def unpacked(folder: pathlib.Path, names: list[str], release: str = RELEASE) -> pathlib.Path:
    """Returns a folder with these packages of a release; they are downloaded and unpacked if they are not there.

    What can't be had raises Missing.
    """
    if are_there(folder, names):
        return folder
    check_usable(folder)
    with alone(folder):
        if not are_there(folder, names):
            with tempfile.TemporaryDirectory(dir=folder.parent, prefix=f".{folder.name}-") as work:
                put(fill(pathlib.Path(work), names, release), folder)
    return folder
