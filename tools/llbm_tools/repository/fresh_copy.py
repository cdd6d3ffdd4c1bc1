"""A copy of the repository, as git would clone what is in its folder now, with the program at its place."""

import contextlib
import os
import shutil
import subprocess

from llbm_tools import paths
from llbm_tools.common import is_unproved

IGNORED_WITHOUT_GIT = {".git", "out", "__pycache__"}


def git(*words: str, copy: str | None = None) -> list[str] | None:
    """Returns the paths that git prints for the repository, or as if a copy were its folder; None if it can't."""
    settings = dict(os.environ) if copy is None else {**os.environ, "GIT_WORK_TREE": copy}
    with contextlib.suppress(OSError):
        folder = subprocess.run(
            ["git", "-C", paths.ROOT, "rev-parse", "--absolute-git-dir"], stdin=subprocess.DEVNULL, capture_output=True
        ).stdout.strip()
        done = subprocess.run(
            ["git", "--git-dir", folder, *words, "-z"], cwd=copy or paths.ROOT, env=settings,
            stdin=subprocess.DEVNULL, capture_output=True,
        )  # fmt: skip
        if folder and not done.returncode:
            return sorted({os.fsdecode(path) for path in done.stdout.split(b"\0") if path})
    return None


def all_files() -> list[str]:
    """Returns the paths of all files of the repository, but those that are made by compiling."""
    found = []
    for folder, names, files in os.walk(paths.ROOT):
        names[:] = [name for name in names if name not in IGNORED_WITHOUT_GIT]
        found += [os.path.relpath(os.path.join(folder, name), paths.ROOT) for name in files]
    return found


class Copy:
    """The copy in a folder; by `settings` commands in it keep their caches in the folder."""

    def __init__(self, folder: str, program: str) -> None:
        self.folder = os.path.join(folder, "llbm")
        self.settings = {"XDG_CACHE_HOME": os.path.join(folder, "cache")}
        files = git("ls-files", "--cached", "--others", "--exclude-standard")
        for path in all_files() if files is None else files:
            self.add(path)
        self.place(program)
        self.before = self.dirty()

    def add(self, path: str) -> None:
        """Copies a file of the repository; one that git still lists and that was removed is left out."""
        place = os.path.join(self.folder, path)
        os.makedirs(os.path.dirname(place), exist_ok=True)
        with contextlib.suppress(FileNotFoundError):
            shutil.copy2(paths.ROOT / path, place, follow_symlinks=False)

    def place(self, program: str) -> None:
        """Puts the program where the repository has one of its kind, and beside it that with BuildKit's rules."""
        there = paths.UNPROVED if is_unproved(program) else paths.PROVED
        for one, path in ((program, there), (str(paths.RULES), paths.RULES)):
            if os.path.exists(one):
                place = os.path.join(self.folder, path.relative_to(paths.ROOT))
                os.makedirs(os.path.dirname(place), exist_ok=True)
                os.symlink(one, place)

    def dirty(self) -> dict[str, bytes | None]:
        """Returns the paths that are changed or not known to git, with their contents; none without git.

        What git ignores is left out.
        """
        listed = git("ls-files", "--modified", "--others", "--exclude-standard", copy=self.folder) or []
        return {path: self.content(path) for path in listed}

    def content(self, path: str) -> bytes | None:
        """Returns the content of a file; None if it is not there."""
        with contextlib.suppress(OSError), open(os.path.join(self.folder, path), "rb") as file:
            return file.read()
        return None

    def changed(self) -> list[str]:
        """Returns the paths that were made, changed or removed since the copy was made."""
        after = self.dirty()
        before = self.before
        return sorted(path for path, content in after.items() if path not in before or content != before[path])
