"""Runs definitions and Dockerfiles with a daemon, BuildKit's own or llbmd, by BuildKit's command `buildctl`."""

import contextlib
import itertools
import os
import pathlib
import re
import subprocess
import tarfile
import tempfile
import time
from collections.abc import Callable
from typing import NamedTuple

from llbm_tools.trees import tree_maps
from llbm_tools.trees.tree_maps import Entry, Tree

MOST_SECONDS = 600
TRIES = 5
# What buildctl prints on a busy host: the daemon and its clients wait for each other for a few seconds at most.
BUSY = ("no active session", "deadline exceeded", "context canceled", "code = Canceled", "DeadlineExceeded")
LOST = ("connection refused", "error reading from server", "connection reset", "EOF", "no such file or directory\"\n")


# A warning of what ends otherwise ends with names, and can have more paths.
WARNED = re.compile(r"^#\d+ WARN: .*: ([A-Z]\w+(?:, [A-Z]\w+)*)(?:, and \d+ more)?$", re.M)
FRONTEND = "dockerfile.v0"
# What a refusal of llbmd has that names a link.
LINKED = "which llbm does not follow"
# In these trees a symbolic link is a file whose content begins so; then comes its target, in hexadecimal.
LINK = b"link-"
# Another name of a file is one whose content begins so; then come that file's path, and its content.
HARD_LINK = b"name-"
# Times in nanoseconds, none of them of a whole second: BuildKit's merges compare contents of such times.
MOMENTS = itertools.count(time.time_ns() | 1, 2)


class DaemonLost(Exception):
    """The daemon does not answer; the message is the error that buildctl printed."""


class DaemonBusy(Exception):
    """The daemon or its client did not wait for the other; the message is the error that buildctl printed."""


class Ran(NamedTuple):
    """How a build ended: its tree, or None and the error that buildctl printed, and the names at the ends of warnings,
    among them those of rules."""

    tree: Tree | None
    said: str = ""
    names: frozenset[str] = frozenset()


def link_to(target: str) -> Entry:
    """Returns a symbolic link, as these trees have it."""
    return Entry(0o777, 0, 0, LINK + target.encode().hex().encode("ascii"))


def hard_link_to(path: str, entry: Entry) -> Entry:
    """Returns another name of a file, which comes before it in the order of paths, as these trees have it."""
    return entry._replace(content=HARD_LINK + path.encode().hex().encode("ascii") + b"-" + (entry.content or b""))


def write_tree(tree: Tree, place: bytes) -> None:
    """Writes a tree at a path where nothing is; it needs the right to change owners.

    All that it writes has one time, which no other tree has: BuildKit keeps a source by the name of its directory, and
    a file of the same size and time is not read again.
    """
    moment = next(MOMENTS)
    for path in sorted(tree):
        at = b"/".join((place, *path))
        content = tree[path].content
        if content is None:
            os.mkdir(at, 0o700)
        elif content.startswith(LINK):
            os.symlink(bytes.fromhex(content.removeprefix(LINK).decode("ascii")), at)
        elif content.startswith(HARD_LINK):
            os.link(b"/".join((place, bytes.fromhex(content.split(b"-")[1].decode("ascii")))), at)
        else:
            pathlib.Path(os.fsdecode(at)).write_bytes(bytes.fromhex(content.decode("ascii")))
    for path in sorted(tree, reverse=True):
        at = b"/".join((place, *path))
        with contextlib.suppress(OSError):
            os.chown(at, tree[path].user, tree[path].group, follow_symlinks=False)
        if not (tree[path].content or b"").startswith(LINK):
            os.chmod(at, tree[path].mode)
        os.utime(at, ns=(moment, moment), follow_symlinks=False)


def tree_in(archive: str) -> Tree:
    """Reads the tree of a tar that the daemon made, which has no root."""
    tree = tree_maps.empty()
    with tarfile.open(archive, errors="surrogateescape") as opened:
        for one in opened:
            path = tuple(os.fsencode(part) for part in one.name.split("/") if part not in ("", "."))
            if one.isdir():
                content = None
            elif one.issym():
                content = LINK + os.fsencode(one.linkname).hex().encode("ascii")
            elif one.islnk():
                content = tree[tuple(os.fsencode(part) for part in one.linkname.split("/") if part)].content
            else:
                file = opened.extractfile(one)
                content = file.read().hex().encode("ascii") if file else b""
            if path:
                tree[path] = Entry(one.mode & 0o7777, one.uid, one.gid, content)
    return tree


def names_in(text: str) -> frozenset[str]:
    """Returns the names at the ends of the warnings that buildctl printed."""
    return frozenset(name for names in WARNED.findall(text) for name in names.split(", "))


def said_in(text: str) -> str:
    """Returns the error that buildctl printed last, with the line of advice that may follow, or else its last line."""
    lines = text.strip().splitlines()
    start = max((place for place, line in enumerate(lines) if line.startswith("error: ")), default=len(lines) - 1)
    return "; ".join(lines[max(start, 0) :])


class Daemon:
    """A daemon at an address; each build has the options of `words`."""

    numbers = itertools.count()

    def __init__(self, buildctl: str, address: str, *words: str) -> None:
        self.command = [buildctl, "--addr", address, "--timeout", str(MOST_SECONDS)]
        self.words = words

    def answers(self) -> bool:
        """Returns whether the daemon answers."""
        done = subprocess.run([*self.command, "debug", "workers"], capture_output=True, timeout=MOST_SECONDS)
        return done.returncode == 0

    def run(self, data: bytes, sources: dict[str, Tree]) -> Ran:
        """Runs a definition on the trees of its sources."""
        return self.again(sources, lambda places: (data, local_words(places)))

    def run_dockerfile(self, dockerfile: bytes, context: Tree, *words: str) -> Ran:
        """Runs a Dockerfile on its context, with further words of the client."""
        file: Tree = {(): tree_maps.ROOT, (b"Dockerfile",): Entry(0o644, 0, 0, dockerfile.hex().encode("ascii"))}

        def words_of(places: dict[str, str]) -> tuple[bytes, list[str]]:
            # The frontend takes another name for the directory of the Dockerfile; that of the context has one name.
            name = f"dockerfile-{os.getpid()}-{next(self.numbers)}"
            named = {"context": places["context"], name: places["dockerfile"]}
            return b"", ["--frontend", FRONTEND, "--opt", f"dockerfilekey={name}", *words, *local_words(named)]

        return self.again({"context": context, "dockerfile": file}, words_of)

    def again(self, trees: dict[str, Tree], given: Callable[[dict[str, str]], tuple[bytes, list[str]]]) -> Ran:
        """Builds with directories of trees, again if the daemon was too busy."""
        for _ in range(TRIES - 1):
            with contextlib.suppress(DaemonBusy):
                return self.once(trees, given)
        return self.once(trees, given)

    def once(self, trees: dict[str, Tree], given: Callable[[dict[str, str]], tuple[bytes, list[str]]]) -> Ran:
        """Builds with directories of trees, once."""
        with tempfile.TemporaryDirectory(prefix="llbm-against-") as folder:
            places = {name: os.path.join(folder, f"source{number}") for number, name in enumerate(trees)}
            for name, place in places.items():
                write_tree(trees[name], os.fsencode(place))
            return self.built(*given(places), os.path.join(folder, "result.tar"))

    def exported(self, data: bytes, sources: dict[str, Tree], kind: str, place: str) -> str | None:
        """Exports a definition's result to a place, and returns the error of the build, or None."""
        with tempfile.TemporaryDirectory(prefix="llbm-against-") as folder:
            places = {name: os.path.join(folder, f"source{number}") for number, name in enumerate(sources)}
            for name, at in places.items():
                write_tree(sources[name], os.fsencode(at))
            done = self.called(data, local_words(places), f"type={kind},dest={place}")
        return said_in(done.stderr.decode("utf-8", "replace")) if done.returncode else None

    def called(self, data: bytes, words: list[str], output: str) -> subprocess.CompletedProcess[bytes]:
        """Calls buildctl."""
        return subprocess.run(
            [*self.command, "build", "--progress=plain", *self.words, *words, "--output", output],
            input=data, capture_output=True, timeout=MOST_SECONDS,
        )  # fmt: skip

    def built(self, data: bytes, words: list[str], archive: str) -> Ran:
        """Builds a definition, or what the words say."""
        done = self.called(data, words, f"type=tar,dest={archive}")
        text = done.stderr.decode("utf-8", "replace")
        if done.returncode == 0:
            return Ran(tree_in(archive), "", names_in(text))
        said = said_in(text)
        if any(word in said for word in LOST) and not self.answers():
            raise DaemonLost(said)
        if any(word in said for word in BUSY):
            raise DaemonBusy(said)
        return Ran(None, said, names_in(text))


def local_words(places: dict[str, str]) -> list[str]:
    """Returns the words for local directories."""
    return [word for name, place in places.items() for word in ("--local", f"{name}={place}")]
