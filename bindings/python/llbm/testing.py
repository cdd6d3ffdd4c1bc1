"""What tests of a frontend need: what it makes is solved in the test, and the tree that comes out is compared.

    result = solve(definition, Dir("src", folder), Files("ctx", {"a": "text"}), Image("alpine:3.19", folder))
    result.file("/x").equals("text").mode(0o644).owner(7, 5)
    result.missing("/y").golden("testdata/r.tree").same_as_buildkit()
    fails(definition, "there is no file /src/b.txt", Files("src", {}))

A definition is the bytes that a client marshals. It is solved in this process if the library is there (LIBLLBM names
its shared object), or else by the program that LLBM names; if neither is there, the test is skipped, with these names.
Images, reasons and BuildKit's rules are those of llbm-tools, which LLBM_TOOLS names, or else it is on the path; filters
of a source are those of llbm-rules, which LLBM_RULES names. For pytest, `pytest_plugins = ["llbm.testing"]` adds the
option `--update`, which writes golden trees anew, and the fixtures `solve` and `fails`, which take the paths of golden
trees from the folder of the test; elsewhere the variable LLBM_UPDATE does what the option does.
"""

import os
import pathlib
import shutil
import stat
import subprocess
import tempfile
import unittest
from collections.abc import Iterator, Mapping, Sequence
from typing import Any, NamedTuple, NoReturn

from llbm import Fault, Machine, library_there
from llbm.trees import Entry, Tree

UPDATE = "LLBM_UPDATE"
PROGRAM, TOOLS, RULES = "LLBM", "LLBM_TOOLS", "LLBM_RULES"
FILTERS = (b"local.includepattern", b"local.excludepatterns", b"local.followpaths")
LOCAL, IMAGE = "local://", "docker-image://"
REFUSED = 2
# By these pytest and unittest show a failure at the line of the test, and no line of this module.
__tracebackhide__ = __unittest = True
# What skips a test; pytest has its own, which keeps the line of the test.
_skipped: Any = unittest.SkipTest


class Dir(NamedTuple):
    """A directory as the local source of a name. As from a client of BuildKit, its filters select what is in it, and all
    is owned by 0:0.
    """

    name: str
    folder: str | os.PathLike[str]


class Files(NamedTuple):
    """A local source with these files, by their paths, each of mode 0644; its filters select among them."""

    name: str
    files: Mapping[str, str | bytes]


class Image(NamedTuple):
    """A directory in the place of an image, such as alpine:3.19. All in it is owned by 0:0."""

    name: str
    folder: str | os.PathLike[str]


Source = Dir | Files | Image


def tools() -> str | None:
    """Returns the path of llbm-tools, or None if it is not there."""
    return shutil.which(os.environ.get(TOOLS) or "llbm-tools")


def _skip(why: str) -> NoReturn:
    raise _skipped(why)


def _check(is_so: bool, otherwise: str) -> None:
    if not is_so:
        raise AssertionError(otherwise)


def _tools_for(what: str) -> str:
    return tools() or _skip(f"llbm-tools, which {what}, is neither in {TOOLS} nor on the path")


def _with_program() -> list[str]:
    named = os.environ.get(PROGRAM)
    return ["--llbm", named] if named else []


def _called(words: Sequence[str | os.PathLike[str]], given: bytes = b"") -> subprocess.CompletedProcess[bytes]:
    return subprocess.run(words, input=given, capture_output=True)


class _Solving:
    """A definition in a folder, with the texts of the trees of its sources."""

    def __init__(self, definition: bytes, sources: Sequence[Source], folder: pathlib.Path) -> None:
        self.definition = definition
        self.folder = folder
        self.trees: dict[str, str] = {}
        names = self._adopt(definition) if any(isinstance(one, Image) for one in sources) else {}
        for number, source in enumerate(sources):
            place = self._place_of(source, number)
            if isinstance(source, Image):
                name = names.get(_image_name(source.name), "")
                _check(name != "", f"the definition has no image {source.name}")
            else:
                name = source.name
                _check(_has_source(definition, LOCAL + name), f"the definition has no local source {name}")
            paths = None if isinstance(source, Image) else self._selected(name, place)
            self.trees[name] = _tree_at(place, paths, is_made=isinstance(source, Files)).text()

    def _place_of(self, source: Source, number: int) -> pathlib.Path:
        if not isinstance(source, Files):
            return pathlib.Path(source.folder)
        folder = self.folder / f"files-{number}"
        folder.mkdir()
        for path, content in source.files.items():
            place = folder / path.lstrip("/")
            place.parent.mkdir(parents=True, exist_ok=True)
            place.write_bytes(content if isinstance(content, bytes) else content.encode())
        return folder

    def _adopt(self, definition: bytes) -> dict[str, str]:
        """Puts local sources in the place of images, and returns their names by those of the images."""
        adopted, sources = self.folder / "adopted", self.folder / "sources"
        words = [_tools_for("replaces images"), "adopt", "--leave", "-o", adopted, "--sources", sources, "-"]
        done = _called(words, definition)
        _check(done.returncode == 0, done.stderr.decode("utf-8", "replace"))
        self.definition = adopted.read_bytes()
        pairs = (line.split("\t") for line in sources.read_text("utf-8").splitlines())
        return {_image_name(old.removeprefix(IMAGE)): name for name, old in pairs if old.startswith(IMAGE)}

    def _selected(self, name: str, place: pathlib.Path) -> set[str] | None:
        """Returns the paths that the filters of a local source select, or None if there are none."""
        if not any(filters in self.definition for filters in FILTERS):
            return None
        rules = os.environ.get(RULES) or shutil.which("llbm-rules")
        if not rules:
            _skip(f"llbm-rules, which applies filters, is neither {RULES} nor on the path")
        done = _called([rules, "select", name, place], self.definition)
        _check(done.returncode == 0, done.stderr.decode("utf-8", "replace"))
        paths = set(map(os.fsdecode, done.stdout.split(b"\0")[:-1]))
        return None if paths == {"."} else paths

    def given(self) -> list[str]:
        """Writes the trees into files, and returns NAME=FILE of each."""
        words = []
        for number, (name, text) in enumerate(self.trees.items()):
            (self.folder / f"{number}.tree").write_text(text, "utf-8")
            words.append(f"{name}={self.folder / f'{number}.tree'}")
        return words

    def run(self) -> str:
        """Returns the text of the result; Fault if there is none."""
        try:
            machine = Machine(library_there())
        except OSError as fault:
            return self._run_by(os.environ.get(PROGRAM), fault)
        with machine:
            for name, text in self.trees.items():
                machine.add_local(name, text)
            return machine.run(self.definition)

    def _run_by(self, program: str | None, fault: OSError) -> str:
        if not program:
            _skip(f"there is nothing to solve it with: {fault}, and {PROGRAM} names no program llbm")
        try:
            done = _called([program, "run", *self.given()], self.definition)
        except OSError as why:
            raise AssertionError(f"{PROGRAM} names no program that starts: {why}") from None
        if done.returncode:
            raise Fault(done.returncode, done.stderr.decode("utf-8", "replace"))
        return done.stdout.decode()

    def reason(self, fault: Fault) -> str:
        """Returns why the definition is refused or fails: the fault, and what llbm-tools says of it, if it is there."""
        there = tools()
        if not there:
            return f"{fault.messages}(llbm-tools, which says why, is neither in {TOOLS} nor on the path)"
        done = _called([there, "run", *_with_program(), "run", *self.given()], self.definition)
        return done.stderr.decode("utf-8", "replace") or fault.messages


def _has_source(definition: bytes, identifier: str) -> bool:
    """Returns whether a definition has a source, an identifier after its length in one byte or two."""
    text = identifier.encode()
    length = [len(text)] if len(text) < 128 else [len(text) % 128 + 128, len(text) // 128]
    return bytes(length) + text in definition


def _image_name(name: str) -> str:
    """Returns the name and the tag of an image, without what is added to them by default, and without a digest."""
    name = name.removeprefix("docker.io/").removeprefix("library/")
    named, _, digest = name.partition("@")
    if ":" not in named.rpartition("/")[2] and not digest:
        return f"{named}:latest"
    return named if ":" in named.rpartition("/")[2] else name


def _tree_at(folder: pathlib.Path, paths: set[str] | None, *, is_made: bool) -> Tree:
    """Returns the tree of a directory, or of the paths that are selected in it."""

    def entries() -> Iterator[Entry]:
        for place in sorted(folder.rglob("*")):
            path = place.relative_to(folder).as_posix()
            if paths is not None and path not in paths:
                continue
            found = place.lstat()
            is_directory = stat.S_ISDIR(found.st_mode)
            is_taken = is_directory or stat.S_ISREG(found.st_mode)
            _check(is_taken, f"a tree has only directories and files, not a link or the like: {place}")
            mode = (0o755 if is_directory else 0o644) if is_made else stat.S_IMODE(found.st_mode)
            yield Entry(f"/{path}", is_directory, mode, content=b"" if is_directory else place.read_bytes())

    _check(folder.is_dir(), f"there is no such directory: {folder}")
    return Tree(*entries())


class File(NamedTuple):
    """What is at a path of a result; each check raises AssertionError if it is not so."""

    entry: Entry

    def equals(self, content: str | bytes) -> "File":
        """Checks that it is a file with this content."""
        wanted = content if isinstance(content, bytes) else content.encode()
        _check(not self.entry.is_directory, f"{self.entry.path} is a directory, not a file with {content!r}")
        is_so = self.entry.content == wanted
        _check(is_so, f"{self.entry.path} has not the content {content!r}: {self.entry.shown()}")
        return self

    def mode(self, mode: int) -> "File":
        """Checks the mode, as 0o644."""
        found = self.entry.mode
        _check(found == mode, f"{self.entry.path} has not the mode {mode:04o}, but {found:04o}")
        return self

    def owner(self, user: int, group: int) -> "File":
        """Checks the user and the group."""
        found = (self.entry.uid, self.entry.gid)
        is_so = found == (user, group)
        _check(is_so, f"{self.entry.path} has not the owner {user}:{group}, but {found[0]}:{found[1]}")
        return self


class Result:
    """The tree of a definition that was solved in a test."""

    def __init__(self, tree: Tree, definition: bytes, trees: Mapping[str, str], folder: pathlib.Path | None) -> None:
        self.tree = tree
        self._definition = definition
        self._trees = trees
        self._folder = folder

    def file(self, path: str) -> File:
        """Returns what is at a path; AssertionError if nothing is there."""
        _check(path in self.tree, f"there is nothing at {path} in\n{self.tree.shown()}")
        return File(self.tree[path])

    def missing(self, path: str) -> "Result":
        """Checks that nothing is at a path."""
        if path in self.tree:
            _check(False, f"there is something at {path}: {self.tree[path].shown()}")
        return self

    def golden(self, file: str | os.PathLike[str]) -> "Result":
        """Checks that the tree is that of a file; if golden trees are updated, writes the file."""
        place = (self._folder or pathlib.Path()) / file
        if os.environ.get(UPDATE):
            place.parent.mkdir(parents=True, exist_ok=True)
            new = place.with_name(f"{place.name}.new")
            new.write_text(self.tree.text(), "utf-8")
            new.replace(place)
            return self
        _check(place.is_file(), f"there is no golden tree {place}; pytest --update, or the variable {UPDATE}, writes it")
        difference = Tree.parse(place.read_text("utf-8")).diff(self.tree)
        _check(not difference, f"the tree is not that of {place} (-), which --update writes anew:\n{difference}")
        return self

    def same_as_buildkit(self) -> "Result":
        """Checks that BuildKit makes the same tree, by the rules that llbm-rules has; the failure has the notes."""
        words = [_tools_for("has BuildKit's rules"), "explain", "buildkit", *_with_program()]
        with tempfile.TemporaryDirectory(prefix="llbm-testing-") as folder:
            solving = _Solving(self._definition, [], pathlib.Path(folder))
            solving.trees.update(self._trees)
            done = _called([*words, "-", *solving.given()], self._definition)
        said = (done.stdout + done.stderr).decode("utf-8", "replace")
        _check(done.returncode == 0, f"BuildKit makes another tree:\n{said}")
        return self


def _solved(
    definition: bytes, sources: Sequence[Source], place: pathlib.Path | None
) -> tuple[Result | None, str]:
    """Returns the result of a definition, or None and why there is none."""
    with tempfile.TemporaryDirectory(prefix="llbm-testing-") as folder:
        solving = _Solving(definition, sources, pathlib.Path(folder))
        try:
            tree = Tree.parse(solving.run())
        except Fault as fault:
            return None, solving.reason(fault)
        return Result(tree, solving.definition, solving.trees, place), ""


def solve(definition: bytes, *sources: Source, folder: pathlib.Path | None = None) -> Result:
    """Returns what a definition makes; AssertionError with the reason if it is refused or fails."""
    result, reason = _solved(definition, sources, folder)
    if not result:
        raise AssertionError(f"llbm: {reason}")
    return result


def fails(definition: bytes, words: str, *sources: Source) -> None:
    """Checks that a definition is refused or fails, with a reason that has these words."""
    result, reason = _solved(definition, sources, None)
    if result:
        raise AssertionError(f"it does not fail with {words!r}, but makes\n{result.tree.shown()}")
    _check(words in reason, f"it does not fail with {words!r}, but with\n{reason}")


def pytest_addoption(parser: Any) -> None:
    """Adds the option of pytest."""
    parser.addoption("--update", action="store_true", help="write golden trees anew (llbm.testing)")


def pytest_configure(config: Any) -> None:
    """Takes the option of pytest, and skips tests as pytest does."""
    global _skipped
    _skipped = pytest.skip.Exception
    if config.getoption("--update"):
        os.environ[UPDATE] = "1"


try:
    import pytest
except ImportError:
    pass
else:

    @pytest.fixture(name="solve")
    def _solve_in_folder(request: Any) -> Any:
        """`solve`, with golden trees in the folder of the test."""
        return lambda definition, *sources: solve(definition, *sources, folder=request.path.parent)

    @pytest.fixture(name="fails")
    def _fails() -> Any:
        """`fails`."""
        return fails
