"""The files of the page: what is in page/, the examples of its menu, and the tables that it shares with the tools."""

import json
import pathlib
from collections.abc import Iterator
from typing import NamedTuple

from llbm_tools.llb import local_names, ops
from llbm_tools.page import fault_sentences
from llbm_tools.paths import ROOT

STATIC = ROOT / "page"
EXAMPLES = ROOT / "examples"
MODULE = "llbm.wasm"
TABLES = "tables.json"
# A server of files has no builds; `llbm-tools page --serve` answers with its own.
BUILDS, NO_BUILDS = "builds.json", b"[]\n"
# The fields without an effect, which the daemon and the tools know from the program llbm-rules.
FIELDS = ROOT / "daemon" / "internal" / "notes" / "fields.json"


class Example(NamedTuple):
    """An example of the menu: a folder of examples/, or the name of files there, and its title."""

    name: str
    title: str


MENU = (
    Example("workers", "Three workers at once, and a locked cache"),
    Example("tour", "Tour: a source, a file op, and an exec with three mounts"),
    Example("first-run", "One file"),
    Example("copy", "Copy: a project with some of its files"),
    Example("merge", "Merge: three trees laid over one another"),
    Example("execution", "Execution: scripts over mounts"),
    Example("cache", "Cache: two executions on one locked cache"),
    Example("failure", "Failure: a vertex that fails"),
    Example("from-buildkit/exec", "From BuildKit's client: executions"),
    Example("from-buildkit/dockerfile", "From BuildKit's client: a Dockerfile"),
)


class Shown(NamedTuple):
    """What the menu has of an example: the definition's file, and the files of the local sources by name."""

    definition: pathlib.Path
    locals: dict[str, pathlib.Path]
    workers: int


def shown(example: Example) -> Shown:
    """Returns the files of an example; the tree of a local source is named for it."""
    folder = EXAMPLES / example.name
    if not folder.is_dir():
        tree = EXAMPLES / f"{example.name}.tree"
        return Shown(EXAMPLES / f"{example.name}.text", {"source": tree} if tree.exists() else {}, 2)
    text = folder / "definition.text"
    given = {tree.stem: tree for tree in sorted(folder.glob("*.tree"))}
    workers = 3 if example.name == "workers" else 2
    return Shown(text if text.exists() else folder / "definition", given, workers)


def example_files() -> Iterator[tuple[str, bytes]]:
    """Yields the files of the examples, and the list of them."""
    listed = []
    for example in MENU:
        found = shown(example)
        places = {name: file.relative_to(EXAMPLES).as_posix() for name, file in found.locals.items()}
        definition = found.definition.relative_to(EXAMPLES).as_posix()
        for file in (found.definition, *found.locals.values()):
            yield f"examples/{file.relative_to(EXAMPLES).as_posix()}", file.read_bytes()
        listed.append({**example._asdict(), "definition": definition, "locals": places, "workers": found.workers})
    yield "examples/list.json", json.dumps(listed, indent=1).encode()


def message_table() -> dict[str, list[dict[str, object]]]:
    """Returns the fields of each message of a definition, in the order of `ops`."""
    messages: dict[str, type[ops.Message]] = {**ops.MESSAGES}
    messages["Definition"] = ops.Definition
    return {
        name: [
            {
                "number": field.number, "kind": field.kind.__name__ if isinstance(field.kind, type) else field.kind,
                "isMessage": isinstance(field.kind, type), "repeated": field.repeated, "member": field.member,
                "name": field.name,
            }
            for field in ops.fields_of(message).values()
        ]
        for name, message in messages.items()
    }  # fmt: skip


def tables() -> bytes:
    """Returns the tables that the page shares with the tools, as JSON."""
    schemes = {"all": local_names.SCHEMES, "images": local_names.IMAGES}
    notes = json.loads(FIELDS.read_text("utf-8"))
    found = {"faults": fault_sentences.table(), "messages": message_table(), "schemes": schemes, "notes": notes}
    return json.dumps(found, separators=(",", ":")).encode()


def static_files() -> Iterator[tuple[str, bytes]]:
    """Yields the files of page/."""
    for file in sorted(STATIC.iterdir()):
        if file.is_file():
            yield file.name, file.read_bytes()


def files(module: bytes | None) -> dict[str, bytes]:
    """Returns all files of the page by path, with a module if one is given."""
    made = {} if module is None else {MODULE: module}
    return {**dict(static_files()), **dict(example_files()), TABLES: tables(), BUILDS: NO_BUILDS, **made}


def made_files(folder: pathlib.Path) -> dict[str, bytes]:
    """Returns the files of a page that is made, by path, but its module; none if there is no such folder."""
    found = {file.relative_to(folder).as_posix(): file for file in folder.rglob("*") if file.is_file()}
    return {path: file.read_bytes() for path, file in found.items() if path != MODULE}


def write(folder: pathlib.Path, module: bytes | None) -> None:
    """Writes all files of the page into a folder; those of the same names are replaced."""
    for path, content in files(module).items():
        place = folder / path
        place.parent.mkdir(parents=True, exist_ok=True)
        place.write_bytes(content)
