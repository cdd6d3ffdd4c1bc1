"""Reads the definitions of specs/ and the clauses of functions, and finds what a statement depends on.

A definition is an item of a file `crates/CRATE/specs/FILE.antt` with the comment above it. A name in it is looked up
among the items of its own file, then in the file's `use` lines; `pub use` re-exports a name. Definitions of the
toolchain's library are not followed. A name that a Rust item of src/ declares (`specs.declared`) is a type to be read
there.

A name of a variable or a field is treated as the definition with the same name if there is one, so a list can be too
long by a few definitions, but never too short.
"""

import dataclasses
import pathlib
import re
from collections.abc import Iterator

from llbm_tools.paths import ROOT

MODIFIERS = r"(?:(?:pub|abbrev|unfoldable|opaque)\s+)*"
TYPE = re.compile(rf"{MODIFIERS}(?:record|data)\s+(\S+)")
SIGNED = re.compile(rf"{MODIFIERS}(\S+)\s+:\s")
INNER = re.compile(rf"\s+{MODIFIERS}(\S+)\s+:\s")
USE = re.compile(r"(?:ghost |pub )*use\s+([\w.]+?)(?:\.\{(.*)\}|\s+as\s+(\w+))?;?\s*$", re.S)
WORD = re.compile(r"(?<![\w.'-])((?:[A-Za-z_]\w*\.)?[A-Za-z_≡≢≤]?[\w'≡≢≤-]*)")
INFIX = re.compile(r"[^\w\s(){}\[\].,;:λ→≡×◌]+")


@dataclasses.dataclass
class Definition:
    """An item of specs/, with the lines of its comment; lines are counted from 1."""

    crate: str
    file: str
    name: str
    first: int
    lines: list[str]

    def __hash__(self) -> int:
        return hash((self.crate, self.file, self.first))

    def __eq__(self, other: object) -> bool:
        return hash(self) == hash(other)

    def comments(self) -> int:
        """Returns how many of the lines are comments."""
        return sum(line.lstrip().startswith("--") for line in self.lines)

    def text(self) -> str:
        """Returns the lines without comments."""
        return "\n".join(line.split("-- ")[0] for line in self.lines if not line.lstrip().startswith("--"))


@dataclasses.dataclass
class Unit:
    """The items of a file, and what its `use` lines import: definitions by name, and whole files by alias."""

    items: dict[str, Definition] = dataclasses.field(default_factory=dict)
    brought: dict[str, tuple[str, str]] = dataclasses.field(default_factory=dict)
    words: dict[str, str] = dataclasses.field(default_factory=dict)


def read_use(unit: Unit, text: str) -> None:
    """Adds the imports of one `use` line."""
    found = USE.match(" ".join(text.split()))
    if not found:
        return
    path, names, word = found.groups()
    if word:
        unit.words[word] = path
    elif names is not None:
        for part in filter(None, (it.strip() for it in names.split(","))):
            name, _, other = part.partition(" as ")
            unit.brought[other.strip() or name.strip()] = (path, name.strip())


def name_defined_on(line: str) -> str | None:
    """Returns the name of the definition that begins on a line, or None."""
    if found := TYPE.match(line):
        return found[1]
    if found := SIGNED.match(line):
        return found[1]
    return "_" if line.startswith("module ") else None


def read_unit(crate: str, file: str, text: str) -> Unit:
    """Parses a file of specs/."""
    unit, current, comment, use = Unit(), None, [], ""
    for number, line in enumerate(text.split("\n"), 1):
        if use or re.match(r"(?:pub )?use ", line):
            use += line + "\n"
            if "{" not in use or "}" in use:
                read_use(unit, use)
                use = ""
            continue
        if line.startswith("pub mod "):
            continue
        if line.startswith("--"):
            comment.append(line)
        elif not line.strip():
            comment = []
        elif name := None if line[0].isspace() else name_defined_on(line):
            current = Definition(crate, file, name, number - len(comment), [*comment, line])
            unit.items.setdefault(name, current)
            comment = []
        elif current:
            current.lines += [*comment, line]
            comment = []
            if inner := INNER.match(line):
                unit.items.setdefault(inner[1], current)
    return unit


class Library:
    """All definitions of the repository, read on demand."""

    def __init__(self, root: pathlib.Path = ROOT) -> None:
        self.root = root
        self.units: dict[tuple[str, str], Unit | None] = {}

    def unit(self, crate: str, file: str) -> Unit | None:
        """Returns the file with this name, or None."""
        if (crate, file) not in self.units:
            path = self.root / "crates" / crate / "specs" / f"{file}.antt"
            there = path.is_file()
            self.units[crate, file] = read_unit(crate, file, path.read_text("utf-8")) if there else None
        return self.units[crate, file]

    def resolve_path(self, path: str, name: str) -> Definition | str | None:
        """Resolves a path and a name to a definition or a type of src/, or None if it is not of this repository."""
        parts = path.removesuffix(".TheVariants").split(".")
        if parts[0] != "Rattle" or parts[2:3] != ["specs"] or not (self.root / "crates" / parts[1]).is_dir():
            return None
        if parts[3:4] == ["declared"]:
            return f"{parts[1]}/src/{'/'.join(parts[4:-1]) or 'lib'}.rt {parts[-1]}"
        unit = self.unit(parts[1], parts[3]) if len(parts) == 4 else None
        return self.resolve(unit, name) if unit else None

    def resolve(self, unit: Unit, word: str) -> Definition | str | None:
        """Resolves a word of a file."""
        head, dot, rest = word.partition(".")
        if dot and head in unit.words:
            return self.resolve_path(unit.words[head], rest)
        if head in unit.items:
            return unit.items[head]
        if head in unit.brought:
            return self.resolve_path(*unit.brought[head])
        return None

    def used(self, unit: Unit, text: str) -> Iterator[Definition | str]:
        """Yields what the words of a text resolve to, in order."""
        for word in WORD.findall(text):
            if word and (found := self.resolve(unit, word)) is not None:
                yield found
        for sign in INFIX.findall(text):
            if (found := self.resolve(unit, f"◌{sign}◌")) is not None:
                yield found

    def cone(self, unit: Unit, text: str) -> tuple[list[Definition], list[str]]:
        """Returns all that a statement depends on, nearest first: the definitions, and the types of src/."""
        reached: dict[Definition, None] = {}
        types: dict[str, None] = {}
        left = list(self.used(unit, text))
        while left:
            later: list[Definition | str] = []
            for one in left:
                if isinstance(one, str):
                    types[one] = None
                elif one not in reached:
                    reached[one] = None
                    later += self.used(self.unit(one.crate, one.file) or Unit(), one.text())
            left = later
        return list(reached), list(types)


def contract(file: pathlib.Path, name: str) -> tuple[Unit, str]:
    """Returns the clauses of a public function, and the `ghost use` lines of its file."""
    unit, inside, depth = Unit(), False, 0
    clauses: list[str] = []
    text = file.read_text("utf-8")
    for use in re.findall(r"^\s*ghost use [^;]*;", text, re.M):
        read_use(unit, use.strip())
    for line in text.split("\n"):
        if re.match(rf"\s*pub fn {name}\b", line):
            inside = True
        if not inside:
            continue
        if not depth and line.strip() == "{":
            return unit, "\n".join(clauses)
        if depth or re.match(r"\s*(?:ensures|requires)\b", line):
            clauses.append(line)
            depth += line.count("{") - line.count("}")
    raise ValueError(f"there is no public function {name}: {file}")
