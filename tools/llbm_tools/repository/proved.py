"""Prints the public calls of crates: for each its signature, a sentence, and the names of its clauses.

In: the sources in crates/, of the crates that are named, or of all that crates.txt names, in its order. A call is a
public function that a crate exports, also to C, or a function of a public trait, whose contract every implementation
meets. The sentence is the first one of its docstring. Clauses without a name are written `one clause` (or `N
clauses`); `asks` names the conditions that the caller has to meet. The clauses are at the call, over the definitions
of specs/.

Out: on standard output, for each crate, its name and a list. `dev/dev test repository` fails for a call without a
clause or a docstring, and for a clause that a page names and no call has.

Exit status: 0 done; 2 the command line is refused; 3 a read or a write failed.
"""

import argparse
import dataclasses
import pathlib
import re
import sys
import textwrap
from collections.abc import Iterator

from llbm_tools.command_line import Parser
from llbm_tools.common import check_open
from llbm_tools.paths import ROOT
from llbm_tools.streams import exit_status

OUTSIDE = {"llb_samples", "llb_examples", "llb_refusals"}
# The calls that need no clause, each with the reason.
WITHOUT = {"Many::allocator": "contracts see a list by its items alone, and not where its memory comes from"}
COLUMNS = 156

OWNER = re.compile(r"(?:pub (trait)|impl)(?:<.*?>)? (?:.* for )?(\w+)")
START = re.compile(r'(\s*)(pub )?(?:const |unsafe |extern "C" )?fn (\w+)')
CLAUSE = re.compile(r"\s*(ensures|requires)(?: (\w+))? ?\{")


@dataclasses.dataclass
class Call:
    """A function, as its source has it."""

    owner: str
    module: str
    name: str
    doc: str
    signature: str = ""
    ensures: list[str] = dataclasses.field(default_factory=list)
    requires: list[str] = dataclasses.field(default_factory=list)


def exported(crate: pathlib.Path) -> set[str]:
    """Returns the names that the crate's root file exports, and its public modules."""
    roots = (crate / "src" / name for name in ("lib.rt", "main.rt"))
    root = next(path for path in roots if path.exists()).read_text("utf-8")
    names = {f"mod {module}" for module in re.findall(r"^pub mod (\w+);", root, re.M)}
    for group, single in re.findall(r"^pub use [\w:]+::(?:\{([^}]*)\}|(\w+));", root, re.M | re.S):
        names.update(name.strip() for name in (group or single).split(",") if name.strip())
    names.update(re.findall(r'^pub extern "C" fn (\w+)', root, re.M))
    return names


def head_of(lines: list[str], at: int) -> tuple[str, list[str], list[str], int]:
    """Returns the signature that begins on a line, its clauses of both kinds, and the line after it. Comments go."""
    signature: list[str] = []
    clauses: dict[str, list[str]] = {"ensures": [], "requires": []}
    depth = 0
    while at < len(lines):
        line = lines[at]
        found = None if depth else CLAUSE.match(line)
        if found:
            clauses[found[1]].append(found[2] or "")
        if found or depth:
            depth += line.count("{") - line.count("}")
            if not depth and line.rstrip().endswith(";"):
                break
        elif not line.lstrip().startswith("//"):
            bare = line.strip()
            signature.append(bare.removesuffix("{}").removesuffix("{").removesuffix(";").strip())
            if bare.endswith(("{", "{}", ";")):
                break
        at += 1
    text = " ".join(filter(None, signature)).replace("( ", "(").replace(",)", ")")
    return re.sub(r", \)", ")", text).removeprefix("pub "), clauses["ensures"], clauses["requires"], at + 1


def calls(path: pathlib.Path) -> list[Call]:
    """Returns the public functions of a source, and those of its public traits."""
    found, owner, in_trait, doc, at = [], "", False, [], 0
    lines = path.read_text("utf-8").split("\n")
    while at < len(lines):
        line = lines[at]
        at += 1
        if text := re.match(r"\s*/// ?(.*)", line):
            doc.append(text[1])
            continue
        if head := OWNER.match(line):
            in_trait = bool(head[1])
            owner = head[2] if in_trait or " for " not in line.split("{")[0] else ""
        start = START.match(line)
        if start and (start[2] or (in_trait and start[1])):
            call = Call(owner if start[1] else "", path.stem, start[3], " ".join(doc))
            call.signature, call.ensures, call.requires, at = head_of(lines, at - 1)
            found.append(call)
        if line == "}":
            owner, in_trait = "", False
        if not line.lstrip().startswith("#["):
            doc = []
    return found


def clauses(names: list[str]) -> str:
    """Describes the clauses of a contract."""
    named = [f"`{name}`" for name in names if name]
    bare = len(names) - len(named)
    return ", ".join(named + ([] if not bare else ["one clause" if bare == 1 else f"{bare} clauses"]))


def sentence(doc: str) -> str:
    """Returns the first sentence of a docstring, with its full stop."""
    first = re.split(r"(?<=[.])\s+(?=[A-Z`(0-9])", doc.strip(), maxsplit=1)[0]
    return first if first.endswith(".") else f"{first}."


def item(call: Call, full: str) -> str:
    """Returns a call as an item of its crate's list."""
    asks = f"; asks {clauses(call.requires)}" if call.requires else ""
    promised = clauses(call.ensures) or f"no clause: {WITHOUT.get(full, '')}"
    where = f"{full.rpartition('::')[0]}::" if "::" in full else ""
    signature = call.signature.removeprefix("const ").removeprefix("unsafe ").removeprefix('extern "C" ')
    signature = signature.removeprefix("fn ")
    text = f"- `{where}{signature}`: {sentence(call.doc)} *{promised}{asks}*"
    return textwrap.fill(text, COLUMNS, subsequent_indent="  ", break_long_words=False, break_on_hyphens=False)


def public(crate: pathlib.Path) -> Iterator[tuple[str, Call]]:
    """Yields the public calls of a crate, each with its full name."""
    names = exported(crate)
    for path in sorted((crate / "src").rglob("*.rt")):
        for call in [] if "tests" in path.parts else calls(path):
            module = f"mod {call.module}" in names
            if not (call.owner in names or (not call.owner and (call.name in names or module))):
                continue
            before = call.owner or (call.module if module else "")
            yield f"{before}::{call.name}" if before else call.name, call


def wrong() -> Iterator[str]:
    """Yields what is wrong with the public calls of all crates."""
    for crate in crates():
        for full, call in public(crate):
            if not call.ensures and full not in WITHOUT:
                yield f"{crate.name}: `{full}` has no clause"
            if not call.doc:
                yield f"{crate.name}: `{full}` has no docstring"


def crates() -> list[pathlib.Path]:
    """Returns the crates with code to be called, in the order of crates.txt."""
    names = (line.partition(":")[0].split() for line in (ROOT / "crates.txt").read_text("utf-8").splitlines())
    return [ROOT / "crates" / it[0] for it in names if it and not it[0].startswith("#") and it[0] not in OUTSIDE]


def parse_options() -> argparse.Namespace:
    """Parses the command line."""
    parser = Parser(description="Prints the public calls of crates, with their clauses.")
    parser.add_argument("crates", metavar="CRATE", nargs="*", help="default: all")
    options = parser.parse_args()
    known = {crate.name for crate in crates()}
    if unknown := [name for name in options.crates if name not in known]:
        parser.error(f"there is no crate {unknown[0]} with public calls")
    return options


def show(names: list[str]) -> int:
    """Prints the lists of these crates, or of all, and returns the exit status."""
    check_open(sys.stdout, "standard output")
    for crate in crates():
        if not names or crate.name in names:
            print(f"## `{crate.name}`", "", *(item(call, full) for full, call in public(crate)), "", sep="\n")
    sys.stdout.flush()
    return 0


def main() -> int:
    """Runs the tool, and returns its exit status."""
    names = parse_options().crates
    return exit_status(lambda: show(names))
