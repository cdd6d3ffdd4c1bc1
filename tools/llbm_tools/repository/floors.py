"""Checks that crates are built on what they say, and that proofs keep to the rule of the floors.

In: crates.txt and the sources in crates/ of the repository around this folder, or around --repository DIRECTORY. A
crate *uses* the crates of the repository that its src/, specs/ and proofs/ name. It is *built on* those that its src/
or specs/ use and that no other of these is built on. The head of a crate is the `//!` lines of its root file.

What is checked:

- The line of a crate in crates.txt names exactly what the crate uses, and what that is built on in turn.
- Where a head says `built on`, it names all crates that the crate is built on, and no other of the repository.
- A head names no crate that crates.txt lacks; and where it says that the crate knows no tree, graph, operation, worker
  or the like, the crate does not use the crate of these.
- The head of a crate's specs/Lib.antt, which is the order in which to read its files, names each of them.
- The proofs of a crate cite proofs of another crate only if that one lends them (LENDERS), or for
  `ThreadTransfers.antt`, which shows that a type may go to another thread.

Out: on standard output `PATH: what is wrong`, a line each.

Exit status: 0 nothing is wrong; 1 something is; 2 the command line is refused; 3 a read or a write failed.
"""

import argparse
import pathlib
import re
import sys
from collections.abc import Iterator

from llbm_tools.command_line import Parser
from llbm_tools.common import check_open
from llbm_tools.paths import ROOT
from llbm_tools.streams import exit_status


# The crates whose proofs others may cite, and which others; None for any.
LENDERS = {
    "llb_wire": None,
    "llb_model": None,
    "llb_tree": {"llb_merge", "llb_treetext", "llb_fileop", "llb_applet", "llb_laws"},
    "llb_glob": {"llb_fileop"},
    "llb_merge": {"llb_laws"},
    "llb_cache": {"llb_model", "llb_board"},
    "llb_ops": {"llb_asm", "llb_loader"},
    "llb_execution": {"llb_board"},
    "llb_fileop": {"llb_laws"},
    "llb_loader": {"llb_laws", "llb_findings"},
    "llb_board": {"llb_laws", "llb_progress"},
    "llb_stepper": {"llb_session"},
    "llb_commands": {"llb_embed"},
}
# The crate of what a head says that it does not know.
CRATE_OF = {
    "message": "llb_ops",
    "operation": "llb_ops",
    "tree": "llb_tree",
    "graph": "llb_loader",
    "vertex": "llb_loader",
    "event": "llb_events",
    "worker": "llb_board",
    "state": "llb_board",
    "board": "llb_board",
}

USED = re.compile(r"\b(\w+)(?:::|\.specs\b|\.proofs\b)")
CITED = re.compile(r"^\s*(?:pub )?use Rattle\.(\w+)\.proofs\.", re.M)
# A word before a parenthesis is a call.
NAMED = re.compile(r"\bllb\w+\b(?!\()")
BUILT = re.compile(r"\bbuilt on\b((?:(?:,| and)? `\w+`)*)|\b[Ss]tands on\b")
UNKNOWN = re.compile(r"\bknows (?:about )?(?:an? |no )([^.;:]*)")


def listed(repository: pathlib.Path) -> dict[str, set[str]]:
    """Returns the crates of crates.txt, each with the crates of the repository that its line names."""
    lines = (line.partition("#")[0] for line in (repository / "crates.txt").read_text("utf-8").split("\n"))
    named = {words[0].split()[0]: set(words[1].split()) for line in lines if len(words := line.split(":")) == 2}
    return {crate: names & named.keys() for crate, names in named.items()}


def sources(repository: pathlib.Path, crate: str, *folders: str) -> Iterator[tuple[pathlib.Path, str]]:
    """Yields the paths and the texts, without comments, of the sources in these folders of a crate."""
    for folder in folders:
        for path in sorted((repository / "crates" / crate / folder).rglob("*.*t")):
            comment = {".rt": "//", ".antt": "--"}.get(path.suffix)
            if comment:
                lines = path.read_text("utf-8").split("\n")
                yield path, "\n".join("" if line.lstrip().startswith(comment) else line for line in lines)


def used(repository: pathlib.Path, crate: str, crates: dict[str, set[str]], *folders: str) -> set[str]:
    """Returns the other crates of the repository that the sources in these folders use."""
    texts = (text for _, text in sources(repository, crate, *folders))
    return {name for text in texts for name in USED.findall(text)} & crates.keys() - {crate}


def head_of(repository: pathlib.Path, crate: str) -> tuple[pathlib.Path, str]:
    """Returns the path of a crate's root file, and its head as one line."""
    source = repository / "crates" / crate / "src"
    path = next((path for path in (source / "lib.rt", source / "main.rt") if path.exists()), source / "lib.rt")
    lines = path.read_text("utf-8").split("\n")
    return path, " ".join(line[3:].strip() for line in lines if line.startswith("//!"))


def in_words(crates: set[str]) -> str:
    """Returns the names of some crates as a text."""
    return ", ".join(f"`{crate}`" for crate in sorted(crates)) or "no crate"


def wrong_line(crate: str, uses: set[str], crates: dict[str, set[str]]) -> Iterator[str]:
    """Yields what is wrong with the line of a crate in crates.txt."""
    needed = uses.union(*(crates[other] for other in uses))
    if missing := needed - crates[crate]:
        yield f"the line of {crate} lacks {in_words(missing)}"
    if idle := crates[crate] - needed:
        yield f"the line of {crate} names {in_words(idle)}, which it does not use"


def wrong_head(head: str, uses: set[str], crates: dict[str, set[str]]) -> Iterator[str]:
    """Yields what is wrong with the head of a crate that uses these in its src/ and specs/."""
    built_on = {crate for crate in uses if not any(crate in crates[other] for other in uses)}
    for found in BUILT.finditer(head):
        names = set(re.findall(r"`(\w+)`", found[1] or ""))
        if {name for name in names if name.startswith("llb")} != built_on:
            yield f"`{found[0]}`, but it is built on {in_words(built_on)}"
    if strange := set(NAMED.findall(head)) - crates.keys():
        yield f"the head names {in_words(strange)}, not in crates.txt"
    for found in UNKNOWN.finditer(head):
        words = set(re.findall(r"\w+", found[1]))
        if known := {word for word, crate in CRATE_OF.items() if word in words and crate in uses}:
            yield f"`knows no {', '.join(sorted(known))}`, but it uses {in_words({CRATE_OF[word] for word in known})}"


def wrong_proofs(repository: pathlib.Path, crate: str) -> Iterator[tuple[pathlib.Path, str]]:
    """Yields the proofs of a crate that cite those of a crate that does not lend them, with that crate."""
    for path, text in sources(repository, crate, "proofs"):
        for other in sorted(set(CITED.findall(text))):
            borrowers = LENDERS.get(other, set())
            lends = borrowers is None or crate in borrowers
            if other.startswith("llb") and other != crate and not lends and path.name != "ThreadTransfers.antt":
                yield path, f"cites proofs of {other}, which lends none to {crate}"


def wrong_order(repository: pathlib.Path, crate: str) -> Iterator[tuple[pathlib.Path, str]]:
    """Yields the files of specs/ that the head of its Lib.antt does not name."""
    path = repository / "crates" / crate / "specs" / "Lib.antt"
    lines = path.read_text("utf-8").split("\n") if path.is_file() else []
    named = set(re.findall(r"\w+", " ".join(line for line in lines if line.startswith("--"))))
    for line in lines:
        if (found := re.match(r"pub mod (\w+)", line)) and found[1] not in named:
            yield path, f"the head does not name {found[1]}"


def findings(repository: pathlib.Path) -> Iterator[tuple[pathlib.Path, str]]:
    """Yields all that is wrong, each with the file that it is in."""
    crates = listed(repository)
    for crate in crates:
        in_code = used(repository, crate, crates, "src", "specs")
        uses = in_code | used(repository, crate, crates, "proofs")
        path, head = head_of(repository, crate)
        yield from ((repository / "crates.txt", wrong) for wrong in wrong_line(crate, uses, crates))
        yield from ((path, wrong) for wrong in wrong_head(head, in_code, crates))
        yield from wrong_order(repository, crate)
        yield from wrong_proofs(repository, crate)


def parse_options() -> argparse.Namespace:
    """Parses the command line."""
    parser = Parser(
        description="Checks what crates say of themselves, and which proofs cite others."
    )
    parser.add_argument(
        "--repository", metavar="DIRECTORY", type=pathlib.Path, default=ROOT, help="default: that of this folder"
    )
    return parser.parse_args()


def check(repository: pathlib.Path) -> int:
    """Prints what is wrong, and returns the exit status."""
    check_open(sys.stdout, "standard output")
    lines = [f"{path.relative_to(repository)}: {wrong}" for path, wrong in findings(repository)]
    for line in lines:
        print(line)
    sys.stdout.flush()
    return int(bool(lines))


def main() -> int:
    """Runs the tool, and returns its exit status."""
    repository = parse_options().repository
    return exit_status(lambda: check(repository))
