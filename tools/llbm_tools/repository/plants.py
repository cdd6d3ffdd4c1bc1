"""Tries wrong bodies that a machine writes in the functions of crates, and counts those that a contract lets through.

In: the crates that are named, or all crates but those of tests; crates.txt, the sources, and crates/*/out/rlib of the
repository around this folder, or of --repository DIRECTORY, as `rt ci` left them. `rt plant` of the kit writes the
bodies: some give up (an error, nothing, a constant), others call the real function and change an argument or the
result. It would first build every library below a crate anew; this tool has the crate checked over the libraries that
are there, and leaves the rest to `rt plant`. So it needs this kit's `rt plant` as it is, and proves each crate once.

--minutes N (10) and --max N (400) are for each crate: the time for its bodies, after its check, and their number.
--part K/N (1/1) takes each N-th function of a crate, from the K-th, so that the parts of a large crate can be tried
side by side; their rows add up. The answer for a crate is kept in out/plants, by the sources of the crate and of all
below it, the kit, and these options; --anew tries the bodies again.

Out: a table with a line for each crate: in how many functions bodies were planted, how many bodies are refused, not
judged (the prover met a limit, or the body is no fair test), not tried (for --minutes or --max), and prove; below it a
line for each body that proves, with its file and function. A body that only fails for want of memory is listed too.

Exit status: 0 done, whatever proves; 1 a crate is not proved; 2 the command line is refused, the kit is missing, or a
library of a crate is; 3 a read or a write failed; 130 interrupted.
"""

import argparse
import hashlib
import os
import pathlib
import re
import shutil
import subprocess
import sys
import tempfile
from collections.abc import Iterator
from typing import NamedTuple

from llbm_tools.command_line import Parser
from llbm_tools.compiling.library import kit, libraries_of
from llbm_tools.paths import ROOT, TOOLS
from llbm_tools.streams import Refused, exit_status

OF_TESTS = ("llb_samples", "llb_examples", "llb_refusals", "llbm")
PARTS = ("src", "specs", "proofs")
KEPT = pathlib.Path("out", "plants")
COUNTS = re.compile(r"^plants crate=\w+ (.*)$", re.M)
PROVES = re.compile(r"^proves +(.*)$", re.M)
# `rt plant` takes a comment `///` above a variant or a field for a part of the name, and then its bodies are no code.
DOCUMENTS = re.compile(r"^( *)///", re.M)
HEAD = ("Crate", "Functions planted", "Plants refused", "Not judged", "Not tried", "Prove")


class NotProved(Exception):
    """Nothing was planted in a crate, since its own functions are not proved."""


class Answer(NamedTuple):
    """What `rt plant` found in a crate: how many bodies it planted, what became of them, and which ones prove."""

    planted: int
    refused: int
    unjudged: int
    untried: int
    proving: list[str]

    def numbers(self) -> list[int]:
        """Returns the columns of the table, apart from the crate's name."""
        return [self.planted, self.refused, self.unjudged, self.untried, len(self.proving)]


def answer_in(text: str) -> Answer | None:
    """Returns what a listing of `rt plant --all` says, or None if it is not whole."""
    found = COUNTS.search(text)
    if not found:
        return None
    counts = {name: int(count) for name, _, count in (word.partition("=") for word in found[1].split())}
    unjudged = counts["not-judged"] + counts["elsewhere"]
    return Answer(counts["planted-in"], counts["refused"], unjudged, counts["not-run"], PROVES.findall(text))


def crates_of(top: pathlib.Path) -> list[str]:
    """Returns the names of all crates but those of tests, in the order of crates.txt."""
    lines = (top / "crates.txt").read_text("utf-8").splitlines()
    names = [words[0] for line in lines if (words := line.partition("#")[0].partition(":")[0].split())]
    return [name for name in names if name not in OF_TESTS]


def files_below(top: pathlib.Path, crate: str) -> Iterator[pathlib.Path]:
    """Yields the sources of a crate and of all crates below it."""
    todo, seen = [crate], {crate}
    while todo:
        name = todo.pop(0)
        for part in PARTS:
            yield from sorted(path for path in (top / "crates" / name / part).rglob("*") if path.is_file())
        below = [it for it in libraries_of(top / "crates.txt", name) if (top / "crates" / it).is_dir()]
        todo += [it for it in below if it not in seen]
        seen.update(below)


def key_of(top: pathlib.Path, crate: str, given: list[str]) -> str:
    """Returns a text that differs whenever the answer for a crate may."""
    digest = hashlib.sha256()
    for path in files_below(top, crate):
        content = path.read_bytes()
        digest.update(f"{path.relative_to(top)} {len(content)}\n".encode() + content)
    return f"{crate}-{hashlib.sha256(' '.join([digest.hexdigest(), *given]).encode()).hexdigest()[:16]}"


def without_documents(folder: pathlib.Path) -> None:
    """Makes each comment `///` in the code below a folder a plain one; the lines keep their numbers."""
    for file in folder.rglob("*.rt"):
        file.write_text(DOCUMENTS.sub(r"\1//", file.read_text("utf-8")), "utf-8")


def lay_out(top: pathlib.Path, crate: str, folder: pathlib.Path) -> None:
    """Makes a repository with a copy of the crate, without its documents, and with links to all other crates."""
    for name in ("crates.txt", "HANDLES"):
        shutil.copyfile(top / name, folder / name)
    for place in sorted((top / "crates").iterdir()):
        here = folder / "crates" / place.name
        here.mkdir(parents=True)
        for part in filter(lambda part: (place / part).is_dir(), (*PARTS, "out")):
            if place.name != crate:
                (here / part).symlink_to(place / part)
            elif part in PARTS:
                shutil.copytree(place / part, here / part)
    without_documents(folder / "crates" / crate / "src")


def listing(top: pathlib.Path, crate: str, given: list[str]) -> str:
    """Returns what `rt plant --all` prints for a crate."""
    with tempfile.TemporaryDirectory(prefix="llbm-plants-") as name:
        folder = pathlib.Path(name).resolve()
        lay_out(top, crate, folder)
        module = "llbm_tools.repository.plant_run"
        words = [sys.executable, "-m", module, str(folder), crate, "--all", "--jobs", "1", *given]
        known = {**os.environ, "PYTHONPATH": str(TOOLS)}
        done = subprocess.run(words, env=known, stdin=subprocess.DEVNULL, stdout=subprocess.PIPE, encoding="utf-8")
        if done.returncode == 2:
            raise Refused(f"a library below it is missing, or `rt plant` refused; `rt ci` makes the libraries: {crate}")
        return done.stdout


def answer_for(top: pathlib.Path, crate: str, given: list[str], anew: bool) -> Answer:
    """Returns the answer for a crate, that which is kept unless `anew`."""
    place = top / KEPT / f"{key_of(top, crate, [kit().as_posix(), *given])}.txt"
    if not anew and place.exists() and (kept := answer_in(place.read_text("utf-8"))):
        return kept
    print(f"{crate}: planting", file=sys.stderr, flush=True)
    text = listing(top, crate, given)
    answer = answer_in(text)
    if answer is None:
        raise NotProved(f"its functions are not proved, so nothing was planted: {crate}")
    place.parent.mkdir(parents=True, exist_ok=True)
    place.write_text(text, "utf-8")
    return answer


def table_of(answers: dict[str, Answer]) -> list[str]:
    """Returns the table of all answers, and the bodies that prove."""
    rows = [[f"`{crate}`", *map(str, answer.numbers())] for crate, answer in answers.items()]
    sums = [str(sum(column)) for column in zip(*(answer.numbers() for answer in answers.values()))]
    table = [list(HEAD), ["---", *["--:"] * (len(HEAD) - 1)], *rows, ["all", *sums]]
    proving = [f"{crate}: {line}" for crate, answer in answers.items() for line in answer.proving]
    return ["| " + " | ".join(row) + " |" for row in table] + [""] * bool(proving) + proving


def part(text: str) -> list[str]:
    """Returns the words for plant_over that choose part K/N of a crate's functions."""
    found = re.fullmatch(r"([1-9]\d{0,3})/([1-9]\d{0,3})", text)
    if not found or int(found[1]) > int(found[2]):
        raise argparse.ArgumentTypeError(f"no part K/N, with K from 1 to N: {text}")
    return ["--part", found[1], found[2]]


def work(options: argparse.Namespace) -> int:
    """Plants in the crates, and prints the table."""
    top = options.repository.resolve()
    there = crates_of(top)
    if strangers := [name for name in options.crates if name not in there]:
        raise Refused(f"there is no such crate, or it is one of tests: {strangers[0]}")
    given = ["--minutes", str(options.minutes), "--max", str(options.max), *options.part]
    names = [name for name in there if not options.crates or name in options.crates]
    try:
        answers = {name: answer_for(top, name, given, options.anew) for name in names}
    except NotProved as fault:
        print(fault, file=sys.stderr)
        return 1
    print("\n".join(table_of(answers)), flush=True)
    return 0


def main() -> int:
    """Runs the tool, and returns its exit status."""
    parser = Parser(description="Tries wrong bodies that a machine writes.")
    parser.add_argument("crates", nargs="*", metavar="CRATE", help="a crate; all but those of tests if none is named")
    parser.add_argument("--repository", metavar="DIRECTORY", type=pathlib.Path, default=ROOT, help="where `rt ci` ran")
    parser.add_argument("--minutes", metavar="N", type=int, default=10, help="the time for the bodies of each crate")
    parser.add_argument("--max", metavar="N", type=int, default=400, help="the most bodies in each crate")
    parser.add_argument("--part", metavar="K/N", type=part, default=[], help="only each N-th function, from the K-th")
    parser.add_argument("--anew", action="store_true", help="try bodies again whose answer is kept")
    options = parser.parse_args()
    return exit_status(lambda: work(options))
