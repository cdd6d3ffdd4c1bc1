"""Prints what has to be read to believe a statement, and maintains the tables in docs/CLAIMS.md.

In: the sources in crates/. `dev/dev claims STATEMENT` prints every definition that a statement depends on, nearest
first, each with its file and line, then the types of src/ that they name, and the number of lines in each file;
STATEMENT is a column of the table in docs/CLAIMS.md: aim, load, assemble, disassemble, run, show, findings, plan,
matches, agrees, ops, asm, dis, step or program. `--first` prints the definitions to read first, in the order of
questions.md here, each below its question. `--bodies` prints the wrong bodies that the prover refuses, each with its
file and its function. `--write` writes the tables in docs/CLAIMS.md from the sources: for each statement the number of
definitions and lines to read, and the number of wrong bodies. `--check` compares the page with the sources.

Out: definitions or wrong bodies on standard output, or with --check a line for each table that differs.

Exit status: 0 done, or the page agrees with the sources; 1 it does not; 2 the command line is refused; 3 a read or a
write failed.
"""

import argparse
import pathlib
import re
import sys
import textwrap

from llbm_tools.command_line import Parser
from llbm_tools.common import check_open
from llbm_tools.paths import ROOT
from llbm_tools.repository.specs import Definition, Library, contract
from llbm_tools.streams import exit_status

PAGE = ROOT / "docs" / "CLAIMS.md"
QUESTIONS = pathlib.Path(__file__).with_name("questions.md")
COLUMNS = 160
FILE = re.compile(r"`(?:(\w+)/specs/)?(\w+)\.antt`")
QUESTION = re.compile(r"- `(\w+)`: (.*)")
FUNCTION = re.compile(r"\s*(?:pub(?:\(\w+\))? )?(?:const |unsafe )?fn (\w+)")
STATEMENTS = {
    "aim": ("llb_commands", "laws.rt", "aim"),
    "load": ("llb_loader", "loading.rt", "load"),
    "assemble": ("llb_asm", "assembling.rt", "assemble"),
    "disassemble": ("llb_asm", "print.rt", "disassemble"),
    "run": ("llb_commands", "run.rt", "run_many_over"),
    "show": ("llb_commands", "show.rt", "show_over"),
    "findings": ("llb_commands", "finding_lines.rt", "findings_over"),
    "plan": ("llb_commands", "plan_text.rt", "plan_over"),
    "matches": ("llb_commands", "match_text.rt", "matches_over"),
    "agrees": ("llb_commands", "agreement_text.rt", "agreements_over"),
    "ops": ("llb_commands", "disassembling.rt", "ops_over"),
    "asm": ("llb_commands", "assembling.rt", "asm_over"),
    "dis": ("llb_commands", "disassembling.rt", "dis_over"),
    "step": ("llb_commands", "stepping.rt", "step_over"),
    "program": ("llb_commands", "command_dispatch.rt", "program"),
}


def resting(library: Library, statement: str) -> tuple[list[Definition], list[str]]:
    """Returns the definitions and the types of src/ that a statement depends on."""
    crate, file, name = STATEMENTS[statement]
    return library.cone(*contract(library.root / "crates" / crate / "src" / file, name))


def first(library: Library) -> list[tuple[Definition, str]]:
    """Returns the definitions to read first, in the order of the questions, each with its own.

    A group of them begins with a paragraph that names their files; one without a crate is in the crate before it.
    """
    known = {(one.crate, one.file, one.name): one for one in resting(library, "aim")[0]}
    found: list[tuple[Definition, str]] = []
    files: list[tuple[str, str]] = []
    for part in re.split(r"\n\n|\n(?=- )", QUESTIONS.read_text("utf-8")):
        text = " ".join(part.split())
        if asked := QUESTION.fullmatch(text):
            keys = [(*file, asked[1]) for file in files]
            found += [(known[key], asked[2]) for key in keys if key in known][:1]
        elif text.startswith("**"):
            crate, files = "", []
            for named, file in FILE.findall(text):
                crate = named or crate
                files.append((crate, file))
    return found


def counted(definitions: list[Definition]) -> dict[tuple[str, str], int]:
    """Returns how many lines of each file the definitions have, the nearest file first."""
    lines: dict[tuple[str, str], int] = {}
    for one in definitions:
        lines[one.crate, one.file] = lines.get((one.crate, one.file), 0) + len(one.lines)
    return lines


def table_of(head: list[str], rows: list[list[str]]) -> list[str]:
    """Returns the lines of a table whose first column has words and whose other columns have numbers."""
    return ["| " + " | ".join(row) + " |" for row in [head, ["---"] + ["--:"] * (len(head) - 1), *rows]]


def reading(library: Library) -> list[str]:
    """Returns the table of what to read: how many definitions, files and lines."""
    cones = {name: resting(library, name) for name in STATEMENTS}
    sums = [
        ["definitions", *(str(len(them)) for them, _ in cones.values())],
        ["files", *(str(len(counted(them))) for them, _ in cones.values())],
        ["lines of code", *(str(sum(len(it.lines) - it.comments() for it in them)) for them, _ in cones.values())],
        ["lines of comments", *(str(sum(it.comments() for it in them)) for them, _ in cones.values())],
        ["types of `src/`", *(str(len(types)) for _, types in cones.values())],
    ]
    whole = sum(len(it.read_text("utf-8").splitlines()) for it in library.root.glob("crates/*/specs/**/*.antt"))
    table = table_of(["What", *STATEMENTS], sums)
    return [*table, "", f"All files of `specs/` have {whole} lines."]


def edited(crate: pathlib.Path, edit: pathlib.Path) -> str:
    """Returns the file and the function that an edit changes."""
    fields = dict(line.split(": ", 1) for line in reversed(edit.read_text("utf-8").splitlines()) if ": " in line)
    rows = (crate / fields["file"]).read_text("utf-8").splitlines()
    at = next((i for i, row in enumerate(rows) if fields["old"].strip() in row), 0)
    names = [found[1] for row in rows[: at + 1] if (found := FUNCTION.match(row))]
    return f"`{fields['file'].removeprefix('src/')}`" + (f", `{names[-1]}`" if names else "")


def edits_of(crate: pathlib.Path) -> list[pathlib.Path]:
    """Returns the edits of a crate, by name."""
    return sorted((crate / "must-fail").glob("*.edit"))


def crates_with_edits(library: Library) -> list[tuple[pathlib.Path, list[pathlib.Path]]]:
    """Returns the folders of the crates that have edits, in the order of crates.txt, each with its edits."""
    lines = (library.root / "crates.txt").read_text("utf-8").splitlines()
    names = [words[0] for line in lines if (words := line.partition(":")[0].split())]
    crates = [library.root / "crates" / name for name in names]
    return [(crate, found) for crate in crates if (found := edits_of(crate))]


def bodies(library: Library) -> list[str]:
    """Returns the list of wrong bodies, crate by crate."""
    items = []
    for crate, found in crates_with_edits(library):
        each = "; ".join(f"{edit.stem.replace('_', ' ')} ({edited(crate, edit)})" for edit in found)
        text = f"- `{crate.name}`: {each}."
        items += textwrap.wrap(text, COLUMNS, subsequent_indent="  ", break_long_words=False, break_on_hyphens=False)
    return items


def changes_a_definition(edit: pathlib.Path) -> bool:
    """Returns whether an edit changes a file of definitions, and so no body."""
    return edit.read_text("utf-8").startswith("file: specs/")


def edits(library: Library) -> list[str]:
    """Returns how many edits there are, how many of them change a definition, and how many crates have some."""
    crates = crates_with_edits(library)
    whole = [edit for _, found in crates for edit in found]
    return [f"{len(whole)} edits in {len(crates)} crates; {sum(map(changes_a_definition, whole))} change a definition."]


def page_of(text: str, lists: dict[str, list[str]]) -> tuple[str, list[str]]:
    """Returns the page with the lists replaced, and the names of the lists that differed."""
    differing = []
    for name, lines in lists.items():
        marks = rf"(<!-- dev/dev claims writes: {name} -->\n)(.*?)(\n<!-- end -->)"
        found = re.search(marks, text, re.S)
        if not found or found[2] != "\n".join(lines):
            differing.append(name)
        if found:
            text = text[: found.end(1)] + "\n".join(lines) + text[found.start(3) :]
    return text, differing


def write_or_check(library: Library, writes: bool) -> int:
    """Writes the tables of the page, or compares them; returns the exit status."""
    page, differing = page_of(PAGE.read_text("utf-8"), {"reading": reading(library), "wrong bodies": edits(library)})
    if writes:
        PAGE.write_text(page, "utf-8")
        return 0
    for name in differing:
        print(f"docs/CLAIMS.md: the part `{name}` differs from the sources: run dev/dev claims --write")
    return 1 if differing else 0


def show(library: Library, statement: str) -> None:
    """Prints the definitions that a statement depends on, and in which files they are."""
    definitions, types = resting(library, statement)
    for one in definitions:
        print(f"{one.crate}/specs/{one.file}.antt:{one.first}")
        print("\n".join(one.lines), end="\n\n")
    print("Types to be read in src/:")
    print("\n".join(types))
    print("\nLines in each file, nearest first:")
    for (crate, file), count in counted(definitions).items():
        print(f"{count:5} {crate}/specs/{file}.antt")


def show_first(library: Library) -> None:
    """Prints the definitions that the page has read first, each below its question."""
    for one, question in first(library):
        print(f"{one.name}: {question}\n{one.crate}/specs/{one.file}.antt:{one.first}")
        print("\n".join(one.lines), end="\n\n")


def parse_options() -> argparse.Namespace:
    """Parses the command line."""
    parser = Parser(description="Prints what has to be read to believe a statement.")
    what = parser.add_mutually_exclusive_group(required=True)
    what.add_argument(
        "statement", metavar="STATEMENT", nargs="?", choices=[*STATEMENTS], help=f"one of {', '.join(STATEMENTS)}"
    )
    what.add_argument("--first", action="store_true", help="print the definitions to read first")
    what.add_argument("--bodies", action="store_true", help="print the wrong bodies that the prover refuses")
    what.add_argument("--write", action="store_true", help="write the tables in docs/CLAIMS.md")
    what.add_argument("--check", action="store_true", help="compare them with the sources")
    return parser.parse_args()


def work(library: Library, options: argparse.Namespace) -> int:
    """Does what the command line asks for, and returns the exit status."""
    if not options.write:
        check_open(sys.stdout, "standard output")
    if options.write or options.check:
        return write_or_check(library, options.write)
    if options.first:
        show_first(library)
    elif options.bodies:
        print("\n".join(bodies(library)))
    else:
        show(library, options.statement)
    sys.stdout.flush()
    return 0


def main() -> int:
    """Runs the tool, and returns its exit status."""
    options, library = parse_options(), Library()
    return exit_status(lambda: work(library, options))
