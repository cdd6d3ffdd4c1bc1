"""Tests of the pages: links lead somewhere, tables and headings are whole, and what they name is in the sources."""

import re
import unittest
from collections.abc import Iterator
from pathlib import Path

from llbm_tools.repository import claims, proved
from llbm_tools.repository.claims import first, resting
from llbm_tools.repository.specs import Library
from tests.base import ROOT

CRATES = ROOT / "crates"
TOP = ["README.md", "CONTRIBUTING.md", "CHANGELOG.md"]
MOST_OF_ARCHITECTURE = 10_240
MOST_OF_ALL = 230_000

LINK = re.compile(r"\[[^\]]*\]\(([^)\s]+)\)")
HEADING = re.compile(r"(#+) (.*)")
NAMED_PAGE = re.compile(r"(?<![\w/.-])docs/[A-Z]+\.md\b")
# Files that pages name; `crates/caller` is an example, `out` is made, and a word of capitals is to be filled in.
NAMED_FILE = re.compile(r"`((?:crates|tools|docs|examples)/[\w./-]+|llb_\w+/(?:src|specs)/[\w./]+)`")
CLAUSES = re.compile(r"`([\w:]+)`((?:: | \()`\w+`(?:, `\w+`)*)")
FLOOR = re.compile(r"\| (\d+|tests|) ?\| ((?:`\w+`(?:, )?)+) \|")
READ = re.compile(r"^- ((?:`\w+`(?:, )?)+):", re.M)


def pages() -> list[Path]:
    """Returns all pages of the repository."""
    return [ROOT / name for name in TOP] + sorted((ROOT / "docs").glob("*.md")) + sorted(ROOT.glob("examples/*/*.md"))


def prose(page: Path) -> list[str]:
    """Returns the lines of a page without its code: a line of code, or between fences, is empty."""
    lines, fenced = [], False
    for line in page.read_text("utf-8").split("\n"):
        fence = line.startswith("```")
        fenced ^= fence
        lines.append("" if fence or fenced or line.startswith("    ") else line)
    return lines


def anchors(page: Path) -> set[str]:
    """Returns the anchors that a forge gives the headings of a page."""
    texts = [found[2] for line in prose(page) if (found := HEADING.fullmatch(line))]
    return {re.sub(r"[^\w\- ]", "", text.lower()).replace(" ", "-") for text in texts}


def section(page: Path, heading: str) -> str:
    """Returns the text below a heading of a page, up to the next one of its level."""
    text = page.read_text("utf-8").partition(f"\n## {heading}\n")[2]
    return text.partition("\n## ")[0]


def cells(line: str) -> list[str]:
    """Returns the cells of a row of a table."""
    return re.sub(r"`[^`]*`", lambda code: code[0].replace("|", "!"), line).replace("\\|", "!").split("|")[1:-1]


def tables(page: Path) -> Iterator[list[str]]:
    """Yields the tables of a page."""
    table: list[str] = []
    for line in [*prose(page), ""]:
        if line.startswith("|"):
            table.append(line)
        elif table:
            yield table
            table = []


def crates() -> dict[str, set[str]]:
    """Returns the crates of crates.txt, each with those that its line names."""
    lines = (line.partition("#")[0] for line in (ROOT / "crates.txt").read_text("utf-8").split("\n"))
    named = {line.partition(":")[0].split()[0]: set(line.partition(":")[2].split()) for line in lines if ":" in line}
    return {name: others & named.keys() for name, others in named.items()}


def head_of(crate: str) -> str:
    """Returns the head of a library's root file as one line, empty if it has none."""
    path = CRATES / crate / "src" / "lib.rt"
    lines = path.read_text("utf-8").split("\n") if path.exists() else []
    return " ".join(line[3:].strip() for line in lines if line.startswith("//!"))


class Forms(unittest.TestCase):
    """The forms that a forge needs to show the pages."""

    def test_every_link_leads_to_a_file_and_a_heading(self) -> None:
        for page in pages():
            for target in LINK.findall("\n".join(prose(page))):
                if "://" in target:
                    continue
                path, _, anchor = target.partition("#")
                there = (page.parent / path).resolve() if path else page
                self.assertTrue(there.exists(), f"{page.name}: {target}")
                if anchor:
                    self.assertIn(anchor, anchors(there), f"{page.name}: {target}")

    def test_a_page_begins_with_its_one_title_and_skips_no_level(self) -> None:
        for page in pages():
            levels = [len(found[1]) for line in prose(page) if (found := HEADING.fullmatch(line))]
            self.assertEqual((levels[:1], levels.count(1)), ([1], 1), page.name)
            for before, level in zip(levels, levels[1:]):
                self.assertLessEqual(level, before + 1, page.name)

    def test_all_rows_of_a_table_have_as_many_cells(self) -> None:
        for page in pages():
            for table in tables(page):
                self.assertRegex(table[1], r"^\|[-:| ]+\|$", page.name)
                self.assertEqual({len(cells(row)) for row in table}, {len(cells(table[0]))}, table[0])


class Named(unittest.TestCase):
    """What pages and heads name is there."""

    def test_files_and_pages_are_there(self) -> None:
        sources = [*pages(), *CRATES.glob("*/src/lib.rt"), *(ROOT / "tools" / "llbm_tools").rglob("*.py")]
        for source in sources:
            text = source.read_text("utf-8")
            for name in NAMED_PAGE.findall(text):
                self.assertTrue((ROOT / name).exists(), f"{source}: {name}")
            for name in NAMED_FILE.findall(text) if source.suffix == ".md" else []:
                place = CRATES / name if name.startswith("llb_") else ROOT / name
                is_other = name.startswith(("crates/caller/", "crates/llbm/out/")) or re.search(r"\b[A-Z]+\b", name)
                self.assertTrue(is_other or place.exists(), f"{source}: {name}")

    def test_every_call_has_a_clause_and_a_docstring(self) -> None:
        self.assertEqual(list(proved.wrong()), [])

    def check_clauses(self, crate: str, text: str, where: str) -> int:
        """Checks the clauses that a text names of calls of a crate, and returns how many there are."""
        calls = {full: call.ensures for full, call in proved.public(CRATES / crate)}
        records = "\n".join(path.read_text("utf-8") for path in (CRATES / crate / "specs").glob("*.antt"))
        count = 0
        for name, names in CLAUSES.findall(text):
            known = next((clauses for full, clauses in calls.items() if f"::{full}".endswith(f"::{name}")), None)
            self.assertIsNotNone(known, f"{where}: no call {name}")
            for clause in re.findall(r"\w+", names):
                is_field = f"pub {clause} :" in records or re.search(rf"pub record {clause}\b", records)
                self.assertTrue(clause in (known or []) or is_field, f"{where}: {name}: {clause}")
                count += 1
        return count

    def test_the_clauses_in_tables_are_those_of_the_sources(self) -> None:
        rows = 0
        for page in (ROOT / "README.md", ROOT / "docs" / "CLAIMS.md"):
            for table in tables(page):
                head = [cell.strip() for cell in cells(table[0])]
                if "Clause" not in head or not head[-1].startswith("File"):
                    continue
                for row in map(cells, table[2:]):
                    clause, file = row[head.index("Clause")], row[-1].strip(" `")
                    self.assertTrue((CRATES / file).exists(), file)
                    crate, text = file.partition("/")[0], (CRATES / file).read_text("utf-8")
                    self.check_clauses(crate, clause, page.name)
                    calls = {call.name for _, call in proved.public(CRATES / crate)}
                    for name in re.findall(r"`(?:laws::)?(\w+)`", clause.partition("`: ")[0] + "`"):
                        self.assertTrue(name in calls or re.search(rf"\b{name}\b", text), f"{file}: {name}")
                    rows += 1
        self.assertGreater(rows, 15)

    def test_the_names_of_laws_and_premises_are_in_the_sources(self) -> None:
        text = section(ROOT / "docs" / "CLAIMS.md", "Further promises")
        named = set(re.findall(r"`([a-z]+_\w+|[A-Z][a-z]+[A-Z]\w+)`", text)) - crates().keys()
        places = [*CRATES.glob("*/src/**/*.rt"), *CRATES.glob("*/specs/**/*.antt")]
        places += (ROOT / "tools" / "llbm_tools").rglob("*.py")
        words = {word for place in places for word in re.findall(r"\w+", place.read_text("utf-8"))}
        self.assertGreater(len(named), 50)
        self.assertEqual(named - words, set())

    def test_the_heads_of_the_crates_name_their_types_and_clauses(self) -> None:
        for crate in crates().keys() - proved.OUTSIDE:
            if head := head_of(crate):
                for word in ("Types: ", "Promise: ", "A caller:"):
                    self.assertIn(word, head, crate)
                self.check_clauses(crate, head.partition("Promise: ")[2].partition("A caller:")[0], crate)

    def test_the_wrong_machines_are_edits(self) -> None:
        edits = {path.stem for path in CRATES.glob("*/*/*.edit")}
        table = next(tables(ROOT / "docs" / "CLAIMS.md"))
        named = [name for row in table for name in re.findall(r"\(`(\w+)`\)", cells(row)[-1])]
        self.assertGreater(len(named), 7)
        self.assertLessEqual(set(named), edits)


class Reading(unittest.TestCase):
    """The definitions to read first, and their questions."""

    def test_they_are_among_those_that_the_aim_rests_on(self) -> None:
        definitions, _ = resting(Library(), "aim")
        rests_on = {one.name: f"{one.crate}/specs/{one.file}.antt" for one in definitions}
        text = claims.QUESTIONS.read_text("utf-8")
        names = [name for names in READ.findall(text) for name in re.findall(r"\w+", names)]
        self.assertLessEqual(set(names), rests_on.keys())
        self.assertEqual(len(names), len(set(names)))
        page = section(ROOT / "docs" / "CLAIMS.md", "The definitions to read first")
        self.assertIn(f"prints the {len(names)} definitions", page)
        self.assertEqual([one.name for one, _ in first(Library())], names)


class Sizes(unittest.TestCase):
    """How much there is to read: README.md, CONTRIBUTING.md and the pages in docs together."""

    def test_the_pages_together_are_short(self) -> None:
        read = [ROOT / "README.md", ROOT / "CONTRIBUTING.md", *(ROOT / "docs").glob("*.md")]
        self.assertLessEqual(sum(page.stat().st_size for page in read), MOST_OF_ALL)


class Architecture(unittest.TestCase):
    """docs/ARCHITECTURE.md agrees with the sources."""

    page = ROOT / "docs" / "ARCHITECTURE.md"

    def test_it_is_short(self) -> None:
        self.assertLessEqual(self.page.stat().st_size, MOST_OF_ARCHITECTURE)

    def test_it_has_every_crate_above_those_that_it_uses(self) -> None:
        floors: dict[str, int] = {}
        floor = 0
        for number, names in (found.groups() for line in prose(self.page) if (found := FLOOR.match(line))):
            floor += bool(number)
            floors.update(dict.fromkeys(re.findall(r"\w+", names), floor))
        self.assertEqual(floors.keys(), crates().keys())
        for crate, others in crates().items():
            for other in others:
                self.assertLess(floors[other], floors[crate], f"{crate} uses {other}")

    def test_what_it_quotes_is_in_the_sources(self) -> None:
        text = section(self.page, "What is proved, on one function")
        code = [[line.strip() for line in block.split("\n")] for block in re.findall(r"(?:^ {4,}.*\n)+", text, re.M)]
        paths = ("llb_execution/src/workspace.rt", "llb_model/specs/Program.antt")
        for lines, path in zip(code, paths, strict=True):
            source = [line.strip() for line in (CRATES / path).read_text("utf-8").split("\n")]
            quoted = [line for line in lines if line]
            self.assertTrue(any(source[at : at + len(quoted)] == quoted for at in range(len(source))), path)
        edit = (CRATES / "llb_execution" / "must-fail" / "runs_skipped_command.edit").read_text("utf-8")
        for found in re.findall(r"`(Join::And => [^`]*)`", text):
            self.assertIn(found, edit)
