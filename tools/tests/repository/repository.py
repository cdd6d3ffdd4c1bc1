"""Tests of the repository: docs/FAULTS.md agrees with the code, no line is too long, and no wrong body is gone."""

import os
import pathlib
import re
import shutil
import subprocess
import unittest
from typing import NamedTuple

from llbm_tools.definitions import faults
from tests.base import ROOT, TOOLS, Folder, run, run_closed

CRATES = ROOT / "crates"
MOST_OF_A_TOOL = 120

# The wrong bodies that the prover always has to refuse, by the crate of the body: whatever a gate costs, none goes.
KEPT_EDITS = {
    "llb_ops": ["takes_the_first_of_two_scalars", "replaces_a_split_message"],
    "llb_tree": ["file_hides_only_its_own_path"],
    "llb_fileop": ["contents_put_under_the_name"],
    "llb_asm": ["disassembles_raw"],
    "llb_loader": ["index_one_past", "names_a_later_faulty_row", "unreached_feature"],
    "llb_cache": [
        "locked_key_granted_twice",
        "first_of_two_locked_keys_kept",
        "private_instance_used_twice",
        "new_instance_copies_the_first",
    ],
    "llb_execution": ["runs_skipped_command", "resets_last_status", "works_on_its_own_copy_of_a_cache"],
    "llb_board": [
        "lands_on_another_view",
        "lands_on_another_program",
        "failed_vertex_readies_its_users",
        "failure_takes_its_cache_changes_back",
        "cancel_takes_cache_changes_back",
        "cancel_keeps_key",
        "lands_without_its_steps",
    ],
    "llb_ready": ["number_that_met_full_is_lost", "number_given_twice"],
    "llb_work": ["another_graph_comes_back", "opening_board_without_a_fault"],
    "llb_stepper": ["stops_one_event_late", "back_to_the_opening"],
    "llb_embed": ["keeps_the_old_definition"],
}

ERROR = re.compile(r'#\[error\("(.*)"\)\]')
HEAD = re.compile(r"pub (enum|struct) (\w+)")
VARIANT = re.compile(r"(\w+)(\(.*\))?,")
WRITTEN = re.compile(r'(\w+)::(\w+)\b[^\n=]* => (write!\(f, |f\.write_str\(|at_row\(f, )"(.*?)"')
LOGIC = re.compile(r"logic [0-9a-f]{16}")
NUMBERED = re.compile(r"([0-9]+)(?: [A-Za-z]+)*: (.*)")


class Declaration(NamedTuple):
    """A variant, or a type without variants: its docstring, and all forms of what it prints."""

    crate: str
    owner: str
    name: str
    sentence: str
    forms: tuple[str, ...]


def declarations_in(crate, text):
    """Yields the variants and the types that a source declares."""
    written = {}
    for owner, variant, call, form in WRITTEN.findall(text):
        behind = " {row} {what}" if call.startswith("at_row") else ""
        written.setdefault((owner, variant), []).append(form + behind)
    owner, sentences, error = None, [], None
    for line in text.split("\n"):
        bare = line.strip()
        attribute, head, variant = ERROR.fullmatch(bare), HEAD.match(bare), VARIANT.fullmatch(bare)
        if bare.startswith("///"):
            sentences.append(bare[3:].strip())
        elif attribute:
            error = attribute[1]
        elif not bare.startswith("#["):
            if head and head[1] == "enum":
                owner = head[2]
            elif head:
                yield Declaration(crate, head[2], head[2], " ".join(sentences), (error,) if error else ())
            elif variant and owner:
                forms = (error,) if error else tuple(written.get((owner, variant[1]), ()))
                yield Declaration(crate, owner, f"{owner}::{variant[1]}", " ".join(sentences), forms)
            elif line == "}":
                owner = None
            sentences, error = [], None


def code():
    """Yields the variants and the types of all sources except tests."""
    for path in sorted(CRATES.glob("*/src/**/*.rt")):
        if "tests" not in path.parts:
            yield from declarations_in(path.relative_to(CRATES).parts[0], path.read_text("utf-8"))


class Page(unittest.TestCase):
    """The page of faults agrees with the code."""

    @classmethod
    def setUpClass(cls):
        cls.declarations = list(code())
        cls.page = faults.read_page()
        cls.printed = [one for one in cls.declarations if one.forms and re.match("[0-9]", one.forms[0])]

    def rows(self):
        """Returns the number and the row of each cause on the page, in order."""
        return [(number, cause) for number, causes in self.page.causes.items() for cause in causes]

    def name_of(self, declaration):
        """Returns the name that the page has for a variant or a type."""
        return declaration.name if "::" in declaration.name else f"{declaration.crate}::{declaration.name}"

    def test_the_code_is_read(self):
        self.assertGreater(len(self.printed), 100)
        by_name = {self.name_of(one): one for one in self.printed}
        self.assertEqual(by_name["llb_wire::Memory"].sentence, "5: memory was refused.")
        self.assertEqual(by_name["AsmFault::Line"].forms, ("161 {line} {rule}",))
        self.assertEqual(by_name["WordsFault::Words"].forms, ("183 {word}", "183"))

    def test_the_numbers_agree_with_the_code(self):
        code = sorted((int(form.split(" ")[0]), self.name_of(one)) for one in self.printed for form in one.forms[:1])
        self.assertEqual(sorted((number, cause.name) for number, cause in self.rows()), code)
        attributes = set()
        for path in CRATES.glob("*/src/**/*.rt"):
            attributes |= set(re.findall(r'#\[error\("([0-9]+)', path.read_text("utf-8")))
        self.assertLessEqual(set(map(int, attributes)), set(self.page.causes))

    def test_the_numbers_ascend(self):
        text = faults.PAGE.read_text("utf-8")
        numbers = [int(number) for number in re.findall(r"^\| ([0-9]+) \|", text, re.MULTILINE)]
        self.assertEqual(numbers, sorted(numbers))
        self.assertEqual((numbers[0], numbers[-1]), (1, 185))

    def test_the_causes_are_the_docstrings(self):
        docstrings = {}
        for one in self.printed:
            number, sentence = NUMBERED.fullmatch(one.sentence).groups()
            self.assertEqual(number, one.forms[0].split(" ")[0], one)
            docstrings[int(number), self.name_of(one)] = sentence
        self.assertEqual({(number, cause.name): cause.sentence for number, cause in self.rows()}, docstrings)

    def test_each_row_has_as_many_arguments_as_are_printed(self):
        printed = {self.name_of(one): {form.count("{") for form in one.forms} for one in self.printed}
        for _, cause in self.rows():
            most = len(cause.arguments)
            self.assertEqual(printed[cause.name], {most, most - cause.arguments.count("[WORD]")}, cause.name)

    def test_all_rows_of_a_number_have_the_same_arguments(self):
        known = faults.NUMBERS | faults.NAMES | {"FAULT", "WORD", "NAME", "ID", "[WORD]"}
        for number, causes in self.page.causes.items():
            self.assertEqual(len({cause.arguments for cause in causes}), 1, number)
            self.assertLessEqual(set(causes[0].arguments), known)

    def test_each_row_has_a_status_and_advice(self):
        for number, cause in self.rows():
            self.assertIn(cause.status, {"-", "0", "1", "2", "3"}, number)
            self.assertTrue(cause.advice.endswith("."), number)

    def test_the_names_agree_with_the_code(self):
        loader = "llb_loader"
        for number, crate, owner in [(88, loader, "Feature"), (89, loader, "Rule"), (161, "llb_asm", "Rule")]:
            declared = [one for one in self.declarations if (one.crate, one.owner) == (crate, owner)]
            wanted = [(one.name.split("::")[1], one.sentence) for one in declared]
            self.assertEqual([(name, row.sentence) for name, row in self.page.names[number].items()], wanted)

    def test_each_fault_that_an_input_can_cause_is_in_a_transcript(self):
        words = set()
        for path in (ROOT / "tests").glob("**/*.md"):
            printed = re.findall(r"^    (?:! )?(?:fault|failed) (.*)", path.read_text("utf-8"), re.MULTILINE)
            words |= {word for line in printed for word in line.split()}
        wanted = {number for number, cause in self.rows() if cause.status in "012" and "Memory" not in cause.name}
        # Two entries with one digest, and an entry that names itself, need a collision of SHA-256; 185 needs 64 MiB,
        # and program.py tests it.
        self.assertEqual({number for number in wanted if str(number) not in words}, {84, 87, 185})

    def test_the_failures_agree_with_the_code(self):
        forms = {one.name: one.forms[0] for one in self.declarations if one.owner == "VertexFault"}
        self.assertEqual([row.name for row in self.page.failures], list(forms))
        for row in self.page.failures:
            words = "failed {v} " + forms[row.name]
            self.assertEqual(re.sub(r"\{\w+\}", "", words), re.sub(r"\b[A-Z]\b", "", row.line))


class Kit(unittest.TestCase):
    """The logic that the program is proved with; kits of several names have it."""

    def test_the_logic_is_the_same_everywhere(self):
        places = [
            CRATES / "llb_commands" / "src" / "help_pages.rt", TOOLS / "llbm_tools" / "common.py", ROOT / "README.md",
            ROOT / "tests" / "command-line" / "version.md",
        ]  # fmt: skip
        named = [LOGIC.findall(place.read_text("utf-8")) for place in places]
        self.assertTrue(all(named))
        if shutil.which("rt"):
            named.append(LOGIC.findall(subprocess.run(["rt", "version"], capture_output=True, text=True).stdout))
        self.assertEqual({name for names in named for name in names}, {named[-1][0]})


@unittest.skipUnless(shutil.which("git"), "there is no git")
class Lines(Folder):
    """The tool `lines`, in a repository that the test makes."""

    def setUp(self):
        super().setUp()
        self.at = pathlib.Path(os.fsdecode(self.folder))
        self.git("init")

    def git(self, *words):
        """Runs git in the repository."""
        subprocess.run(["git", "-C", self.at, *words], check=True, capture_output=True)

    def add(self, name, content):
        """Adds a file to the repository."""
        (self.at / name).parent.mkdir(parents=True, exist_ok=True)
        (self.at / name).write_bytes(content)
        self.git("add", name)

    def look(self):
        """Runs the tool on the repository."""
        return run("lines", "--repository", self.at)

    def test_lines_that_are_too_long_are_named(self):
        wide = "\N{GREEK SMALL LETTER ALPHA}".encode()
        self.add("a/b", b"a" * 160 + b"\n" + wide * 160)
        self.check_success(self.look())
        self.add("a/b", b"a" * 161 + b"\n\n" + wide * 200 + b"\n")
        self.add("z", b"a" * 162)
        (self.at / "untracked").write_bytes(b"a" * 161)
        self.check_run(self.look(), 1, b"a/b:1: 161 columns\na/b:3: 200 columns\nz:1: 162 columns\n")

    def test_some_files_are_skipped(self):
        self.add("crates.txt", b"a" * 161)
        self.add("binary", b"\xff" * 161)
        self.add("gone", b"a" * 161)
        (self.at / "gone").unlink()
        self.check_success(self.look())
        for name in ["a/crates.txt", "examples/a/printed"]:
            self.add(name, b"a" * 161)
        self.assertEqual(self.look().stdout.count(b": 161 columns\n"), 2)

    def test_a_folder_without_a_repository_is_refused(self):
        done = run("lines", "--repository", self.at / "none")
        self.assertEqual((done.returncode, done.stdout), (2, b""))


class Widths(unittest.TestCase):
    """The lines of this repository."""

    @unittest.skipUnless((ROOT / ".git").exists() and shutil.which("git"), "there is no repository, or no git")
    def test_no_line_of_this_repository_is_too_long(self):
        done = run("lines")
        self.assertEqual((done.returncode, done.stdout, done.stderr), (0, b"", b""))

    def test_no_line_of_a_tool_is_too_long(self):
        for path in [path for path in TOOLS.glob("**/*") if path.is_file() and path.suffix != ".pyc"]:
            longest = max(map(len, path.read_text("utf-8").split("\n")))
            self.assertLessEqual(longest, MOST_OF_A_TOOL, path)


class Claims(unittest.TestCase):
    """The lists of docs/CLAIMS.md."""

    def test_the_lists_agree_with_the_sources(self):
        done = run("claims", "--check")
        self.assertEqual((done.returncode, done.stdout, done.stderr), (0, b"", b""))

    def test_a_statement_prints_its_definitions(self):
        done = run("claims", "aim")
        self.assertEqual((done.returncode, done.stderr), (0, b""))
        for name in (b"pub record Aim ", b"unfoldable pub table : ", b"abbrev pub outcome : ", b"pub record Replays "):
            self.assertIn(name, done.stdout)

    def test_the_definitions_to_read_first_are_below_their_questions(self):
        done = run("claims", "--first")
        self.assertEqual((done.returncode, done.stderr), (0, b""))
        self.assertRegex(done.stdout, rb"\AAim: .*\?\nllb_commands/specs/Aim\.antt:[0-9]+\n-- ")

    def test_the_wrong_bodies_are_listed_with_their_functions(self):
        done = run("claims", "--bodies")
        self.assertEqual((done.returncode, done.stderr), (0, b""))
        self.assertIn(b"locked key granted twice (`instance_search.rt`, `look_up`)", b" ".join(done.stdout.split()))

    def test_a_standard_output_that_is_closed_is_a_failure(self):
        for word in ("aim", "--first", "--bodies", "--check"):
            done = run_closed(1, "claims", word)
            self.assertEqual((done.returncode, done.stderr), (3, b"standard output is closed\n"), word)

    def test_an_unknown_statement_is_refused(self):
        done = run("claims", "nothing")
        self.assertEqual(done.returncode, 2)


class WrongBodies(unittest.TestCase):
    """The must-fail edits that are always kept."""

    def test_each_is_there(self):
        for crate, names in KEPT_EDITS.items():
            there = {path.stem for path in (CRATES / crate / "must-fail").glob("*.edit")}
            self.assertLessEqual(set(names), there, crate)


class Proved(unittest.TestCase):
    """The tool `proved`."""

    def test_the_calls_of_a_crate_are_printed_with_their_clauses(self):
        done = run("proved", "llb_plain")
        self.assertEqual((done.returncode, done.stderr), (0, b""))
        lines = done.stdout.decode().split("\n")
        self.assertEqual(lines[:2], ["## `llb_plain`", ""])
        self.assertTrue(any(line.startswith("- `evaluate(alloc: Global, graph: &Graph, ") for line in lines))
        self.assertIn("*`gives`, `last`*", done.stdout.decode())

    def test_all_crates_are_printed_in_the_order_of_crates_txt(self):
        done = run("proved")
        found = re.findall(r"^## `(\w+)`$", done.stdout.decode(), re.M)
        lines = (ROOT / "crates.txt").read_text("utf-8").split("\n")
        order = [line.partition(":")[0].partition(" ")[0] for line in lines]
        self.assertEqual(found, [crate for crate in order if crate in found])
        self.assertIn("llb_board", found)

    def test_an_unknown_crate_is_refused(self):
        self.assertEqual(run("proved", "nothing").returncode, 2)


class Callers(unittest.TestCase):
    """The callers of docs/CALLING.md."""

    def test_every_caller_is_in_the_sources(self):
        page = (ROOT / "docs" / "CALLING.md").read_text("utf-8").partition("## Callers of single crates")[2]
        source = (CRATES / "llb_examples" / "src" / "calling_page.rt").read_text("utf-8").split("\n")
        for line in page.split("\n"):
            if line.startswith("    "):
                self.assertIn(line[4:], source)
