"""Explains a line of the program, `fault ..` or `failed ..`, with docs/FAULTS.md and with a definition; and a note.

It reads the tables of the page: that of all faults, those of names after a number, that of lines that a session takes,
and that of failures.
"""

import functools
import re
from collections.abc import Callable
from typing import NamedTuple

from llbm_tools.common import MOST_NAMES, names_in, printable
from llbm_tools.llb import definition, names, op_reading
from llbm_tools.llb.findings import Finding, findings_of
from llbm_tools.llb.given_definitions import bytes_at
from llbm_tools.llb.ops import FileAction, Op
from llbm_tools.llb.wire import Unreadable
from llbm_tools.paths import ROOT
from llbm_tools.rules import explaining, rules_program
from llbm_tools.streams import Refused, program_at

PAGE = ROOT / "docs" / "FAULTS.md"
# The head of the table of lines that a session takes, and the fault of a line that is none.
INSTEAD = {"Session line": 173}
# What is to be done where the page has a dash.
MEMORY = "Allow more memory."

NUMBERS = {"k", "i", "N", "V", "C", "P"}
NAMES = {"FEATURE", "RULE"}
OPTIONAL = "[WORD]"
FAULT = "FAULT"

NUMBER = r"(0|[1-9][0-9]{0,19})"
ACTION = re.compile(rf"failed {NUMBER} action {NUMBER}(?: fault)? {NUMBER}")
COMMAND = re.compile(rf"failed {NUMBER} command {NUMBER}(?: status)? {NUMBER}")

# A refusal as the daemon's clients show it: the program's line after `llbm: `, with more at its end.
REFUSAL = re.compile(r"(?:.* )?llbm: ((?:fault|failed) .*)")
# A finding of `lint`, with the name of its entry.
NAMED = re.compile(r"(fault (?:8[1-9]|90)(?: [^\t]*)?)\t.*")
FAILED = re.compile(rf"failed {NUMBER} (?:action {NUMBER} fault|command {NUMBER} status) {NUMBER}")
ROWLESS = re.compile(r"fault (88) (\w+): .*")

MOST_FAULTS = 8
MOST_ACTIONS = 16
BAD_NAME = 26
ALSO = "also refused: "
ENTRY_NAME = "named: "


class NoPage(Refused):
    """The page is missing, or a table of it is."""


class NoLine(Exception):
    """A line is neither a fault nor a failure of the program, nor a note; the message says why."""


class Cause(NamedTuple):
    """A fault of the table of all faults; a row has one, or several that differ in their names alone."""

    name: str
    arguments: tuple[str, ...]
    sentence: str
    status: str
    advice: str


class Name(NamedTuple):
    """A row of a table of names after a number."""

    arguments: tuple[str, ...]
    sentence: str
    advice: str


class Line(NamedTuple):
    """A row of a table of lines that can be written instead."""

    line: str
    sentence: str


class Failure(NamedTuple):
    """A row of the table of failures."""

    line: str
    name: str
    sentence: str
    advice: str


class Place(NamedTuple):
    """The part of a definition that a line names: a row with an input, or a vertex with an action or a command.

    `fault` is that of the action.
    """

    row: int | None = None
    input: int | None = None
    vertex: int | None = None
    action: int | None = None
    command: int | None = None
    fault: int | None = None


class Answer(NamedTuple):
    """The explanation of a line, one text for each fault in it, and the part of a definition that it names."""

    texts: list[str]
    place: Place


def cells_of(line: str) -> list[str]:
    """Returns the cells of a table's row."""
    return [cell.strip() for cell in line.strip().strip("|").split(" | ")]


def tables_in(text: str) -> list[tuple[list[str], list[list[str]]]]:
    """Returns the tables of a page, each with its head and its rows."""
    tables = []
    for block in re.findall(r"(?:^\|.*\n)+", text, re.MULTILINE):
        head, _, *rows = map(cells_of, block.splitlines())
        tables.append((head, rows))
    return tables


def bare(cell: str) -> str:
    """Returns a cell without backquotes."""
    return cell.strip("`")


def words_of(cell: str) -> tuple[str, ...]:
    """Returns the words of a cell; a dash has none."""
    return () if cell == "-" else tuple(bare(cell).split(" "))


class Page:
    """The tables of the page."""

    def __init__(self, text: str) -> None:
        self.causes: dict[int, list[Cause]] = {}
        self.names: dict[int, dict[str, Name]] = {}
        self.lines: dict[int, list[Line]] = {}
        self.failures: list[Failure] = []
        for head, rows in tables_in(text):
            self.take(head[0], rows)
        if not (self.causes and self.names and self.failures):
            raise NoPage("a table of the faults is missing")

    def take(self, head: str, rows: list[list[str]]) -> None:
        """Reads a table, by the first cell of its head; other tables are skipped."""
        after = re.fullmatch(r"Name after ([0-9]+)", head)
        if instead := INSTEAD.get(head):
            self.lines[instead] = [Line(bare(line), sentence) for line, sentence in rows]
        elif after:
            for called, *rest in rows:
                name, *arguments = words_of(called)
                self.names.setdefault(int(after[1]), {})[name] = Name(tuple(arguments), *rest)
        elif head == "Failure":
            self.failures += [Failure(bare(line), bare(name), *rest) for line, name, *rest in rows]
        elif head == "Fault":
            for number, causes, words, sentence, status, advice in rows:
                what_to_do = MEMORY if advice == "-" else advice
                self.causes.setdefault(int(number), []).extend(
                    Cause(bare(name), words_of(words), sentence, status, what_to_do) for name in causes.split(", ")
                )

    def causes_of(self, number: int) -> list[Cause]:
        """Returns the rows of a number, without repeated sentences: those that the program prints, or else all."""
        rows = self.causes.get(number)
        if rows is None:
            raise NoLine(f"there is no fault {number}")
        rows_by_sentence: dict[str, Cause] = {}
        for row in [row for row in rows if row.status != "-"] or rows:
            rows_by_sentence.setdefault(row.sentence, row)
        return list(rows_by_sentence.values())

    def failure(self, prefix: str) -> Failure:
        """Returns the failure whose line has this prefix."""
        for row in self.failures:
            if row.line.startswith(prefix):
                return row
        raise NoPage(f"the page has no line {prefix}")


def read_page() -> Page:
    """Reads the page in docs/."""
    try:
        return Page(PAGE.read_text("utf-8"))
    except (OSError, ValueError, TypeError) as fault:
        raise NoPage(f"the page of faults could not be read: {PAGE}: {fault}") from fault


def decimal(words: list[str]) -> str:
    """Removes the first word, and returns it; it has to be a number."""
    if not words:
        raise NoLine("a number is missing")
    if not re.fullmatch(NUMBER, words[0]):
        raise NoLine(f"{words[0]!r} is not a number")
    return words.pop(0)


class Reader:
    """Reads the words of one line from left to right, and removes them."""

    def __init__(self, page: Page, words: list[str]) -> None:
        self.page = page
        self.words = words
        self.place = Place()
        self.count = 0

    def fault(self) -> list[str]:
        """Explains a fault, and then the names and the faults in its arguments."""
        self.count += 1
        if self.count > MOST_FAULTS:
            raise NoLine("too many faults inside one another")
        number = int(decimal(self.words))
        first, *others = self.page.causes_of(number)
        given, inside = self.arguments(number, first.arguments)
        prefix = f"{number} ({', '.join(given)})" if given else f"{number}"
        texts = [f"{prefix}: {first.sentence} {first.advice}"]
        texts += [f"or {number}: {other.sentence} {other.advice}" for other in others]
        texts += [f"{line.line}: {line.sentence}" for line in self.page.lines.get(number, [])]
        return texts + inside

    def arguments(self, number: int, arguments: tuple[str, ...]) -> tuple[list[str], list[str]]:
        """Returns how the arguments after a number are shown, and their explanations."""
        given, inside = [], []
        for argument in arguments:
            shown, texts = self.argument(number, argument)
            given += shown
            inside += texts
        return given, inside

    def argument(self, number: int, argument: str) -> tuple[list[str], list[str]]:
        """Returns how an argument is shown (not at all for a fault), and its explanations (for a fault or a name)."""
        if argument == FAULT:
            return [], self.fault()
        if argument in NAMES:
            name, texts = self.name(number)
            return [f"{argument} = {name}"], texts
        if argument in NUMBERS:
            return [f"{argument} = {self.number(argument)}"], []
        if argument == OPTIONAL and not self.words:
            return [], []
        text = printable(" ".join(self.words))
        self.words.clear()
        return [f"{argument.strip('[]')} = {text}"], []

    def number(self, argument: str) -> str:
        """Reads a number; those of a row and of an input are stored."""
        value = decimal(self.words)
        if argument == "k":
            self.place = self.place._replace(row=int(value))
        elif argument == "i":
            self.place = self.place._replace(input=int(value))
        return value

    def name(self, number: int) -> tuple[str, list[str]]:
        """Reads a name after a number, and explains it with its arguments."""
        known = self.page.names.get(number, {})
        if not self.words:
            raise NoLine(f"a name is missing after {number}")
        name = self.words.pop(0)
        if name not in known:
            raise NoLine(f"{name!r} is not a name after {number}")
        _, inside = self.arguments(number, known[name].arguments)
        return name, [f"{name}: {known[name].sentence} {known[name].advice}", *inside]


def answer_to_action(page: Page, vertex: str, action: str, number: str) -> Answer:
    """Explains that an action failed."""
    row = page.failure("failed V action")
    text = f"failed (V = {vertex}, A = {action}, N = {number}): {row.sentence} {row.advice}"
    place = Place(vertex=int(vertex), action=int(action), fault=int(number))
    return Answer([text, *Reader(page, [number]).fault()], place)


def answer_to_command(page: Page, vertex: str, command: str, status: str) -> Answer:
    """Explains that a command failed."""
    row = page.failure("failed V command")
    text = f"failed (V = {vertex}, C = {command}, S = {status}): {row.sentence} {row.advice}"
    return Answer([text], Place(vertex=int(vertex), command=int(command)))


def answer_about_buildkit(line: str) -> Answer:
    """Explains a note, or a line about what ends otherwise in BuildKit."""
    try:
        found = explaining.explained(line)
    except (explaining.Unknown, rules_program.Missing) as fault:
        raise NoLine(str(fault)) from fault
    if found is None:
        raise NoLine("neither a fault, a failure nor a note")
    return Answer(found.texts, Place(found.row, found.input, found.vertex, found.action))


def named_alone(page: Page, number: str, name: str) -> Answer:
    """Explains a refusal of the daemon that names no row."""
    row = page.names[int(number)].get(name)
    if row is None:
        raise NoLine(f"{name!r} is not a name after {number}")
    return Answer([f"{name}: {row.sentence} {row.advice}"], Place())


def as_printed(page: Page, line: str) -> str:
    """Returns a refusal of the daemon as the program prints it: without what is before it, the name of its fault, and
    words and an entry after it; and a finding of `lint` without the name of its entry. Others stay as they are."""
    if finding := NAMED.fullmatch(line):
        return finding[1]
    refusal = REFUSAL.fullmatch(line)
    if not refusal:
        return line
    line = refusal[1]
    if failed := FAILED.match(line):
        return failed[0]
    number = line.split(" ")[1]
    causes = page.causes.get(int(number), []) if number.isdecimal() else []
    called = "|".join(re.escape(cause.name.rpartition("::")[2]) for cause in causes)
    found = re.fullmatch(rf"(.*?) (?:{called})(?:: .*)?(?: \(.*\))?", line) if called else None
    return found[1] if found else re.sub(r" \(.*\)(?:: .*)?$", "", line)


def answer_to(page: Page, line: str) -> Answer:
    """Explains a line of the program, or one about BuildKit."""
    if alone := ROWLESS.fullmatch(line):
        return named_alone(page, *alone.groups())
    action, command = ACTION.fullmatch(line), COMMAND.fullmatch(line)
    if action:
        return answer_to_action(page, *action.groups())
    if command:
        return answer_to_command(page, *command.groups())
    first, *words = line.split(" ")
    if first != "fault":
        return answer_about_buildkit(line)
    reader = Reader(page, words)
    texts = reader.fault()
    if words:
        raise NoLine(f"{' '.join(words)!r} is unexpected")
    return Answer(texts, reader.place)


def sentence_of(page: Page, line: str) -> str:
    """Returns the most specific sentence about a line of the program, without its name."""
    return answer_to(page, line).texts[-1].removeprefix(f"{line.rpartition(' ')[2]}: ")


def one(word: str, texts: list[str], number: int) -> list[str]:
    """Returns the text with this number, if there is one."""
    return [f"{word} {number}: {text}" for text in texts[number : number + 1]]


def first_actions(texts: list[str]) -> list[str]:
    """Returns a line for each of the first actions, and one that counts the others."""
    lines = [f"action {number}: {text}" for number, text in enumerate(texts[:MOST_ACTIONS])]
    left = len(texts) - MOST_ACTIONS
    return [*lines, f"and {left} more"] if left > 0 else lines


def texts_at(op: Op, place: Place) -> list[str]:
    """Describes the input that the place names, and what the op does."""
    inputs = [] if place.input is None else one("input", definition.inputs_of(op), place.input)
    return [*inputs, *done_by(op, place)]


def paths_of(action: FileAction) -> list[str]:
    """Returns the paths of an action."""
    if action.copy:
        return [action.copy.src, action.copy.dest]
    member = action.mkfile or action.mkdir or action.rm
    return [member.path] if member else []


def wrong_paths(op: Op, number: int) -> list[str]:
    """Names the first path of an action that is no path, or else the destination below which a path is too long."""
    for action in op.file.actions[number : number + 1] if op.file else ():
        for path in paths_of(action):
            if names_in(path) is None:
                return [f"not a path: {path!r}"]
        if action.copy:
            return [f"a path below {action.copy.dest!r} would have more than {MOST_NAMES} names"]
    return []


def done_by(op: Op, place: Place) -> list[str]:
    """Describes what an op does: the action or the command that the place names, else everything."""
    if op.source:
        return [f"identifier: {op.source.identifier}"]
    if op.file:
        actions = definition.actions_of(op)
        if place.action is None:
            return first_actions(actions)
        wrong = wrong_paths(op, place.action) if place.fault == BAD_NAME else []
        return [*one("action", actions, place.action), *wrong]
    if not op.exec:
        return []
    commands = [] if place.command is None else one("command", definition.commands_of(op), place.command)
    return [*commands, f"script: {definition.script_of(op)}"]


def usual_program() -> str:
    """Returns the program that tools run if none is named."""
    return program_at(None)


class Entries:
    """The entries of a definition that lines name by row or by vertex, with what the program refuses in each."""

    def __init__(self, data: bytes, program: Callable[[], str] = usual_program) -> None:
        self.data = data
        self.program = program
        self.entries = definition.entries_of(data)
        self.rows: list[int] | None = None
        self.found: list[Finding] | None = None

    @functools.cached_property
    def shown(self) -> list[str]:
        """The names of the entries, as they are shown, empty where an entry has none."""
        return [name.shown() for name in names.names_of(self.data)]

    def refused(self, row: int, place: Place) -> list[str]:
        """Returns a line for each finding in the entry of a row; none if a vertex is named, since it was accepted."""
        if place.vertex is not None:
            return []
        if self.found is None:
            self.found = findings_of(self.data, self.program())
        return [f"{ALSO}fault {finding.words()}" for finding in self.found if finding.row == row]

    def row_of(self, vertex: int) -> int:
        """Returns the row of a vertex."""
        if self.rows is None:
            self.rows = definition.graph_of(self.entries).rows
        if vertex >= len(self.rows):
            raise Unreadable(f"it has no vertex {vertex}")
        return self.rows[vertex]

    def texts(self, place: Place) -> list[str]:
        """Describes what a line names, one text for each line."""
        if place.vertex is not None:
            row = self.row_of(place.vertex)
            return self.entry(f"vertex {place.vertex}, row {row}", row, place)
        return [] if place.row is None else self.entry(f"row {place.row}", place.row, place)

    def entry(self, prefix: str, row: int, place: Place) -> list[str]:
        """Describes an entry: its digest, its kind, its name if it has one, and what the place names in it."""
        if row >= len(self.entries):
            raise Unreadable(f"it has no row {row}")
        prefix = f"{prefix}: {definition.digest_of(self.entries[row])}"
        named = [f"{ENTRY_NAME}{self.shown[row]}"] if self.shown[row] else []
        try:
            op = op_reading.read_op(self.entries[row])
        except Unreadable as fault:
            return [f"{prefix}, not an op: {fault}", *named, *self.refused(row, place)]
        shown = [*texts_at(op, place), *self.refused(row, place)]
        return [f"{prefix}, {op.kind or 'no kind'}", *named, *map(printable, shown)]


class Explainer:
    """Explains lines by the page and, if a file is given, by the definition in it.

    `program` returns the program, which says what else is refused in an entry; it is called only for that.
    """

    def __init__(self, page: Page, file: str | None = None, program: Callable[[], str] = usual_program) -> None:
        self.page = page
        self.program = program
        self.entries: Entries | None = None
        self.cause = ""
        if file is not None:
            self.take(bytes_at(file, program))

    def take(self, data: bytes) -> None:
        """Reads a definition; if it is not one, stores why."""
        try:
            self.entries = Entries(data, self.program)
        except Unreadable as fault:
            self.cause = str(fault)

    def explain(self, line: str) -> tuple[list[str], str]:
        """Explains a line, with what the definition says about it, and returns why that says nothing; empty if not."""
        line = as_printed(self.page, line)
        answer = answer_to(self.page, line)
        if self.entries is None:
            return answer.texts, self.cause
        try:
            named = self.entries.texts(answer.place)
        except Unreadable as fault:
            return answer.texts, str(fault)
        return [*answer.texts, *(text for text in named if text != f"{ALSO}{line}")], ""

    def lines(self, line: str) -> list[str]:
        """Explains a line, as `explain` does, with a line at the end if the definition says nothing about it."""
        texts, cause = self.explain(line)
        return [*texts, f"the definition: {cause}"] if cause else texts
