"""Explains lines about BuildKit: the notes of `lint`, the lines of `explain buildkit` and of `explain run`, and the
warnings of the daemon, as its clients show them.

Such a line names fields, rules or other notes; the program `llbm-rules` has what is said of each.
"""

import functools
import re
from typing import NamedTuple

from llbm_tools.rules import rules_program
from llbm_tools.rules.notes import ATTRIBUTE
from llbm_tools.rules.rule_words import INHERITED

# What is before a line in the output of `explain run`, of buildctl and of docker-buildx.
LEAD = re.compile(r"\s*(?:BuildKit: |(?:=> )*(?:#\d+ )?WARN: |- )?")
NOTE = re.compile(r"note (\d+) (\S+)(?: (.*))?")
STEP = re.compile(r"(?:vertex (\d+)(?: action (\d+))?|action (\d+)|entry (\d+) input (\d+)): (.*)")
NAMES = re.compile(r"[A-Z]\w*(?:, [A-Z]\w*)*")
MORE = re.compile(r"and (?:at least )?[0-9,]+ more paths?")
COUNTED = re.compile(r", and [0-9]+ more$")
FIELD = re.compile(r"(\w+)(?: of (action|mount) (\d+)| (.*))? has no effect: .*")
SENTENCE = re.compile(r"(\w+): .*\. In BuildKit: .*")
OF_INHERITED = "the step before made this difference; see the first line with this path, and its rule"
AGREE = "BuildKit's result has the same paths, modes, owners and contents, but for what notes name"
FAIL = "neither BuildKit nor llbm has a result"
IF_ALIKE = "if executions make there what they make here"
BREAKS = "a line above says what breaks BuildKit's daemon"
VERDICTS = {
    "the results agree": AGREE,
    "the results agree, but for what executions do": f"{IF_ALIKE}, {AGREE}",
    "both fail": FAIL,
    "both fail, but for what executions do": f"{IF_ALIKE}, {FAIL}",
    "BuildKit has a result, here is none": "a line above says where llbm fails and BuildKit does not",
    "BuildKit fails, here is a result": "a line above says where BuildKit fails and llbm does not",
    "the results differ: BuildKit's daemon breaks, here is a result": f"{BREAKS}, while llbm makes a result",
    "the results differ: BuildKit's daemon breaks, here is none": f"{BREAKS}; llbm makes no result either",
}
# What a comparison says of itself, and what is said of it.
OTHERS = [
    (re.compile(r"not compared: .*"), "a tree of this step is too long to be compared; `explain buildkit` compares it"),
    (
        re.compile(r"not all was compared with what BuildKit would make: .*"),
        "llbmd gave the comparison up; the result is whole. `explain buildkit` compares a build that is kept (`-keep`)",
    ),
    (
        re.compile(r"the definition has a field that BuildKit's library does not know, .*"),
        "llbmd did not rewrite ops so that both agree, since what the field means is not known",
    ),
    (
        re.compile(r"local source .*: \d+ entries are left out, .*"),
        "the client's directory has devices, pipes or sockets, which llbmd leaves out (`-leave-out`)",
    ),
]
DIFFER = re.compile(r"the results differ at [0-9,]+ paths?")


class Explained(NamedTuple):
    """What is said of a line, and the part of a definition that it names: a row and an input, or a vertex and an
    action."""

    texts: list[str]
    row: int | None = None
    vertex: int | None = None
    action: int | None = None
    input: int | None = None


class Unknown(Exception):
    """A line is of this form, but what it names is not known; the message says what."""


@functools.cache
def notes() -> dict[str, list[str]]:
    """Returns what is said of each field, rule and other note, by its name."""
    found: dict[str, list[str]] = {}
    for one in rules_program.answers("texts"):
        found.setdefault(one["name"], []).append(one["words"])
    return found


def line_of(name: str) -> str:
    """Returns what is said of a name as the words of a line."""
    one = next(one for one in rules_program.answers("texts") if one["name"] == name)
    return f"{one['buildkit']} (here {one['llbm']}): {name}"


def texts_of(name: str) -> list[str]:
    """Returns what is said of a name."""
    if name not in notes():
        raise Unknown(f"{name!r} is no note")
    return notes()[name]


def note(row: str, name: str, part: str | None) -> Explained:
    """Explains a note of `lint`."""
    kind, _, word = (part or "").partition(" ")
    number = int(word) if word.isdecimal() else None
    numbers = {kind: number} if kind in ("action", "input") else {}
    return Explained(texts_of_field(name, part), int(row), None, numbers.get("action"), numbers.get("input"))


def texts_of_field(name: str, key: str | None) -> list[str]:
    """Returns what is said of a field, or of an attribute with its key."""
    texts = texts_of(name)
    return [f"{text} (KEY = {key})" for text in texts] if name == ATTRIBUTE and key else texts


def step(words: str, *given: str | None) -> Explained:
    """Explains the words of a line about a step, given the numbers before them."""
    vertex, of_vertex, alone, row, number = [None if one is None else int(one) for one in given]
    return Explained(texts_of_step(words), row, vertex, alone if of_vertex is None else of_vertex, number)


def texts_of_step(words: str) -> list[str]:
    """Returns what is said of the words of a step."""
    if MORE.fullmatch(words):
        return ["more paths of this step differ; --paths N shows up to N"]
    _, colon, names = COUNTED.sub("", words).rpartition(": ")
    if not colon:
        raise Unknown("the line names no rule")
    if names != INHERITED and not NAMES.fullmatch(names):
        raise Unknown(f"{names!r} is no note")
    if names == INHERITED:
        return [f"{names}: {OF_INHERITED}"]
    return [text for name in names.split(", ") for text in texts_of(name)]


def texts_alone(words: str) -> list[str] | None:
    """Returns what is said of words without a place, or None if they are of no known form."""
    if DIFFER.fullmatch(words):
        return ["BuildKit's result has these paths otherwise; the lines above say where each begins"]
    if words in VERDICTS:
        return [VERDICTS[words]]
    for form, text in OTHERS:
        if form.fullmatch(words):
            return [text]
    if found := SENTENCE.fullmatch(words):
        return texts_of(found[1])
    try:
        return texts_of_step(words)
    except Unknown:
        return None


def explained(line: str) -> Explained | None:
    """Explains a line, or returns None if it is of none of these forms. A note's name of the entry, after a tab, is
    skipped, and so is what clients put before a warning."""
    words = LEAD.sub("", line, count=1)
    if found := NOTE.fullmatch(words.partition("\t")[0]):
        return note(*found.groups())
    if found := STEP.fullmatch(words):
        *numbers, rest = found.groups()
        return step(rest, *numbers)
    if found := FIELD.fullmatch(words):
        return Explained(texts_of_field(found[1], found[4]), action=int(found[3]) if found[2] == "action" else None)
    texts = texts_alone(words)
    return None if texts is None else Explained(texts)
