"""The rules by which `adopt` replaces the words of executions.

A file of rules is UTF-8, with one rule on a line; empty lines and lines that begin with `#` are skipped:

    digest DIGEST => NEW ..
    name NAME => NEW ..
    words OLD .. => NEW ..
    pattern PATTERN => NEW ..

Words are separated by spaces and quoted as in a POSIX shell; `=>` is the first word of this form on the line. A rule
applies to the execution whose entry has this digest in the given definition, to each execution with this name in its
metadata, to each with exactly these words, or to each whose words, with a space between each two, are like the pattern,
in which `*` is any characters and `?` is one. The first rule that applies is used. Its new words have to be a script of
llbm; if there are none, the execution keeps its words. The daemon reads the same rules (daemon/internal/standins).
"""

import re
import shlex
from collections.abc import Sequence
from typing import NamedTuple

from llbm_tools.llb import scripts
from llbm_tools.streams import Refused

ARROW = "=>"
KINDS = ("digest", "name", "words", "pattern")
WILD = {"*": ".*", "?": "."}


class Rule(NamedTuple):
    """A rule: its line number, what it compares, the wanted value, and the new words (empty: keep the old ones)."""

    line: int
    kind: str
    wanted: tuple[str, ...]
    words: tuple[str, ...]

    def fits(self, digest: str, name: str, args: Sequence[str]) -> bool:
        """Returns whether the rule applies to an execution."""
        if self.kind == "pattern":
            return is_like(self.wanted[0], " ".join(args))
        return self.wanted == {"digest": (digest,), "name": (name,), "words": tuple(args)}[self.kind]


def is_like(pattern: str, text: str) -> bool:
    """Returns whether a text is like a pattern."""
    wanted = "".join(WILD.get(character, re.escape(character)) for character in pattern)
    return re.fullmatch(wanted, text, re.S) is not None


def rule_of(number: int, line: str) -> Rule:
    """Returns the rule on a line."""
    try:
        words = shlex.split(line)
    except ValueError as fault:
        raise Refused(f"{str(fault).lower()}: line {number}") from fault
    kind, *rest = words
    if kind not in KINDS:
        raise Refused(f"a rule begins with digest, name, words or pattern: line {number}")
    if ARROW not in rest:
        raise Refused(f"there is no {ARROW}: line {number}")
    place = rest.index(ARROW)
    wanted, new = tuple(rest[:place]), tuple(rest[place + 1 :])
    if len(wanted) != 1 and kind != "words":
        raise Refused(f"exactly one word goes between {kind} and {ARROW}: line {number}")
    return Rule(number, kind, wanted, new)


def check_scripts(rules: list[Rule], program: str) -> None:
    """Checks that the new words of each rule are a script."""
    faults = scripts.faults_of((rule.words for rule in rules if rule.words), program)
    for rule in rules:
        if cause := faults.get(rule.words):
            raise Refused(f"the new words are not a script, fault {cause}: line {rule.line}")


def rules_in(data: bytes, program: str) -> list[Rule]:
    """Returns the rules in a file; the program says whether their new words are scripts."""
    try:
        lines = data.decode("utf-8").split("\n")
    except UnicodeDecodeError as fault:
        raise Refused("not UTF-8") from fault
    rules: list[Rule] = []
    try:
        for number, line in enumerate((line.strip(" \t\r") for line in lines), 1):
            if line and not line.startswith("#"):
                rules.append(rule_of(number, line))
    finally:
        # What is wrong on a line above the one that is no rule is said first.
        check_scripts(rules, program)
    return rules


def rule_for(rules: Sequence[Rule], digest: str, name: str, args: Sequence[str]) -> Rule | None:
    """Returns the first rule that applies to an execution, or None."""
    return next((rule for rule in rules if rule.fits(digest, name, args)), None)
