"""Conditions of breakpoints: expressions over an event, as `vertex == 3 && status != 0`.

Names are `event` (its number in the record), `kind` (claim, step, settle or cancel), `worker`, `vertex`, `steps` (how
many micro-steps the vertex has done), `action` and `command` (the number of the one that was done), `status` (that of
the command) and `failed` (1 after the settle of a vertex that failed, else 0). Numbers and texts in quotes are compared
by ==, !=, <, <=, > and >=, and joined by &&, ||, ! and parentheses. Where an event has no value of a name, a comparison
with it is false.
"""

import operator
import re
from collections.abc import Callable
from typing import Any

from llbm_tools.sessions.session import Event, after

Value = int | str | None
Values = dict[str, Value]
Term = Callable[[Values], Value]
Condition = Callable[[Event, int], bool]

NAMES = ("event", "kind", "worker", "vertex", "steps", "action", "command", "status", "failed")
TOKEN = re.compile(r"\s*(?:([0-9]{1,9})|([A-Za-z_]+)|\"([^\"]*)\"|'([^']*)'|(&&|\|\||[=!<>]=|[<>!()]))")
COMPARISONS: dict[str, Callable[[Any, Any], bool]] = {
    "==": operator.eq, "!=": operator.ne, "<": operator.lt, "<=": operator.le, ">": operator.gt, ">=": operator.ge,
}  # fmt: skip
REPLY = re.compile(r"(acted|fault|ran|skipped) ([0-9]+)(?: ([0-9]+))?")
MOST_LETTERS = 1_000


class NoCondition(Exception):
    """A text is no condition; the message says why."""


def values_of(event: Event, number: int) -> Values:
    """Returns the values of the names after an event with its number in the record."""
    run, reply = after(event), REPLY.fullmatch(event.reply) if event.kind == "step" else None
    word, part = (reply[1], int(reply[2])) if reply else ("", 0)
    return {
        "event": number, "kind": event.kind, "worker": event.worker, "vertex": event.vertex,
        "steps": run.steps if run else None, "action": part if word in ("acted", "fault") else None,
        "command": part if word in ("ran", "skipped") else None,
        "status": int(reply[3]) if reply and word == "ran" and reply[3] else None, "failed": int(event.fails()),
    }  # fmt: skip


def tokens_of(text: str) -> list[tuple[str, str]]:
    """Returns the tokens of a text, each with its kind: number, name, text or sign."""
    found, place, end = [], 0, len(text.rstrip())
    while place < end:
        match = TOKEN.match(text, place)
        if not match:
            raise NoCondition(f"the condition can't be read at {text[place:].strip()[:20]!r}")
        number, name, *texts, sign = match.groups()
        quoted = next((one for one in texts if one is not None), None)
        kind = "number" if number else "name" if name else "sign" if sign else "text"
        found.append((kind, number or name or sign or quoted or ""))
        place = match.end()
    return found


class Parser:
    """Reads a condition from its tokens: `||` below `&&` below `!`, comparisons and parentheses."""

    def __init__(self, text: str) -> None:
        if len(text) > MOST_LETTERS:
            raise NoCondition(f"a condition has at most {MOST_LETTERS:,} letters")
        self.tokens = tokens_of(text)
        self.place = 0

    def takes(self, *signs: str) -> str:
        """Takes one of some signs, if it is next; returns it, or nothing."""
        if self.place < len(self.tokens) and self.tokens[self.place] in [("sign", sign) for sign in signs]:
            self.place += 1
            return self.tokens[self.place - 1][1]
        return ""

    def whole(self) -> Term:
        """Reads a whole condition."""
        found = self.either()
        if self.place < len(self.tokens):
            raise NoCondition(f"the condition has {self.tokens[self.place][1]!r} where it should end")
        return found

    def either(self) -> Term:
        """Reads terms between `||`."""
        terms = [self.both()]
        while self.takes("||"):
            terms.append(self.both())
        return terms[0] if len(terms) == 1 else lambda values: any(term(values) for term in terms)

    def both(self) -> Term:
        """Reads terms between `&&`."""
        terms = [self.compared()]
        while self.takes("&&"):
            terms.append(self.compared())
        return terms[0] if len(terms) == 1 else lambda values: all(term(values) for term in terms)

    def compared(self) -> Term:
        """Reads a comparison, or a value by itself, which holds if it is neither 0 nor empty."""
        if self.takes("!"):
            term = self.compared()
            return lambda values: not term(values)
        left, sign = self.value(), self.takes(*COMPARISONS)
        return comparison(left, sign, self.value()) if sign else left

    def value(self) -> Term:
        """Reads a number, a name, a text, or a condition in parentheses."""
        if self.takes("("):
            found = self.either()
            if not self.takes(")"):
                raise NoCondition("the condition lacks a )")
            return found
        kind, word = self.tokens[self.place] if self.place < len(self.tokens) else ("end", "")
        self.place += 1
        if kind == "number":
            return lambda _: int(word)
        if kind == "text":
            return lambda _: word
        if kind == "name" and word in NAMES:
            return lambda values: values[word]
        what = {"end": "its end", "name": f"the name {word}", "sign": word}[kind]
        raise NoCondition(f"the condition has {what} where a value should be; names are {', '.join(NAMES)}")


def comparison(left: Term, sign: str, right: Term) -> Term:
    """Returns the comparison of two values. It is false where one is absent, or if they are of two kinds."""

    def holds(values: Values) -> bool:
        """Returns whether the comparison is true."""
        one, other = left(values), right(values)
        return type(one) is type(other) and one is not None and COMPARISONS[sign](one, other)

    return holds


def condition_in(text: str) -> Condition:
    """Returns the condition in a text."""
    term = Parser(text).whole()
    return lambda event, number: bool(term(values_of(event, number)))
