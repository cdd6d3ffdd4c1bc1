"""What the page says of a line `fault ..`: the sentences of docs/FAULTS.md, with places for what the line has.

A sentence of docs/FAULTS.md names an argument by its letter, or says that it follows. Here it has `{N}` or the like at
that place, so that the page can fill it in.
"""

import re
from typing import Any

from llbm_tools.definitions import faults

# What is said of an argument that follows, and what is written in its place.
FOLLOWS = (
    (r"; if a word follows, it should be `NAME=FILE`, but has no `=`", ""),
    (r"; [^;]*\bfault\b[^;]*\bfollows", ""),
    (r" whose name follows", " {RULE}"),
    (r"; the feature's name follows", ": {FEATURE}"),
    (r"; the rule's name follows", ": {RULE}"),
    (r"; its name follows", ": {NAME}"),
    (r"; the name of the first such source, by vertex, follows", ": {NAME}"),
    (r"; the number of the first such vertex follows", ": {V}"),
    (r",? whose ID follows", ": {ID}"),
    (r"; the ID of the first in mount order follows", ": {ID}"),
)
LETTERS = ("k", "i", "N", "V", "C", "P", "WORD")
# What a person does on the page where docs/FAULTS.md names a command line.
ADVICE = {121: "Give it a tree.", 173: "Use a key or a button of the page."}


def template(sentence: str, arguments: tuple[str, ...]) -> str:
    """Returns a sentence with a place for each argument that it names."""
    letters = [one for one in LETTERS if one in arguments]
    if letters:
        sentence = re.sub(rf"\b({'|'.join(letters)})\b", r"{\1}", sentence)
    for pattern, place in FOLLOWS:
        sentence = re.sub(pattern, place, sentence)
    return sentence


def row_of(sentence: str, advice: str, arguments: tuple[str, ...]) -> dict[str, Any]:
    """Returns what the page needs of a row of a table."""
    plain = [one.strip("[]") for one in arguments]
    return {"arguments": plain, "cause": template(sentence, arguments), "advice": advice}


def table() -> dict[str, Any]:
    """Returns what is known of each fault by number, and of the names after a number."""
    page = faults.read_page()
    causes = {}
    for number in page.causes:
        cause = page.causes_of(number)[0]
        causes[str(number)] = row_of(cause.sentence, ADVICE.get(number, cause.advice), cause.arguments)
    names = {
        str(number): {name: row_of(row.sentence, row.advice, row.arguments) for name, row in rows.items()}
        for number, rows in page.names.items()
    }
    return {"causes": causes, "names": names}
