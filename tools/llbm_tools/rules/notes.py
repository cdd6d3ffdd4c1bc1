"""The notes of a definition: what has no effect in llbm, what can end otherwise in BuildKit, what kills its daemon."""

from collections.abc import Collection
from typing import NamedTuple

from llbm_tools.llb import definition, findings, names
from llbm_tools.llb.findings import Finding
from llbm_tools.llb.ops import LOCAL
from llbm_tools.llb.wire import Unreadable
from llbm_tools.rules import rules_program
from llbm_tools.streams import Refused

# The kinds: a field without an effect, what BuildKit's daemon dies of, and a rule that can matter.
FIELD, BREAKS, RULE = "field", "breaks", "rule"
# The note of an attribute that is not known; its part is the key.
ATTRIBUTE = "Attribute"
# The notes of the filters of local sources, which tools apply to a directory.
FILTERS = ("IncludePatterns", "ExcludePatterns", "FollowPaths")


class RowNote(NamedTuple):
    """A note of a row: its name, the part of the op that it is about, if it is one, and its kind."""

    row: int
    name: str
    part: str
    kind: str

    def words(self) -> str:
        """Returns the row, the name and the part."""
        return " ".join(filter(None, [str(self.row), self.name, self.part]))

    def action(self) -> int | None:
        """Returns the number of the action that the note is about, or None."""
        kind, _, number = self.part.partition(" ")
        is_key = self.name == ATTRIBUTE
        return int(number) if kind == "action" and number.isdecimal() and not is_key else None


def local_name(entry: bytes) -> str | None:
    """Returns the name of the local source that an entry is, or None if it is another op."""
    source = definition.op_of(0, entry).source
    local = source is not None and source.identifier.startswith(LOCAL)
    return source.identifier.removeprefix(LOCAL) if source and local else None


def without_applied(found: list[RowNote], data: bytes, filtered: Collection[str]) -> list[RowNote]:
    """Returns the notes but for those of the filters of the local sources of some names, which are applied."""
    entries = definition.entries_of(data) if filtered else []
    applied = {row for row, entry in enumerate(entries) if local_name(entry) in filtered}
    return [one for one in found if one.name not in FILTERS or one.row not in applied]


def lines_of(data: bytes, filtered: Collection[str], heeded: str = "") -> list[str]:
    """Returns a line for each field of a definition that has no effect in a run: none for the filters of the local
    sources of some names, which are applied, none for a note that is heeded, and none at all where the program is not
    there, or where it can't read the definition, since llbm says then what is wrong.
    """
    try:
        found = without_applied(notes_of(data, [], False), data, filtered)
        shown = [name.shown() for name in names.names_of(data)] if found else []
    except (rules_program.Missing, Refused, Unreadable):
        return []
    return [": ".join(filter(None, [f"note {one.words()}", shown[one.row]])) for one in found if one.name != heeded]


def notes_of(data: bytes, found: list[Finding], is_like: bool) -> list[RowNote]:
    """Returns the notes of a definition by row, given its findings; with `is_like` also what can end otherwise. What is
    no definition has none, nor has an entry that is no op; rules matter only if the program accepts it."""
    if any(one.number == findings.DEFINITION for one in found):
        return []
    faulty = {one.row for one in found if one.number == findings.ENTRY}
    answers = rules_program.answers("notes", *(["--like-buildkit"] if is_like else []), given=data)
    notes = [RowNote(one["row"], one["name"], one.get("part", ""), one["kind"]) for one in answers]
    return [one for one in notes if one.row not in faulty and not (found and one.kind == RULE)]
