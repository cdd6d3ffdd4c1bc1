"""Changes a foreign definition into one that the program accepts, op by op.

An entry is identified by the SHA-256 of its bytes: inputs, metadata and the locations in `Source` name it by that. So a
change of an entry changes all entries downstream. Entries are rewritten inputs first, with the new digests of their
inputs.
"""

import enum
import functools
import itertools
import shlex
from collections.abc import Callable, Sequence
from typing import NamedTuple

from llbm_tools.common import shortened
from llbm_tools.definitions.adoption_rules import Rule, rule_for
from llbm_tools.llb import definition, names, needed_rows, op_reading, wire
from llbm_tools.llb.findings import Finding, findings_of
from llbm_tools.llb.local_names import LocalNames, can_be_given, is_known
from llbm_tools.llb.ops import LOCAL, SECRET, ChownOpt, ExecOp, FileAction, Mount, Op, fields_of
from llbm_tools.llb.ops import SSH as SSH_MOUNT
from llbm_tools.llb.rewriting import changed, relinked, with_each, with_message, with_text, with_texts, without, written
from llbm_tools.llb.wire import Faulty, Record
from llbm_tools.rules import buildkit_rewriting, rules_program
from llbm_tools.streams import Refused

KINDS = frozenset([2, 3, 4, 5, 6, 7])
EXEC, SOURCE, FILE = 2, 3, 4
ACTIONS = frozenset([4, 5, 6, 7])
OWNERS = {4: 3, 5: 4, 6: 4}
COPY, UNPACK = 4, 7

DROPPED = SECRETS, SSH, UNPACKS, OWNER_NAMES = "secrets", "ssh", "unpack", "owners"
RUN_NOTHING = "run-nothing"
NOTHING = ("true",)
KIND_OF_FINDING = {
    "SecretMount": SECRETS,
    "SecretEnv": SECRETS,
    "SshMount": SSH,
    "Unpack": UNPACKS,
    "OwnerByName": OWNER_NAMES,
    "Script": RUN_NOTHING,
    "NoArgs": RUN_NOTHING,
}
MOST_CHARACTERS = 60
LINKED = "its inputs have new digests"


class RunNothing(enum.Enum):
    """Which executions that no rule names run nothing."""

    NONE = enum.auto()
    REFUSED = enum.auto()
    ALL = enum.auto()


class Settings(NamedTuple):
    """What to change besides sources: what to drop, rules for words, which other executions run nothing, whether file
    ops and merges are rewritten for BuildKit's rules, and the trees of local sources, by name, for which they are."""

    dropped: frozenset[str] = frozenset()
    rules: tuple[Rule, ...] = ()
    run_nothing: RunNothing = RunNothing.NONE
    like_buildkit: bool = False
    trees: tuple[tuple[str, str], ...] = ()


class Adopted(NamedTuple):
    """The adopted definition, the changes by row, its local sources with their old identifiers, and what is left."""

    data: bytes
    changes: list[tuple[int, str]]
    others: list[str]
    sources: list[tuple[str, str]]
    left: list[Finding]


def words_shown(words: Sequence[str]) -> str:
    """Returns words in one line for a person, shortened."""
    return shortened(shlex.join(words), MOST_CHARACTERS)


def name_of_secret(held: bytes) -> str:
    """Returns the environment variable of a secret: its name (2), or else its ID (1)."""
    fields = names.fields_of(held)
    return names.text_of(fields, 2) or names.text_of(fields, 1)


class Entry:
    """One entry while it is changed, with a description of each change."""

    def __init__(self, settings: Settings, local: dict[str, str], name: str, is_refused: bool) -> None:
        self.settings = settings
        self.local = local
        self.name = name
        # Whether the program refuses its words, if it is an execution.
        self.is_refused = is_refused
        self.changes: list[str] = []
        self.used: Rule | None = None

    def drops(self, kind: str) -> bool:
        """Returns whether things of this kind are dropped."""
        return kind in self.settings.dropped

    def changed_op(self, digest: str, entry: bytes, op: Op) -> bytes:
        """Returns the changed op; its inputs still have their old digests."""
        if op.source and digest in self.local:
            self.changes.append(f"source {op.source.identifier} is {LOCAL}{self.local[digest]}")
            return self.member(entry, SOURCE, lambda held: with_text(held, 1, LOCAL + self.local[digest]))
        if op.exec:
            return self.member(entry, EXEC, functools.partial(self.execution, digest, op.exec))
        if op.file:
            numbers = itertools.count()
            return self.member(
                entry, FILE, lambda held: with_each(held, 2, lambda action: self.action(next(numbers), action))
            )
        return entry

    def member(self, entry: bytes, field: int, change: Callable[[list[Record]], list[Record]]) -> bytes:
        """Returns the entry with the member of its kind changed."""
        return changed(entry, lambda records: with_message(records, field, lambda held: changed(held, change), KINDS))

    def execution(self, digest: str, exec_op: ExecOp, records: list[Record]) -> list[Record]:
        """Returns the records of an execution with its new words, and without what is dropped."""
        records = with_each(records, 2, self.mount)
        if self.drops(SECRETS) and exec_op.secretenv:
            shown = ", ".join(map(name_of_secret, exec_op.secretenv))
            self.changes.append(f"dropped: secret environment {shown}")
            records = without(records, 5)
        if not exec_op.meta:
            return records
        old = exec_op.meta.args
        new = self.words(digest, old)
        if new == old:
            return records
        self.changes.append(f"runs {words_shown(new)} in place of {words_shown(old)}")
        return with_message(records, 1, lambda held: changed(held, lambda meta: with_texts(meta, 1, new)))

    def words(self, digest: str, old: tuple[str, ...]) -> tuple[str, ...]:
        """Returns the new words of an execution."""
        self.used = rule_for(self.settings.rules, digest, self.name, old)
        if self.used:
            return self.used.words or old
        wanted = self.settings.run_nothing
        return NOTHING if wanted is RunNothing.ALL or wanted is RunNothing.REFUSED and self.is_refused else old

    def mount(self, held: bytes) -> bytes | None:
        """Returns a mount, or None if it is dropped."""
        mount = op_reading.read(Mount, held)
        for kind, number, shown in [(SECRETS, SECRET, "secret"), (SSH, SSH_MOUNT, "SSH")]:
            if self.drops(kind) and mount.mount_type == number:
                self.changes.append(f"dropped: {shown} mount at {mount.dest}")
                return None
        return held

    def action(self, number: int, held: bytes) -> bytes:
        """Returns an action without what is dropped."""
        kind = op_reading.read(FileAction, held).kind
        for field in OWNERS:
            if fields_of(FileAction)[field].name == kind:
                member = functools.partial(self.action_member, number, field)
                return changed(
                    held, lambda records: with_message(records, field, lambda one: changed(one, member), ACTIONS)
                )
        return held

    def action_member(self, number: int, field: int, records: list[Record]) -> list[Record]:
        """Returns the records of an action without unpacking, and without owners that are given by name."""
        unpacks = [record.held for record in records if record.field == UNPACK and field == COPY]
        if self.drops(UNPACKS) and unpacks and unpacks[-1]:
            self.changes.append(f"dropped: unpacking by action {number}")
            records = without(records, UNPACK)
        if not self.drops(OWNER_NAMES):
            return records
        return with_message(
            records, OWNERS[field], lambda held: changed(held, functools.partial(self.owner, number, held))
        )

    def owner(self, number: int, held: bytes, records: list[Record]) -> list[Record]:
        """Returns the records of an owner without those that are given by name."""
        owner = op_reading.read(ChownOpt, held)
        for field, who, given in [(1, "user", owner.user), (2, "group", owner.group)]:
            if given and given.by_name is not None:
                shown = names.text_of(names.fields_of(given.by_name), 1)
                self.changes.append(f"dropped: {who} {shown} of action {number}")
                records = without(records, field)
        return records


def refused_words(data: bytes, program: str) -> frozenset[int]:
    """Returns the rows of the executions whose words the program refuses."""
    named = (one for one in findings_of(data, program) if KIND_OF_FINDING.get(one.name()) == RUN_NOTHING)
    return frozenset(one.row for one in named if one.row is not None)


class Adoption:
    """A definition while it is adopted."""

    def __init__(self, data: bytes, settings: Settings, program: str) -> None:
        self.records = op_reading.read_definition(data)
        self.entries = op_reading.entries_in(self.records)
        self.digests = [definition.digest_of(entry) for entry in self.entries]
        self.names = [name.text for name in names.names_of(data)]
        self.settings = settings
        found = needed_rows.Rows(self.entries)
        self.rows = found.named
        self.ops = found.ops
        self.reached = found.reached()
        self.refused = refused_words(data, program) if settings.run_nothing is RunNothing.REFUSED else frozenset()
        self.sources: list[tuple[str, str]] = []
        self.local: dict[str, str] = {}
        self.name_sources()
        self.new: dict[str, str] = {}
        self.made: dict[str, bytes] = {}
        self.changes: dict[int, list[str]] = {}
        self.used: set[int] = set()

    def name_sources(self) -> None:
        """Chooses names for reached sources, in the order of the rows, and lists all that are local then."""
        ops = {row: op for row, op in self.ops.items() if row in self.reached}
        sources = {row: op.source.identifier for row, op in ops.items() if op.source}
        given = LocalNames(list(sources.values()))
        renamed: dict[str, str] = {}
        for row, identifier in sources.items():
            name = identifier[len(LOCAL) :] if identifier.startswith(LOCAL) else None
            if is_known(identifier):
                self.local[self.digests[row]] = name = given.new_name(identifier)
            elif name and not can_be_given(name):
                name = renamed[identifier] = renamed.get(identifier) or given.new_name(identifier)
                self.local[self.digests[row]] = name
            if name is not None:
                self.sources.append((name, identifier))

    def order(self) -> list[int]:
        """Returns the rows that are reached and are ops, inputs first; for BuildKit also those that are not reached,
        since its daemon dies of an input that names no entry."""
        ops = {row: op for row, op in self.ops.items() if row in self.reached or self.settings.like_buildkit}
        named = {row: [self.rows.get(edge.digest) for edge in op.inputs] for row, op in ops.items()}
        return definition.order_of({row: [one for one in rows if one in ops] for row, rows in named.items()})

    def adopt_row(self, row: int) -> None:
        """Rewrites an entry, after the entries that its inputs name."""
        digest = self.digests[row]
        one = Entry(self.settings, self.local, self.names[row], row in self.refused)
        entry = self.entries[row]
        if row in self.reached:
            entry = one.changed_op(digest, entry, self.ops[row])
        linked = relinked(entry, self.new)
        if linked != entry:
            one.changes.append(LINKED)
        self.made[digest] = linked
        self.new[digest] = definition.digest_of(linked)
        self.changes[row] = one.changes
        if one.used:
            self.used.add(one.used.line)

    def renamed(self, held: bytes) -> bytes:
        """Returns an entry of a map with the new digest as its key; an entry that cannot be parsed stays as it is."""
        try:
            records = list(wire.records(held))
        except Faulty:
            return held
        key = names.text_of(names.fields_of(held), 1)
        new = self.new.get(key, key)
        return held if new == key else written(with_text(records, 1, new))

    def source(self, held: bytes) -> bytes:
        """Returns `Source` with the new digests as keys of its locations; if it cannot be parsed it stays as it is."""
        try:
            records = list(wire.records(held))
        except Faulty:
            return held
        return written(with_each(records, 1, self.renamed))

    def result(self) -> bytes:
        """Returns the definition with all changes."""
        made = iter([self.made.get(digest, entry) for digest, entry in zip(self.digests, self.entries)])
        records = with_each(self.records, 1, lambda _: next(made))
        metadata = with_each(records, 2, self.renamed)
        return written(with_message(metadata, 3, self.source))

    def others(self) -> list[str]:
        """Returns the warnings: rules that fit no execution."""
        unused = [rule.line for rule in self.settings.rules if rule.line not in self.used]
        return [f"rules: line {line} fits no execution" for line in unused]


def like_buildkit(data: bytes, settings: Settings, changes: dict[int, list[str]]) -> tuple[bytes, list[str]]:
    """Returns a definition rewritten for BuildKit's rules, and lines about that; the changes of rows are added."""
    said: list[str] = []
    try:
        found = buildkit_rewriting.rewritten(data, dict(settings.trees), said.append)
    except (rules_program.Missing, Refused) as fault:
        return data, [*said, f"not rewritten for BuildKit: {fault}"]
    for row, texts in found.changes.items():
        before = changes.setdefault(row, [])
        changes[row] = [*(text for text in before if text != LINKED or LINKED not in texts), *texts]
    return found.data, said


def adopt(data: bytes, settings: Settings, program: str) -> Adopted:
    """Returns the definition, adopted as far as possible; the program says what it refuses in it, before and after."""
    adoption = Adoption(data, settings, program)
    for row in adoption.order():
        adoption.adopt_row(row)
    result, others = adoption.result(), adoption.others()
    if settings.like_buildkit:
        result, said = like_buildkit(result, settings, adoption.changes)
        others += said
    changes = [(row, text) for row in sorted(adoption.changes) for text in adoption.changes[row]]
    return Adopted(result, changes, others, adoption.sources, findings_of(result, program))


def with_kinds(settings: Settings, kinds: list[str]) -> Settings:
    """Returns settings that drop these kinds too; RUN_NOTHING is one of them."""
    run_nothing = RunNothing.REFUSED if RUN_NOTHING in kinds else settings.run_nothing
    return settings._replace(dropped=settings.dropped | set(kinds) - {RUN_NOTHING}, run_nothing=run_nothing)


def missing_kinds(left: list[Finding], settings: Settings) -> list[str]:
    """Returns the kinds of changes that are not asked for and would mend some of what is left."""
    asked = {*settings.dropped, *([] if settings.run_nothing is RunNothing.NONE else [RUN_NOTHING])}
    kinds = {KIND_OF_FINDING.get(finding.name()) for finding in left}
    return [kind for kind in (*DROPPED, RUN_NOTHING) if kind in kinds and kind not in asked]
