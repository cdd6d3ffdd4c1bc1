"""The messages of a definition, as records with typed fields: the table of docs/FORMATS.md.

A class is a message and has its name. A field has a number, a kind and, if it differs, the name that it has in a text
of entries. `kind` is the name of the member of a oneof that is set, records of unknown fields are left out, and an
absent field has its default. Messages are values: two of one class are equal if their fields are. They are not made by
`dataclasses`, whose code for these classes would take most of the time that a tool needs to start.
"""

from typing import Any, ClassVar, NamedTuple, dataclass_transform

WIDTHS = {"int64": 64, "int32": 32, "enum": 32, "uint32": 32}
SIGNED = ("int64", "int32", "enum")
NUMBERS = (*WIDTHS, "bool")
# The begin of the identifier of a local source, and the types of mounts.
LOCAL = "local://"
BIND, SECRET, SSH, CACHE, TMPFS = range(5)
DEFAULTS = {"string": "", "bytes": b"", "bool": False, **dict.fromkeys(WIDTHS, 0)}


class Field(NamedTuple):
    """A field: its number, its kind or message, whether it is repeated or of a oneof, its name, its attribute."""

    number: int
    kind: "str | type[Message]"
    repeated: bool
    member: bool
    name: str
    attribute: str

    def default(self) -> object:
        """Returns the value of the field if it is absent."""
        if self.repeated:
            return ()
        return None if self.member or isinstance(self.kind, type) else DEFAULTS[self.kind]


def once(number: int, kind: "str | type[Message]", name: str = "") -> Any:
    """Declares a field that is not repeated."""
    return Field(number, kind, False, False, name, "")


def many(number: int, kind: "str | type[Message]", name: str = "") -> Any:
    """Declares a repeated field."""
    return Field(number, kind, True, False, name, "")


def member(number: int, kind: "str | type[Message]", name: str = "") -> Any:
    """Declares a member of a oneof."""
    return Field(number, kind, False, True, name, "")


@dataclass_transform(frozen_default=True, kw_only_default=True, field_specifiers=(once, many, member))
class Message:
    """What all messages have."""

    kind: str | None = None
    FIELDS: ClassVar[dict[int, Field]] = {}
    DEFAULTS: ClassVar[dict[str, object]] = {"kind": None}

    def __init_subclass__(cls) -> None:
        declared = [(name, field) for name, field in vars(cls).items() if isinstance(field, Field)]
        fields = [field._replace(name=field.name or name, attribute=name) for name, field in declared]
        cls.FIELDS = {field.number: field for field in fields}
        cls.DEFAULTS = {**Message.DEFAULTS, **{field.attribute: field.default() for field in fields}}

    def __init__(self, **values: Any) -> None:
        self.__dict__.update(self.DEFAULTS)
        self.__dict__.update(values)

    def __eq__(self, other: object) -> bool:
        return type(other) is type(self) and self.__dict__ == other.__dict__

    def __hash__(self) -> int:
        return hash((type(self), *self.__dict__.values()))

    def __repr__(self) -> str:
        values = ", ".join(f"{name}={value!r}" for name, value in self.__dict__.items() if value)
        return f"{type(self).__name__}({values})"


def fields_of(message: type[Message]) -> dict[int, Field]:
    """Returns the fields of a message by number."""
    return message.FIELDS


class Input(Message):
    """An input of an op: an output of the entry with this digest."""

    digest: str = once(1, "string")
    index: int = once(2, "int64")


class AttributeEntry(Message):
    """An attribute of a source."""

    key: str = once(1, "string")
    value: str = once(2, "string")


class SourceOp(Message):
    """A source."""

    identifier: str = once(1, "string")
    attrs: tuple[AttributeEntry, ...] = many(2, AttributeEntry)


class UserOpt(Message):
    """A user or a group, by name or by number."""

    by_name: bytes | None = member(1, "bytes", "byName")
    by_id: int | None = member(2, "uint32", "byID")


class ChownOpt(Message):
    """An owner."""

    user: UserOpt | None = once(1, UserOpt)
    group: UserOpt | None = once(2, UserOpt)


class FileActionCopy(Message):
    """A copy."""

    src: str = once(1, "string")
    dest: str = once(2, "string")
    owner: ChownOpt | None = once(3, ChownOpt)
    mode: int = once(4, "int32")
    follow_symlink: bool = once(5, "bool", "followSymlink")
    dir_copy_contents: bool = once(6, "bool", "dirCopyContents")
    unpack: bool = once(7, "bool", "attemptUnpackDockerCompatibility")
    create_dest_path: bool = once(8, "bool", "createDestPath")
    allow_wildcard: bool = once(9, "bool", "allowWildcard")
    allow_empty_wildcard: bool = once(10, "bool", "allowEmptyWildcard")
    timestamp: int = once(11, "int64")
    include_patterns: tuple[str, ...] = many(12, "string")
    exclude_patterns: tuple[str, ...] = many(13, "string")


class FileActionMkFile(Message):
    """A new file."""

    path: str = once(1, "string")
    mode: int = once(2, "int32")
    data: bytes = once(3, "bytes")
    owner: ChownOpt | None = once(4, ChownOpt)
    timestamp: int = once(5, "int64")


class FileActionMkDir(Message):
    """A new directory."""

    path: str = once(1, "string")
    mode: int = once(2, "int32")
    make_parents: bool = once(3, "bool", "makeParents")
    owner: ChownOpt | None = once(4, ChownOpt)
    timestamp: int = once(5, "int64")


class FileActionRm(Message):
    """A removal."""

    path: str = once(1, "string")
    allow_not_found: bool = once(2, "bool", "allowNotFound")
    allow_wildcard: bool = once(3, "bool", "allowWildcard")


class FileAction(Message):
    """An action of a file op."""

    input: int = once(1, "int64")
    secondary_input: int = once(2, "int64", "secondaryInput")
    output: int = once(3, "int64")
    copy: FileActionCopy | None = member(4, FileActionCopy)
    mkfile: FileActionMkFile | None = member(5, FileActionMkFile)
    mkdir: FileActionMkDir | None = member(6, FileActionMkDir)
    rm: FileActionRm | None = member(7, FileActionRm)


class FileOp(Message):
    """A file op."""

    actions: tuple[FileAction, ...] = many(2, FileAction)


class Meta(Message):
    """What an execution runs."""

    args: tuple[str, ...] = many(1, "string")
    env: tuple[str, ...] = many(2, "string")
    cwd: str = once(3, "string")
    user: str = once(4, "string")


class TmpfsOpt(Message):
    """The options of an empty tree."""

    size: int = once(1, "int64")


class CacheOpt(Message):
    """The options of a cache."""

    id: str = once(1, "string", "ID")
    sharing: int = once(2, "enum")


class Mount(Message):
    """A mount of an execution."""

    input: int = once(1, "int64")
    selector: str = once(2, "string")
    dest: str = once(3, "string")
    output: int = once(4, "int64")
    readonly: bool = once(5, "bool")
    mount_type: int = once(6, "enum", "mountType")
    tmpfs_opt: TmpfsOpt | None = once(19, TmpfsOpt, "TmpfsOpt")
    cache_opt: CacheOpt | None = once(20, CacheOpt, "cacheOpt")


class ExecOp(Message):
    """An execution."""

    meta: Meta | None = once(1, Meta)
    mounts: tuple[Mount, ...] = many(2, Mount)
    network: int = once(3, "enum")
    security: int = once(4, "enum")
    secretenv: tuple[bytes, ...] = many(5, "bytes")


class MergeInput(Message):
    """One of the inputs of a merge."""

    input: int = once(1, "int64")


class MergeOp(Message):
    """A merge."""

    inputs: tuple[MergeInput, ...] = many(1, MergeInput)


class Op(Message):
    """An op: its inputs, and what it does."""

    inputs: tuple[Input, ...] = many(1, Input)
    exec: ExecOp | None = member(2, ExecOp)
    source: SourceOp | None = member(3, SourceOp)
    file: FileOp | None = member(4, FileOp)
    build: bytes | None = member(5, "bytes")
    merge: MergeOp | None = member(6, MergeOp)
    diff: bytes | None = member(7, "bytes")


class Definition(Message):
    """A definition: its entries, and what the program skips."""

    entries: tuple[bytes, ...] = many(1, "bytes", "def")
    metadata: tuple[bytes, ...] = many(2, "bytes")
    source: bytes = once(3, "bytes", "Source")


MESSAGES: dict[str, type[Message]] = {
    message.__name__: message
    for message in (
        Op, Input, SourceOp, AttributeEntry, FileOp, FileAction, FileActionCopy, FileActionMkFile, FileActionMkDir,
        FileActionRm, ChownOpt, UserOpt, ExecOp, Meta, Mount, TmpfsOpt, CacheOpt, MergeOp, MergeInput,
    )
}  # fmt: skip
