"""Reads the messages of a definition with all fields that BuildKit's `solver/pb/ops.proto` has, as objects of JSON.

`ops` has the fields that the program reads; the others are added here, so that an entry can be shown whole even if the
program refuses it. A value is shown as Go's `encoding/json` does it: bytes in base64 (or as the caller says), enums as
numbers, the set member of a oneof below the name of the oneof, and without fields that are absent or the default; but
the numbers of inputs and outputs and the oneof are always shown. Records that belong to no known field, or whose bytes
are not of its type, are listed in `unknown`.
"""

import base64
from collections.abc import Callable
from typing import NamedTuple

from llbm_tools.llb import wire
from llbm_tools.llb.op_reading import form_of, number_in
from llbm_tools.llb.ops import DEFAULTS, MESSAGES, NUMBERS, Field, fields_of
from llbm_tools.llb.wire import Record, Unreadable

ONEOFS = {"Op": "Op", "FileAction": "Action", "UserOpt": "User"}
ALWAYS_SHOWN = {("Input", "index"), ("Mount", "input"), ("Mount", "output"), ("MergeInput", "input")} | {
    ("FileAction", name) for name in ("input", "secondaryInput", "output")
}  # fmt: skip
TEXTS, FLAGS = "map of string", "map of bool"
UNKNOWN = "unknown"

Show = Callable[[bytes], object]


class Whole(NamedTuple):
    """A field: its name, its kind (a number's, `string`, `bytes`, a map's or a message's name), and how it is encoded.

    `form` is the wire type of its records.
    """

    name: str
    kind: str
    is_repeated: bool
    is_member: bool
    form: int


More = dict[int, tuple[str, ...]]

SHOWN_FILE: More = {
    1: ("ID", "string"), 2: ("uid", "uint32"), 3: ("gid", "uint32"), 4: ("mode", "uint32"), 5: ("optional", "bool"),
}  # fmt: skip
# Fields by message and number: name, kind, and `repeated` or `member` (of the oneof) if the field is one.
MORE: dict[str, More] = {
    "Op": {
        5: ("build", "BuildOp", "member"), 7: ("diff", "DiffOp", "member"), 10: ("platform", "Platform"),
        11: ("constraints", "WorkerConstraints"),
    },
    "Platform": {
        1: ("Architecture", "string"), 2: ("OS", "string"), 3: ("Variant", "string"), 4: ("OSVersion", "string"),
        5: ("OSFeatures", "string", "repeated"),
    },
    "WorkerConstraints": {1: ("filter", "string", "repeated")},
    "SourceOp": {2: ("attrs", TEXTS)},
    "ExecOp": {5: ("secretenv", "SecretEnv", "repeated"), 6: ("cdiDevices", "CDIDevice", "repeated")},
    "SecretEnv": {1: ("ID", "string"), 2: ("name", "string"), 3: ("optional", "bool")},
    "CDIDevice": {1: ("name", "string"), 2: ("optional", "bool")},
    "Meta": {
        5: ("proxy_env", "ProxyEnv"), 6: ("extraHosts", "HostIP", "repeated"), 7: ("hostname", "string"),
        9: ("ulimit", "Ulimit", "repeated"), 10: ("cgroupParent", "string"), 11: ("removeMountStubsRecursive", "bool"),
        12: ("validExitCodes", "int32", "repeated"),
    },
    "ProxyEnv": {
        number: (f"{name}_proxy", "string") for number, name in enumerate(("http", "https", "ftp", "no", "all"), 1)
    },
    "HostIP": {1: ("Host", "string"), 2: ("IP", "string")},
    "Ulimit": {1: ("Name", "string"), 2: ("Soft", "int64"), 3: ("Hard", "int64")},
    "Mount": {
        21: ("secretOpt", "SecretOpt"), 22: ("SSHOpt", "SSHOpt"), 23: ("resultID", "string"),
        24: ("contentCache", "enum"),
    },
    "SecretOpt": SHOWN_FILE,
    "SSHOpt": SHOWN_FILE,
    "FileAction": {8: ("symlink", "FileActionSymlink", "member")},
    "FileActionCopy": {
        14: ("alwaysReplaceExistingDestPaths", "bool"), 15: ("modeStr", "string"),
        16: ("required_paths", "string", "repeated"),
    },
    "FileActionSymlink": {
        1: ("oldpath", "string"), 2: ("newpath", "string"), 3: ("owner", "ChownOpt"), 4: ("timestamp", "int64")
    },
    "UserOpt": {1: ("byName", "NamedUserOpt", "member")},
    "NamedUserOpt": {1: ("name", "string"), 2: ("input", "int64")},
    "DiffOp": {1: ("lower", "LowerDiffInput"), 2: ("upper", "UpperDiffInput")},
    "LowerDiffInput": {1: ("input", "int64")},
    "UpperDiffInput": {1: ("input", "int64")},
    "BuildOp": {1: ("builder", "int64"), 3: ("def", "bytes"), 4: ("attrs", TEXTS)},
    "OpMetadata": {
        1: ("ignore_cache", "bool"), 2: ("description", TEXTS), 4: ("export_cache", "ExportCache"), 5: ("caps", FLAGS),
        6: ("progress_group", "ProgressGroup"),
    },
    "ExportCache": {1: ("Value", "bool")},
    "ProgressGroup": {1: ("id", "string"), 2: ("name", "string"), 3: ("weak", "bool")},
}  # fmt: skip


def whole_of(name: str, kind: str, *of: str) -> Whole:
    """Returns a field of the table above."""
    return Whole(name, kind, "repeated" in of, "member" in of, wire.VARINT if kind in NUMBERS else wire.LENGTH)


def known(field: Field) -> Whole:
    """Returns a field that the program reads."""
    kind = field.kind if isinstance(field.kind, str) else field.kind.__name__
    return Whole(field.name, kind, field.repeated, field.member, form_of(field))


def fields_in(name: str) -> dict[int, Whole]:
    """Returns the fields of a message by number, in order."""
    read = fields_of(MESSAGES[name]) if name in MESSAGES else {}
    fields = {number: known(field) for number, field in read.items()}
    fields |= {number: whole_of(*more) for number, more in MORE.get(name, {}).items()}
    return dict(sorted(fields.items()))


TABLE = {name: fields_in(name) for name in [*MESSAGES, *MORE]}


def in_base64(held: bytes) -> str:
    """Returns bytes as JSON has them."""
    return base64.b64encode(held).decode("ascii")


def text_in(held: bytes) -> str:
    """Returns a string; bytes of it that are not UTF-8 are escaped."""
    return held.decode("utf-8", "backslashreplace")


def pair_in(kind: str, data: bytes) -> tuple[str, object]:
    """Returns the key and the value of an entry of a map."""
    key, value = b"", b""
    flag = False
    for record in wire.records(data):
        if record.field == 1:
            key = record.data
        elif record.field == 2:
            value, flag = record.data, bool(record.number)
    return text_in(key), flag if kind == FLAGS else text_in(value)


def one_value(kind: str, record: Record, show: Show) -> object:
    """Returns the value of one record of a field that is neither a map nor bytes of several records."""
    if kind == "bool":
        return bool(record.number)
    if kind in NUMBERS:
        return number_in(kind, record.number)
    if kind == "string":
        return text_in(record.data)
    return show(record.data) if kind == "bytes" else message_in(kind, record.data, show)


def value_of(field: Whole, given: list[Record], show: Show) -> object:
    """Returns the value of a field from its records, of which there is at least one."""
    if field.kind in (TEXTS, FLAGS):
        return dict(pair_in(field.kind, record.data) for record in given)
    if field.is_repeated:
        return [one_value(field.kind, record, show) for record in given]
    if field.kind in TABLE:
        return message_in(field.kind, b"".join(record.data for record in given), show)
    return one_value(field.kind, given[-1], show)


def raw(record: Record, show: Show) -> dict[str, object]:
    """Returns a record that is not understood: its field, and its number or its bytes."""
    held = record.held
    return {"field": record.field, "value": held if isinstance(held, int) else show(held)}


def packed(record: Record) -> list[Record]:
    """Returns the records of numbers that are packed in one record."""
    found, place = [], 0
    while place < len(record.data):
        number, after = wire.varint_at(record.data, place)
        found.append(Record(record.field, wire.VARINT, number, record.data[place:after]))
        place = after
    return found


def by_field(fields: dict[int, Whole], data: bytes) -> tuple[dict[int, list[Record]], list[Record]]:
    """Returns the records of a message by field, of a oneof only the last member's, and those that fit no field."""
    found: dict[int, list[Record]] = {}
    others = []
    members = [number for number, field in fields.items() if field.is_member]
    for record in wire.records(data):
        field = fields.get(record.field)
        if field and field.is_repeated and (field.form, record.form) == (wire.VARINT, wire.LENGTH):
            found.setdefault(record.field, []).extend(packed(record))
            continue
        if not field or record.form != field.form:
            others.append(record)
            continue
        for other in members if field.is_member else []:
            if other != record.field:
                found.pop(other, None)
        found.setdefault(record.field, []).append(record)
    return found, others


def message_in(name: str, data: bytes, show: Show = in_base64) -> dict[str, object]:
    """Returns a message as an object; raises Unreadable if its bytes are no records."""
    fields = TABLE[name]
    found, others = by_field(fields, data)
    shown: dict[str, object] = {}
    for number, field in fields.items():
        is_always_shown = (name, field.name) in ALWAYS_SHOWN
        try:
            value = value_of(field, found[number], show) if number in found else DEFAULTS.get(field.kind)
        except Unreadable:
            others += found[number]
            continue
        if field.is_member:
            shown.setdefault(ONEOFS[name], None)
            if number in found:
                shown[ONEOFS[name]] = {field.name: value}
        elif is_always_shown or number in found and value != DEFAULTS.get(field.kind):
            shown[field.name] = value
    if others:
        shown[UNKNOWN] = [raw(record, show) for record in others]
    return shown
