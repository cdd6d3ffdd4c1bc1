"""Converts the output of a session of `llbm step` to JSON.

In: the output on standard input, or any of its lines, such as those of a record.

Out: an array on standard output, as UTF-8, with an object for each line, in order. `kind` is the kind of the line.

- An event, `N EVENT -> REPLY`, is `claim`, `step`, `settle` or `cancel`, with `number`, `worker`, for a claim `vertex`,
  and `reply`. The reply to a claim has `kind` (of the op) and `steps`; that to a step has `kind`, which is `read`,
  `acted` with `action`, `merged` with `input`, `ran` with `command` and `status`, `skipped` with `command`, or `fault`
  with `action` and `fault`; that to a settle has `vertex` and `state`, and that to a cancel `vertex` and `steps`.
- The status of a vertex is `status`, with `vertex` and `state`, for a running one `worker`, and for a failed one
  `action` and `fault`, or `command` and `status`.
- A line of a tree's text is `directory` or `file`, with `mode` (four octal digits, a string), `user`, `group`, `path`
  and, for a file, `content` in hexadecimal.
- A tree that a worker works on is `part`, with `number` and `role`: `local`, `input`, `result` with `action`, `laid`,
  or `mount` with `dest`. A key of the caches is `key`, with `number`, `mode`, `instances`, `seed` (`DIGEST.I` or `-`)
  and `id`.
- `stop`, `end` and `none` have no other members; `back` has `number`.
- A refusal is `fault`, with `fault`; with 171 also `board` (the board's own fault) and for a key that is held its `id`,
  with 173 also `line`.

Exit status: 0 the array is written; 2 a line or the command line is refused, and nothing is written: the first faulty
line is named on standard error with `line N` at its end, counted from 1; 3 a read or a write failed.
"""

import io
import json
import re
from collections.abc import Iterable
from typing import NamedTuple

from llbm_tools.command_line import Parser
from llbm_tools.inputs import input_lines
from llbm_tools.sessions.shows import KINDS, NUMBER
from llbm_tools.streams import Refused, exit_status, write_output
from llbm_tools.trees.trees import entry_of, path_of

TEXTS = {"id", "dest", "mode", "seed"}

Members = dict[str, object]


class Form(NamedTuple):
    """A form of lines: its kind, its pattern, whose groups are the object's members, and further members."""

    kind: str
    pattern: re.Pattern[str]
    besides: dict[str, str]


def form(kind: str, text: str, **besides: str) -> Form:
    """Returns a form from its text, in which `{name}` is a number with that name."""
    return Form(kind, re.compile(re.sub(r"{(\w+)}", rf"(?P<\1>{NUMBER})", text)), besides)


EVENTS = [
    form("claim", "{number} claim {worker} {vertex}"),
    form("step", "{number} step {worker}"),
    form("settle", "{number} settle {worker}"),
    form("cancel", "{number} cancel {worker}"),
]
REPLIES = {
    "claim": [form(kind, kind + " {steps}") for kind in KINDS],
    "step": [
        form("read", "read"),
        form("acted", "acted {action}"),
        form("merged", "merged {input}"),
        form("ran", "ran {command} {status}"),
        form("skipped", "skipped {command}"),
        form("fault", "fault {action} {fault}"),
    ],
    "settle": [form("", "{vertex} done", state="done"), form("", "{vertex} failed", state="failed")],
    "cancel": [form("", "{vertex} {steps}")],
}
OTHERS = [
    form("stop", "stop"),
    form("end", "end"),
    form("none", "none"),
    form("back", "back {number}"),
    *(form("status", "{vertex} " + state, state=state) for state in ("waiting", "ready", "blocked", "done")),
    form("status", "{vertex} running {worker}", state="running"),
    form("status", "{vertex} failed action {action} fault {fault}", state="failed"),
    form("status", "{vertex} failed command {command} status {status}", state="failed"),
    *(form("part", "{number} " + role, role=role) for role in ("local", "input", "laid")),
    form("part", "{number} result {action}", role="result"),
    form("part", "{number} mount (?P<dest>/.*)", role="mount"),
    form("key", r"{number} (?P<mode>shared|locked|private) {instances} (?P<seed>-|\S+\.[0-9]+) (?P<id>.*)"),
    form("fault", "fault (?P<fault>171) (?P<board>13[123478]|136|141)"),
    form("fault", "fault (?P<fault>171) (?P<board>135) (?P<id>.*)"),
    form("fault", "fault (?P<fault>172|174)"),
    form("fault", "fault (?P<fault>173) {line}"),
]


def object_in(text: str, forms: list[Form]) -> Members | None:
    """Returns the object of a text by the first form that matches, or None."""
    for one in forms:
        match = one.pattern.fullmatch(text)
        if match:
            members = {name: value if name in TEXTS else int(value) for name, value in match.groupdict().items()}
            kind = {"kind": one.kind} if one.kind else {}
            return {**kind, **members, **one.besides}
    return None


def event_object(event: str, reply: str) -> Members:
    """Returns the object of a record's line."""
    members = object_in(event, EVENTS)
    answer = object_in(reply, REPLIES[str(members["kind"])]) if members else None
    if not members or not answer:
        raise Refused("not a line of a record: not a claim, step, settle or cancel with its reply")
    return {**members, "reply": answer}


def entry_object(line: bytes) -> Members:
    """Returns the object of a tree text's line."""
    entry = entry_of(line)
    kind = "directory" if entry.content is None else "file"
    members = {"kind": kind, "mode": f"{entry.mode:04o}", "user": entry.user, "group": entry.group}
    content = {} if entry.content is None else {"content": entry.content.decode()}
    return {**members, **content, "path": path_of(entry.names).decode("utf-8")}


def line_object(line: bytes) -> Members:
    """Returns the object of a line."""
    if not line.endswith(b"\n"):
        raise Refused("the line does not end with a newline")
    if line[:2] in (b"d ", b"f "):
        return entry_object(line)
    try:
        text = line[:-1].decode("utf-8")
    except UnicodeDecodeError as fault:
        raise Refused("the line is not UTF-8") from fault
    other = object_in(text, OTHERS)
    if other:
        return other
    event, arrow, reply = text.partition(" -> ")
    if not arrow:
        raise Refused("not a line of a session")
    return event_object(event, reply)


def json_of(lines: Iterable[bytes]) -> str:
    """Returns the array, with one line for each object."""
    objects = []
    for number, line in enumerate(lines, 1):
        try:
            objects.append(json.dumps(line_object(line), ensure_ascii=False))
        except Refused as fault:
            raise Refused(f"{fault}: line {number}") from fault
    inside = ",\n".join(f"  {one}" for one in objects)
    return f"[\n{inside}\n]\n" if objects else "[]\n"


def convert() -> None:
    """Converts standard input to standard output."""
    write_output(io.BytesIO(json_of(input_lines()).encode("utf-8")), "the array")


def main() -> int:
    """Runs the tool, and returns its exit status."""
    parser = Parser(
        description="Converts the output of a session of llbm step on standard input to JSON."
    )
    parser.parse_args()
    return exit_status(convert)
