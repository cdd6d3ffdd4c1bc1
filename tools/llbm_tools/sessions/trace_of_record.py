"""Converts the record of a session of `llbm step` to a trace that Perfetto and browsers open.

In: the output of a session on standard input, or only the lines of its record; other lines are skipped, and `back N`
removes the events after the first N. --definition FILE names the definition, for the names of vertices and micro-steps.

Out: Chrome's trace events on standard output, as a JSON object. Each worker is a row (a thread) with a slice for each
vertex that it took, from the claim to the settle or the cancel, and inside it a slice for each micro-step. The time is
the event's number, as a microsecond: event N is from N to N + 1. `args` of a vertex has `vertex`, `kind`, `steps` and
`state` (`done`, `failed`, `cancelled` or `running`), and that of a micro-step its `reply`.

Exit status: 0 the trace is written; 2 a line, the definition or the command line is refused, and nothing is written:
standard error says why; 3 a read or a write failed.
"""

import io
import json
import re
from typing import NamedTuple

from llbm_tools.command_line import Parser
from llbm_tools.common import printable, shortened
from llbm_tools.inputs import input_lines
from llbm_tools.llb import definition, names, no_definition
from llbm_tools.llb.given_definitions import definition_at
from llbm_tools.llb.ops import Op
from llbm_tools.llb.wire import Unreadable
from llbm_tools.sessions.records import Event, Work, events_of, works_of
from llbm_tools.streams import Refused, exit_status, program_to_ask, write_output

PROCESS = 0
MOST_OF_A_NAME = 200
PART = re.compile(r"(?:acted|ran|skipped|fault) ([0-9]+).*")


Arguments = dict[str, object]
Slice = dict[str, object]


class Shown(NamedTuple):
    """What a definition has for a vertex: its name, and its actions or commands."""

    name: str
    parts: list[str]


def parts_of(op: Op) -> list[str]:
    """Returns the actions or the commands of an op."""
    return definition.commands_of(op) if op.exec else definition.actions_of(op)


def vertices_of(data: bytes) -> list[Shown]:
    """Returns the vertices of a definition."""
    entries = definition.entries_of(data)
    found = []
    for name, row in zip(names.names_of_vertices(names.names_of(data)), definition.graph_of(entries).rows):
        op = definition.op_of(row, entries[row])
        found.append(Shown(name.text or "; ".join(definition.texts_of(op)), parts_of(op)))
    return found


def slice_of(name: str, category: str, begin: int, end: int, worker: int, args: Arguments) -> Slice:
    """Returns the trace event of a slice."""
    name = shortened(printable(name), MOST_OF_A_NAME)
    place = {"pid": PROCESS, "tid": worker}
    return {"name": name, "cat": category, "ph": "X", "ts": begin, "dur": end - begin, **place, "args": args}


def metadata(kind: str, name: str, worker: int) -> Slice:
    """Returns the trace event that names the process or the row of a worker."""
    return {"name": kind, "ph": "M", "pid": PROCESS, "tid": worker, "args": {"name": name}}


def state_of(work: Work) -> str:
    """Returns how a vertex ended, or that it runs."""
    if work.end is None:
        return "running"
    return "cancelled" if work.end.kind == "cancel" else work.end.reply.partition(" ")[2]


def vertex_slice(work: Work, shown: Shown | None, end: int) -> Slice:
    """Returns the slice of a vertex; that of one that still runs is up to the end of the record."""
    kind, steps = work.events[0].reply.split(" ")
    name = f"{work.vertex} {kind}" + (f": {shown.name}" if shown and shown.name else "")
    args: Arguments = {"vertex": work.vertex, "kind": kind, "steps": int(steps), "state": state_of(work)}
    last = work.end.number + 1 if work.end else end
    return slice_of(name, kind, work.events[0].number, last, work.worker, args)


def step_slice(event: Event, shown: Shown | None) -> Slice:
    """Returns the slice of a micro-step."""
    part = PART.fullmatch(event.reply)
    parts = shown.parts if shown else []
    name = event.reply
    if part and int(part[1]) < len(parts):
        name = f"{parts[int(part[1])]} ({event.reply})"
    return slice_of(name, "step", event.number, event.number + 1, event.worker, {"reply": event.reply})


def trace_of(works: list[Work], vertices: list[Shown] | None) -> list[Slice]:
    """Returns the trace of what the workers did."""
    workers = sorted({work.worker for work in works})
    events = [metadata("process_name", "llbm", 0)]
    events += [metadata("thread_name", f"worker {worker}", worker) for worker in workers]
    end = max((work.events[-1].number + 1 for work in works), default=0)
    for work in works:
        if vertices is not None and work.vertex >= len(vertices):
            raise Refused(f"the definition has no vertex {work.vertex}")
        shown = None if vertices is None else vertices[work.vertex]
        events.append(vertex_slice(work, shown, end))
        events += [step_slice(event, shown) for event in work.events if event.kind == "step"]
    return events


def json_of(events: list[Slice]) -> str:
    """Returns the trace as JSON, with a line for each event."""
    lines = ",\n".join(json.dumps(event, ensure_ascii=False, separators=(",", ":")) for event in events)
    return f'{{"displayTimeUnit":"ms","traceEvents":[\n{lines}\n]}}\n'


def vertices_in(file: str) -> list[Shown]:
    """Returns the vertices of the definition in a file."""
    data = definition_at(file, lambda: program_to_ask(None))
    try:
        return vertices_of(data)
    except Unreadable as fault:
        raise no_definition.refusal(fault, data, file) from fault


def convert(file: str | None) -> None:
    """Converts standard input to standard output."""
    vertices = None if file is None else vertices_in(file)
    trace = trace_of(works_of(events_of(input_lines())), vertices)
    write_output(io.BytesIO(json_of(trace).encode("utf-8")), "the trace")


def main() -> int:
    """Runs the tool, and returns its exit status."""
    parser = Parser(
        description="Converts the record of a session of llbm step to Chrome's trace events."
    )
    parser.add_argument("--definition", metavar="FILE", help="the definition, for names")
    options = parser.parse_args()
    return exit_status(lambda: convert(options.definition))
