"""Runs a definition, and says in words what each step did and which paths it changed.

In: a definition (`-` for standard input), and NAME=PATH for each local source: a directory, a tar (both with owner 0:0)
or a tree text. The program is --llbm PROGRAM, else $LLBM, else that of the installation or the repository, else the one
on PATH; one that is not proved, and that nobody named, is named on standard error. Of a directory only what the filters
of its source select is given, as by `run`; with --no-filters all of it.

Out: on standard output the run by one worker, vertex by vertex: a line with its number, its kind and its name or what
it does; below it a line for each micro-step, with the paths that it added, removed or changed, or why it failed, and a
line `BuildKit: ..` for each path that ends otherwise there, and for each field without an effect here
(docs/BUILDKIT.md); and at its end `done` or `failed`. Such lines about a vertex as a whole are below its first one, and
those about entries that are no vertices come first. At most --paths N changes of one tree are shown for each step, 20
by default; a line says how many more there are. The trees are those that a session of `llbm step` shows. With --summary
a micro-step has one line, which counts the paths that it changed and the bytes by which their files grew; and each
output of a vertex has a line with its numbers of directories, files and bytes. --json prints one object in place of
the lines, once the run has ended (docs/FORMATS.md, "Objects of tools").

Exit status: 0 the run is complete; 1 a vertex failed; 2 something is refused: standard error says what; 3 a read or a
write failed, or the program ended by itself.
"""

import argparse
import sys
import tempfile
from collections.abc import Iterator
from typing import NamedTuple

from llbm_tools import common, inputs, objects
from llbm_tools.command_line import Parser
from llbm_tools.debugging import launching
from llbm_tools.debugging.event_lines import changed_lines, otherwise_lines
from llbm_tools.debugging.last_event import Happened, Watch
from llbm_tools.debugging.variables import Views
from llbm_tools.rules import filters
from llbm_tools.running import summary
from llbm_tools.sessions.session import Event, Refusal, Session, SessionFailed
from llbm_tools.streams import FAILED, Refused, exit_status
from llbm_tools.trees.source_files import source_of

MOST_OF_A_LINE = 200
USUAL_PATHS = 20


class Head(NamedTuple):
    """The line of a vertex, above those of its steps: its number, and its kind and its name or what it does."""

    vertex: int
    title: str

    def __str__(self) -> str:
        """Returns the line as it is printed."""
        return f"vertex {self.vertex} {self.title}"


def step_lines(happened: Happened, most: int) -> Iterator[str]:
    """Yields the lines of a micro-step."""
    yield f"  {happened.text}"
    yield from (f"    {line}" for line in changed_lines(happened, most))
    yield from below(happened)


def below(happened: Happened | None) -> Iterator[str]:
    """Yields the lines of what ends otherwise in BuildKit, below those of the event."""
    yield from (f"    {line}" for line in otherwise_lines(happened))


def event_lines(event: Event, watch: Watch, views: Views, options: argparse.Namespace) -> Iterator[Head | str]:
    """Yields the lines of an event."""
    if event.kind == "claim":
        place = views.place_of(event.vertex)
        yield Head(event.vertex, views.described(event.vertex) + (f" ({place})" if place else ""))
        yield from [] if options.summary else below(watch.last())
    elif event.kind == "settle":
        if options.summary and not event.fails():
            outputs = watch.graph.vertices[event.vertex].outputs
            yield from summary.output_lines(watch.session, event.vertex, outputs)
        yield "  failed" if event.fails() else "  done"
        yield from [] if options.summary else below(watch.last(options.paths))
    elif happened := watch.last(summary.ALL_PATHS if options.summary else options.paths):
        yield from [summary.step_line(happened)] if options.summary else step_lines(happened, options.paths)


def blocked_lines(session: Session, views: Views) -> Iterator[Head | str]:
    """Yields the lines of the vertices that were not run."""
    blocked = [vertex for vertex, status in enumerate(session.status()) if status == "blocked"]
    for vertex in blocked:
        yield Head(vertex, views.described(vertex))
        yield "  not run: a vertex that it needs failed"


def run_lines(launched: launching.Launched, options: argparse.Namespace) -> Iterator[Head | str]:
    """Yields the lines of a whole run."""
    session, views = launched.session, Views(launched)
    sources = None if options.summary else launched.sources
    watch = Watch(session, launched.graph, launched.entries.data, sources, launched.filtered)
    if watch.missing():
        common.say(watch.missing())
    if not options.summary:
        yield from (f"BuildKit: {line}" for line in watch.outside())
    while event := session.event("next"):
        yield from event_lines(event, watch, views, options)
    yield from blocked_lines(session, views)


def launched_by(options: argparse.Namespace) -> launching.Launched:
    """Starts the run on a copy of the definition."""
    with tempfile.TemporaryDirectory(prefix="llbm-explain-") as folder:
        file = inputs.stored_data(options.definition, folder, "definition")
        given = {
            "definition": file, "sources": dict(options.source), "workers": 1, "llbm": options.llbm,
            "noFilters": options.no_filters,
        }
        return launching.launch(given, common.say, "--llbm PROGRAM")


def write_line(text: str) -> None:
    """Writes a line to standard output at once."""
    sys.stdout.buffer.write(text.encode("utf-8") + b"\n")
    sys.stdout.flush()


def members_of(lines: Iterator[Head | str], launched: launching.Launched) -> dict[str, object]:
    """Runs to the end, and returns the members of the object of the run."""
    outside: list[str] = []
    vertices: list[dict[str, object]] = []
    below = outside
    for line in lines:
        if isinstance(line, Head):
            below = []
            vertices.append({**line._asdict(), "lines": below})
        else:
            below.append(line.removeprefix("  "))
    return {
        "vertices": vertices,
        "outside": outside,
        "complete": not is_failed(launched),
        "events": len(launched.session.record),
        "result": launched.graph.result,
    }


def is_failed(launched: launching.Launched) -> bool:
    """Returns whether a vertex has failed."""
    return any(event.fails() for event in launched.session.record)


def explain(options: argparse.Namespace) -> int:
    """Runs the definition, prints the lines, and returns the exit status."""
    common.check_open(sys.stdout, "standard output")
    launched = launched_by(options)
    try:
        lines = run_lines(launched, options)
        if options.json:
            objects.write(members_of(lines, launched))
            return int(is_failed(launched))
        for line in lines:
            write_line(common.shortened(common.printable(str(line)), MOST_OF_A_LINE))
        if not is_failed(launched):
            count, result = len(launched.session.record), launched.graph.result
            write_line(f"the run is complete after {count} events, with the result {result}")
        return int(is_failed(launched))
    finally:
        launched.session.end()


def number_of(word: str) -> int:
    """Parses a number of paths."""
    if not word.isdecimal() or len(word) > 9:
        raise argparse.ArgumentTypeError(f"{word!r} is not a number")
    return int(word)


def parse_options() -> argparse.Namespace:
    """Parses the command line."""
    parser = Parser(description="Says what each step of a run did.")
    parser.add_argument("definition", metavar="DEFINITION", help="the file of the definition, or -")
    parser.add_argument("source", nargs="*", type=source_of, metavar="NAME=PATH", help="a local source")
    parser.add_argument("--llbm", metavar="PROGRAM", default="", help="the program llbm")
    filters.add_option(parser)
    parser.add_argument("--paths", metavar="N", type=number_of, default=USUAL_PATHS, help="the most paths of a step")
    parser.add_argument("--summary", action="store_true", help="print one line for each step, and sizes of outputs")
    parser.add_argument("--json", action="store_true", help="print one object")
    return parser.parse_args()


def explain_or_refuse(options: argparse.Namespace) -> int:
    """Runs the definition, prints the lines or why the program ended by itself, and returns the exit status."""
    try:
        return explain(options)
    except Refusal as fault:
        raise Refused(str(fault)) from fault
    except SessionFailed as fault:
        for line in [str(fault), *fault.words]:
            common.say(line)
        return FAILED


def main() -> int:
    """Runs the tool, and returns its exit status."""
    options = parse_options()
    return exit_status(lambda: explain_or_refuse(options))
