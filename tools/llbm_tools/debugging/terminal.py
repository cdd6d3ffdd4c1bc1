"""The commands of a debugger at a prompt: they move a run forwards and backwards, and show what it sees."""

import cmd
import contextlib
import re
import sys
from collections.abc import Iterable

from llbm_tools.common import printable
from llbm_tools.debugging import completion, console, event_lines, launching, path_breakpoints, tried_commands
from llbm_tools.debugging.last_event import Watch, step_text
from llbm_tools.debugging.launching import Launched
from llbm_tools.debugging.prompt_breakpoints import PromptBreaks
from llbm_tools.debugging.run_control import Ended, Motion, Mover, Stop
from llbm_tools.debugging.shown_trees import NoPath, node_at
from llbm_tools.debugging.step_lines import spans_of, step_shown
from llbm_tools.debugging.tree_lines import tree_lines
from llbm_tools.debugging.variables import LOOK, OUTPUT, Views
from llbm_tools.sessions.session import Event, Refusal
from llbm_tools.streams import Refused

MOST_LINES = 200
NUMBER = re.compile(r"[0-9]{1,9}")

HELP = """\
Moving (an empty line does the last of these again):
  next [N]        the next event, which the program chooses, or the next N events
  step [W]        the next event of worker W, by default worker 0
  finish [W]      the events of worker W up to the settle of its vertex
  go              on to the next breakpoint, or to the end
  back [N]        one event back, or N events
  rewind          back to the last breakpoint, or to the beginning
  do LINE         an event of a session: claim W V, step W, settle W or cancel W
Breakpoints:
  break                   their list
  break VERTEX [settle]   after the claim of a vertex, or its settle; a number, a name, a digest or %ENTRY
  break line [FILE:]LINE  after the claim of the vertices that come from a line of FILE, or of the text of `list`
  break path PATH         after an event that changes what is at or below PATH in a tree
  break failures          after the settle of a vertex that failed
  delete N                removes breakpoint N
Looking:
  where           what each worker runs
  status          the status of each vertex
  list [VERTEX]   the text of the entry; > is the step that comes next, or that failed
  diff            what the last event changed
  why [VERTEX]    why a vertex failed, by default the last one that did
  who PATH        the events that changed what is at or below PATH, the last one first
  tree TREE       the entries of V.I:/path, work W I:/path or cache K I:/path
  print VALUE     a file, a directory or a vertex: V, %ENTRY, V.I:/path, work W I:/path or cache K I:/path
  work W, caches  the trees of what worker W runs; the keys of the caches
  try COMMAND     what a command would do to the trees where the run is; they stay as they are
  help, quit"""


def tree_in(text: str) -> tuple[str, str | None]:
    """Returns the line of a session that prints the tree of an expression, and the path in it."""
    output, look = OUTPUT.fullmatch(text), LOOK.fullmatch(text)
    if output:
        return f"tree {output[1]} {output[2]}", output[3]
    if look:
        return look[1], look[2]
    raise Refused("tree TREE: V.I:/path, work W I:/path or cache K I:/path")


def words_for(words: list[str], text: str) -> list[str]:
    """Returns the words that begin so; one alone has a space after it, as in a shell."""
    found = [word for word in words if word.startswith(text)]
    return [f"{found[0]} "] if len(found) == 1 else found


class Terminal(cmd.Cmd):
    """A prompt on a run. Each command is a method `do_NAME`, whose argument is the rest of the line."""

    prompt = "(llbm) "

    def __init__(self, launched: Launched, program: str, paths: int) -> None:
        super().__init__()
        self.launched, self.program, self.paths = launched, program, paths
        self.views = Views(launched)
        self.watch = Watch(
            launched.session, launched.graph, launched.entries.data, launched.sources, launched.filtered
        )
        self.mover = Mover(launched.session, self.report, lambda event, message: None)
        self.breaks = PromptBreaks(launched, self.mover, self.watch)
        self.is_silent = self.is_interrupted = False
        self.again = ""
        if not sys.stdin.isatty():
            self.use_rawinput, self.prompt = False, ""

    # ---- what is printed

    def say(self, *lines: str) -> None:
        """Prints lines, with non-printable characters escaped."""
        for line in lines:
            self.stdout.write(f"{printable(line)}\n")
        self.stdout.flush()

    def some(self, lines: Iterable[str]) -> None:
        """Prints the first lines, and how many more there are."""
        found = list(lines)
        self.say(*found[:MOST_LINES], *([f"and {len(found) - MOST_LINES:,} more"] if len(found) > MOST_LINES else []))

    def words_of(self, event: Event) -> str:
        """Returns what an event did, in words; the trees that a failed vertex had are looked at for the cause."""
        vertex = self.launched.graph.vertices[event.vertex]
        if event.kind == "claim":
            place = self.views.place_of(event.vertex)
            return self.views.title(event.vertex) + (f" ({place})" if place else "")
        if event.kind == "settle":
            why = self.views.why(event.vertex) if event.fails() else None
            return f"vertex {event.vertex} " + (f"failed: {why}" if why else event.reply.partition(" ")[2])
        words = step_text(vertex, event.reply) if event.kind == "step" else "is given up"
        return f"vertex {event.vertex} {words}"

    def report(self, event: Event, line: str) -> None:
        """Notes an event that was done or undone, and prints it unless a motion prints only where it stops."""
        self.views.close()
        if line != event.line:
            self.views.forget()
        elif event.fails():
            self.views.note_failure(event.vertex)
        if not self.is_silent:
            self.say(self.line_of(event) if line == event.line else line)

    def line_of(self, event: Event) -> str:
        """Returns the line of the last event of the record."""
        count = len(self.launched.session.record)
        return f"{count} {event.kind} {event.worker}: {self.words_of(event)}"

    def say_end(self) -> None:
        """Prints how the run ended."""
        record = self.launched.session.record
        failed = [event.vertex for event in record if event.fails()]
        for vertex in failed:
            self.say(f"vertex {self.views.title(vertex)} failed: {self.views.why(vertex) or ''}")
        if not failed:
            self.say(f"the run is complete after {len(record)} events, with the result {self.launched.graph.result}")

    # ---- moving

    def move(self, motion: Motion, silently: bool = False) -> bool:
        """Moves until the motion stops or the run ends; returns whether it can go on."""
        self.is_silent, self.is_interrupted = silently, False
        try:
            stop = None
            while stop is None:
                stop = motion() or (Stop("pause", "paused", 0) if self.is_interrupted else None)
        except Ended:
            self.say_end()
            return False
        finally:
            self.is_silent = False
        self.say_stop(stop, silently)
        return stop.reason == "step"

    def say_stop(self, stop: Stop, silently: bool) -> None:
        """Prints where a motion stopped."""
        record = self.launched.session.record
        if silently and record:
            self.say(self.line_of(record[-1]))
        if stop.reason != "step":
            self.say(f"stopped: {stop.description}")

    def times(self, motion: Motion, line: str) -> None:
        """Moves as often as a line says, or until something stops it."""
        for _ in range(self.number(line, 1)):
            if not self.move(motion):
                return

    def number(self, word: str, default: int) -> int:
        """Parses a number."""
        if not word:
            return default
        if not NUMBER.fullmatch(word):
            raise Refused(f"not a number: {word}")
        return int(word)

    def worker(self, word: str) -> int:
        """Parses the number of a worker."""
        worker = self.number(word, 0)
        if worker >= len(self.launched.session.runs):
            raise Refused(f"there is no worker {worker}")
        return worker

    def do_next(self, line: str) -> None:
        """Does the next event, or the next N."""

        def motion() -> Stop:
            """Does one event."""
            event = self.mover.do("next")
            return self.mover.met(event) or Stop("step", event.line, event.worker)

        self.times(motion, line)

    def do_step(self, line: str) -> None:
        """Does the next event of a worker."""
        self.move(self.mover.into(self.worker(line)))

    def do_finish(self, line: str) -> None:
        """Does the events of a worker up to its settle."""
        self.move(self.mover.out(self.worker(line)))

    def do_go(self, _: str) -> None:
        """Goes on to the next breakpoint."""
        self.move(self.mover.forwards(), silently=True)

    def check_begun(self) -> None:
        """Checks that there is an event to undo."""
        if not self.launched.session.record:
            raise Refused("the run is at its beginning")

    def do_back(self, line: str) -> None:
        """Goes one event back, or N."""
        self.check_begun()
        count = min(self.number(line, 1), len(self.launched.session.record))
        self.times(self.mover.one_back(), str(count))

    def do_rewind(self, _: str) -> None:
        """Goes back to the last breakpoint."""
        self.check_begun()
        self.move(self.mover.backwards(), silently=True)

    def do_do(self, line: str) -> None:
        """Does an event of a session."""
        if not console.EVENT.fullmatch(line):
            raise Refused("this is none of claim W V, step W, settle W and cancel W")
        stop = self.mover.met(self.mover.do(line))
        if stop:
            self.say_stop(stop, False)

    # ---- breakpoints

    def do_break(self, line: str) -> None:
        """Lists the breakpoints, or sets one."""
        self.say(*([self.breaks.add(line)] if line else self.breaks.lines() or ["there are no breakpoints"]))

    def do_delete(self, line: str) -> None:
        """Removes a breakpoint."""
        self.breaks.remove(self.number(line, 0))

    # ---- looking

    def vertex(self, word: str) -> int:
        """Returns the vertex that a word names, by default that of the last event."""
        record = self.launched.session.record
        if not word:
            return record[-1].vertex if record else 0
        return self.breaks.vertex_named(word)

    def do_where(self, _: str) -> None:
        """Prints what each worker runs."""
        for worker, run in enumerate(self.launched.session.runs):
            title = "idle" if run is None else f"{self.views.title(run.vertex)}, {self.views.progress(worker)}"
            self.say(f"worker {worker}: {title}")

    def do_status(self, _: str) -> None:
        """Prints the status of each vertex."""
        self.some(f"{one:<10} {self.views.title(number)}" for number, one in enumerate(self.launched.session.status()))

    def do_list(self, line: str) -> None:
        """Prints the text of an entry."""
        graph, session = self.launched.graph, self.launched.session
        vertex = self.vertex(line)
        known, shown = graph.vertices[vertex], None
        for worker in range(len(session.runs)):
            if self.views.vertex_of(worker) == vertex:
                step = step_shown(session, worker, known)
                shown = None if step is None or known.kind == "source" else spans_of(graph, known)[step]
        texts = graph.text.split("\n")
        for number in range(known.first, known.last + 1):
            mark = ">" if shown and shown.first <= number <= shown.last else " "
            self.say(f"{mark}{number:6} {texts[number - 1]}")

    def do_diff(self, _: str) -> None:
        """Prints what the last event changed."""
        happened = self.watch.last(self.paths)
        if happened is None:
            self.say("the run is at its beginning")
            return
        lines = list(event_lines.changed_lines(happened, self.paths))
        self.say(happened.text, *(f"  {line}" for line in lines or ["no path changed"]))
        self.say(*(f"  {line}" for line in event_lines.otherwise_lines(happened)))

    def do_why(self, line: str) -> None:
        """Prints why a vertex failed."""
        failed = [event.vertex for event in self.launched.session.record if event.fails()]
        if not failed:
            raise Refused("no vertex has failed")
        vertex = self.vertex(line) if line else failed[-1]
        if vertex not in failed:
            raise Refused(f"vertex {vertex} has not failed: it is {self.launched.session.status()[vertex]}")
        self.say(f"vertex {self.views.title(vertex)}: {self.views.why(vertex) or 'the cause is not known'}")

    def do_who(self, line: str) -> None:
        """Prints the events that changed a path."""
        if not line:
            raise Refused("who PATH: the path is missing")
        found = path_breakpoints.all_changes(self.watch, line)
        for one in found:
            text = step_text(self.launched.graph.vertices[one.event.vertex], one.event.reply)
            self.say(f"{one.number} {one.event.kind} {one.event.worker}: vertex {one.event.vertex} {text}")
            self.say(f"  {one.tree}: {event_lines.change_line(one.change)}")
        if not found:
            self.say(f"no step so far changed what is at {line}")

    def do_tree(self, line: str) -> None:
        """Prints the entries of a tree."""
        command, path = tree_in(line)
        root = self.views.tree_by(command)
        if root is None:
            raise Refused(f"there is no tree {command} now")
        try:
            self.some(tree_lines(path or "/", node_at(root, path or "/"), MOST_LINES))
        except NoPath as fault:
            raise Refused(str(fault)) from fault

    def do_print(self, line: str) -> None:
        """Prints a value."""
        self.say(*str(self.views.evaluate(line)["result"]).split("\n"))

    def do_work(self, line: str) -> None:
        """Prints the trees of what a worker runs."""
        self.look(f"work {self.worker(line)}")

    def do_caches(self, _: str) -> None:
        """Prints the keys of the caches."""
        self.look("caches")

    def look(self, command: str) -> None:
        """Prints the lines of a look of the session."""
        self.say(*(console.looked(self.launched.session, command) or "none").split("\n"))

    def do_try(self, line: str) -> None:
        """Prints what a command would do."""
        if not line:
            raise Refused("try COMMAND: the command is missing")
        record, runs = self.launched.session.record, self.launched.session.runs
        if not record:
            raise Refused("the run is at its beginning: no tree is there yet")
        last = record[-1]
        run = runs[last.worker]
        stage = tried_commands.stage_of(self.launched, last.worker, run.vertex if run else last.vertex)
        self.some(tried_commands.tried_lines(self.launched, self.program, stage, line, self.paths))

    # ---- the prompt

    def do_help(self, _: str) -> None:
        """Prints all commands."""
        self.say(*HELP.split("\n"))

    def do_quit(self, _: str) -> bool:
        """Ends the session."""
        return True

    def do_EOF(self, _: str) -> bool:
        """Ends the session at the end of the input."""
        if self.use_rawinput:
            self.say("")
        return True

    def default(self, line: str) -> None:
        """Refuses an unknown command."""
        raise Refused(f"the command {line.split()[0]} is not known; help prints all")

    def emptyline(self) -> bool:
        """Does the last motion again."""
        return self.onecmd(self.again) if self.again else False

    def onecmd(self, line: str) -> bool:
        """Does a command; what is refused is printed, and the run stays where it is."""
        name = line.split()[0] if line.split() else ""
        if name in ("next", "step", "finish", "go", "back", "rewind"):
            self.again = line
        try:
            return bool(super().onecmd(line))
        except Refused as cause:
            self.say(*map(str, cause.args))
        except Refusal as refusal:
            self.say(str(refusal), *(f"  {one}" for one in launching.explained(str(refusal), self.launched.entries)))
        return False

    def completenames(self, text: str, *_: object) -> list[str]:
        """Returns the commands that begin so; methods that are no commands for a person are left out."""
        return words_for([name for name in super().completenames(text) if name != "EOF"], text)

    def complete_break(self, text: str, *_: object) -> list[str]:
        """Returns the words after `break` that begin so: names and numbers of vertices, and the other forms."""
        return words_for(["line", "path", "failures", *self.breaks.names()], text)

    def complete_list(self, text: str, *_: object) -> list[str]:
        """Returns the vertices whose names or numbers begin so."""
        return words_for(self.breaks.names(), text)

    complete_why = complete_list

    def complete_tree(self, text: str, line: str, _: int, end: int) -> list[str]:
        """Returns the last word of an expression with each name that its path can go on with."""
        rest = line[:end].partition(" ")[2]
        start, names = completion.paths_of(self.views, rest) or (0, [])
        return [rest[len(rest) - len(text) : start] + name for name in names]

    complete_print = complete_tree

    def preloop(self) -> None:
        """Has words completed that are separated by spaces alone, as paths are."""
        if self.use_rawinput:
            with contextlib.suppress(ImportError):
                import readline

                readline.set_completer_delims(" ")
