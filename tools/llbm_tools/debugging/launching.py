"""Starts what a launch request asks for: the program, the definition with its text, and the trees of its local sources.

The program reads all its files before it answers the first command, so the temporary files are removed after the
launch. The texts of the trees stay open for a comparison until the session ends.
"""

import difflib
import functools
import os
import pathlib
import re
import shutil
import subprocess
import tempfile
from collections.abc import Callable, Collection, Mapping
from concurrent.futures import ThreadPoolExecutor
from typing import IO, NamedTuple

from llbm_tools.common import program_named, shortened
from llbm_tools.debugging import vertex_lines
from llbm_tools.debugging.original_files import Origins, origins_of
from llbm_tools.debugging.raw_entries import readable
from llbm_tools.debugging.request_arguments import Object, argument, of_kind
from llbm_tools.definitions import faults, next_commands
from llbm_tools.inputs import data_at, is_standard_input, opened_file
from llbm_tools.llb import definition, given_definitions, names, no_definition, source_names
from llbm_tools.llb.wire import Unreadable
from llbm_tools.os_errors import os_error_text
from llbm_tools.rules.filters import Filters
from llbm_tools.sessions import builds
from llbm_tools.sessions.session import Refusal, Session, SessionFailed
from llbm_tools.sessions.shows import Show
from llbm_tools.streams import Refused, why_not
from llbm_tools.trees.source_files import source_words
from llbm_tools.trees.trees import check_length, checked_at

ARGUMENTS = (
    "build", "definition", "text", "sources", "files", "workers", "stopOnEntry", "stopAtEnd", "noDebug", "llbm",
    "token", "noFilters",
)
EDITOR_ARGUMENTS = (
    "type", "request", "name", "presentation", "preLaunchTask", "postDebugTask", "internalConsoleOptions",
    "debugServer", "serverReadyAction", "suppressMultipleSessionWarning", "linux", "osx", "windows", "restart",
)

UNNAMED = "fault 121 "
# The faults of trees' texts.
OF_A_TEXT = re.compile(r"fault (?:3[0-9] |185\b)")
MOST_OF_A_CAUSE = 300
MOST_WORKERS = 64
USUAL_WORKERS = 2

Say = Callable[[str], None]


class Launched(NamedTuple):
    """A session at its beginning, its graph, its entries for explanations, the name and the file of its text, the
    files that the definition was made from, the open files with the trees of its local sources, by name, and the names
    of those to whose directories filters were applied.
    """

    session: Session
    graph: vertex_lines.Graph
    entries: faults.Entries
    name: str
    file: str | None
    origins: Origins
    sources: Mapping[str, IO[bytes]]
    filtered: Collection[str] = ()


@functools.cache
def page() -> faults.Page:
    """Returns the page of faults."""
    return faults.read_page()


def explained(line: str, entries: faults.Entries | None = None) -> list[str]:
    """Returns the explanation of a line of the program, or an empty list if there is none."""
    try:
        explainer = faults.Explainer(page())
        explainer.entries = entries
        return explainer.lines(line)
    except (faults.NoLine, faults.NoPage):
        return []


def cause_of(words: list[str], otherwise: str, entries: faults.Entries | None = None) -> str:
    """Returns why the program ended, in one line: its message with the explanation, or else another text."""
    if not words:
        return otherwise
    meaning = explained(words[0], entries)
    if not meaning:
        return words[0]
    if hint := next_commands.hint_of(words[0]):
        named = [text for text in meaning if text.startswith(faults.ENTRY_NAME)][:1]
        meaning = [faults.sentence_of(page(), words[0]), *named, f"({hint})"]
    return f"{words[0]}: {shortened(' '.join(meaning), MOST_OF_A_CAUSE)}"


def program_of(arguments: Object, argument_name: str) -> str:
    """Returns the program: the one that is named, else that of this folder, else the one on PATH."""
    named = argument(arguments, "llbm", str, "")
    word = program_named(named or None)
    cause = why_not(word)
    if cause:
        raise Refused(f"{cause}: {word}" + ("" if named else f"; {argument_name} names one"))
    return shutil.which(word) or word


def output_of(program: str, command: str, given: bytes, entries: faults.Entries | None = None) -> bytes:
    """Returns the output of a command of the program."""
    done = subprocess.run([program, command], input=given, capture_output=True)
    if done.returncode:
        words = done.stderr.decode("utf-8", "backslashreplace").splitlines()
        raise Refused(cause_of(words, f"the program ended with status {done.returncode}: {program} {command}", entries))
    return done.stdout


def entries_of(data: bytes, name: str) -> list[bytes]:
    """Returns the entries of a definition."""
    try:
        return definition.entries_of(data)
    except Unreadable as fault:
        raise no_definition.refusal(fault, data, name) from fault


def data_in(file: str) -> bytes:
    """Returns the bytes of a file; none is standard input, where the editor's requests come from."""
    return data_at(os.path.abspath(file) if is_standard_input(file) else file)


def definition_of(program: str, arguments: Object) -> tuple[bytes, bytes | None]:
    """Returns the bytes of the definition, and the text of its entries if the launch names its file."""
    file, text_file = argument(arguments, "definition", str, ""), argument(arguments, "text", str, "")
    if not file and not text_file:
        raise Refused("definition is missing")
    text = data_in(text_file) if text_file else None
    assembled = b"" if text is None else output_of(program, "asm", text)
    if not file:
        return assembled, text
    data = data_in(file)
    if text is None and no_definition.is_text(data):
        return given_definitions.assembled(program, data, file), data
    no_definition.check(data, file)
    if text is not None and entries_of(assembled, text_file) != entries_of(data, file):
        raise Refused(f"not the text of {file}: {text_file}")
    return data, text


def text_of(printed: bytes, is_given: bool, entries: list[bytes]) -> vertex_lines.Text:
    """Returns the text of the entries with their lines: the one that is given, or that of the program, readable."""
    text = printed.decode("utf-8")
    return vertex_lines.Text(text, vertex_lines.lines_of(text)) if is_given else readable(text, entries)


def sources_of(arguments: Object) -> dict[str, str]:
    """Returns the paths of local sources by name."""
    given: Object = argument(arguments, "sources", dict, {})
    return {name: of_kind(path, f"sources: {name}", str) for name, path in given.items()}


def of_build(arguments: Object, say: Say) -> Object:
    """Returns the arguments of a launch with the definition and the trees of the build that it names, if it does."""
    place = argument(arguments, "build", str, "")
    if not place:
        return arguments
    for name in ("definition", "text", "sources"):
        if name in arguments:
            raise Refused(f"build and {name} can't be given together")
    build = builds.last_build(os.path.abspath(place))
    kind = "text" if build.definition.endswith(".text") else "definition"
    found = {name: build.place(file) for name, file in build.trees.items()}
    given = {name: str(tree) for name, tree in found.items() if tree}
    why = build.text(builds.ERROR).strip()
    say(f"the build {build.name}" + (f", which failed: {why}" if why else ""))
    rest = {name: value for name, value in arguments.items() if name != "build"}
    return {**rest, kind: str(build.place(build.definition)), "sources": given}


def workers_of(arguments: Object) -> int:
    """Returns the number of workers."""
    workers = argument(arguments, "workers", int, USUAL_WORKERS)
    if not 1 <= workers <= MOST_WORKERS:
        raise Refused(f"workers is not a number from 1 to {MOST_WORKERS}")
    return workers


def files_of(arguments: Object) -> dict[str, str]:
    """Returns the paths of files that the definition was made from, by the names that it has for them."""
    given: Object = argument(arguments, "files", dict, {})
    return {name: of_kind(path, f"files: {name}", str) for name, path in given.items()}


def unknown_arguments(arguments: Object) -> list[str]:
    """Returns a line for each argument of a launch that is neither known nor an editor's own."""
    lines = []
    for name in arguments:
        if name in ARGUMENTS or name in EDITOR_ARGUMENTS or name.startswith("__"):
            continue
        near = difflib.get_close_matches(name, ARGUMENTS, 1)
        lines.append(f"the launch argument {name} is not known" + (f": is it {near[0]}?" if near else ""))
    return lines


def start_session(command: list[str], workers: int, entries: faults.Entries) -> tuple[Session, Show, list[str]]:
    """Starts a session, and returns it with its graph and the digests of the vertices."""
    session = Session(command, workers)
    try:
        return session, session.graph(), session.digests()
    except (SessionFailed, Refusal) as fault:
        session.end()
        raise Refused(cause_of(session.error_lines(), str(fault), entries)) from fault


def check_texts(cause: str, words: list[str]) -> None:
    """Refuses the first text of a source that is none, with its file and line, if that is why a run did not begin."""
    for name, _, place in (word.partition("=") for word in words if OF_A_TEXT.match(cause)):
        try:
            check_length(place)
            with opened_file(place) as file:
                for _ in checked_at(place, file):
                    pass
        except Refused as fault:
            raise Refused(f"{fault} (the local source {name})") from fault


def missing_sources(cause: str, data: bytes, given: list[str]) -> list[str]:
    """Returns a line with all local sources that have no tree, if a run did not begin for want of one."""
    return source_names.missing_notes(data, given) if cause.startswith(UNNAMED) else []


class Begun(NamedTuple):
    """A session that has begun: its graph, the digests of the vertices, the words of its sources, and the names of
    those to whose directories filters were applied."""

    session: Session
    show: Show
    digests: list[str]
    words: list[str]
    filtered: Collection[str]


def begun(
    arguments: Object, program: str, data: bytes, named_entries: faults.Entries, folder: str, say: Say
) -> Begun:
    """Starts the session of a launch, with temporary files in a folder."""
    workers, sources = workers_of(arguments), sources_of(arguments)
    filters = Filters(data, are_applied=not argument(arguments, "noFilters", bool, False))
    words, given_names = source_words(sources, folder, say, filters.selected), list(sources)
    for note in source_names.word_notes(data, given_names):
        say(note)
    file = os.path.join(folder, "definition")
    pathlib.Path(file).write_bytes(data)
    command = [program, "step", "--looks", "--ends", file, "--workers", str(workers), *words]
    try:
        return Begun(*start_session(command, workers, named_entries), words, filters.applied)
    except Refused as fault:
        check_texts(str(fault), words)
        raise Refused("; ".join([str(fault), *missing_sources(str(fault), data, given_names)])) from fault


def start(arguments: Object, folder: str, say: Say, program_argument: str) -> Launched:
    """Starts what a launch request asks for, with temporary files in a folder.

    The program writes the text of the definition while it also begins the session.
    """
    program, _, given = program_of(arguments, program_argument), workers_of(arguments), files_of(arguments)
    data, text = definition_of(program, arguments)
    path, place = argument(arguments, "definition", str, ""), argument(arguments, "text", str, "")
    entries, named_entries = entries_of(data, path or "the definition"), faults.Entries(data, lambda: program)
    with ThreadPoolExecutor(1) as pool:
        written = pool.submit(output_of, program, "dis", data) if text is None else None
        session, show, digests, words, filtered = begun(arguments, program, data, named_entries, folder, say)
        try:
            lines = text_of(written.result() if written else text or b"", text is not None, entries)
            graph = vertex_lines.graph_of(show, digests, lines, entries, [one.text for one in names.names_of(data)])
            origins = origins_of(data, given, os.path.dirname(os.path.abspath(path or place)))
            named = (word.split("=", 1) for word in words)
            trees = {source: session.kept.enter_context(open(tree, "rb")) for source, tree in named}
        except BaseException:
            session.end()
            raise
    name, text_file = f"{os.path.basename(path)}.text", os.path.abspath(place) if place else None
    return Launched(session, graph, named_entries, name, text_file, origins, trees, filtered)


def launch(arguments: Object, say: Say, program_argument: str = "the argument llbm") -> Launched:
    """Starts what a launch request asks for. If that fails it is refused, and no temporary file remains.

    `program_argument` is how the caller names the program.
    """
    try:
        with tempfile.TemporaryDirectory(prefix="llbm-debug-") as folder:
            return start(of_build(arguments, say), folder, say, program_argument)
    except OSError as fault:
        raise Refused(os_error_text(fault)) from fault
    except ValueError as fault:
        raise Refused(f"a path or a name can't be used: {fault}") from fault
