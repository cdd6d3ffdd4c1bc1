"""Runs the program llbm with the same words, and explains below each fault or failure line what is known of it.

In: the words of the program's command line, with what it reads from standard input; if the first one is NAME=FILE or
--workers, `run` is put before it. `--llbm PROGRAM` before them names
another program than that of the repository or the installation around this folder. `--record FOLDER` before them, for
`run`, keeps the run in a new folder: the definition, the trees, and the record of a run on one thread, which
`llbm-tools page` opens. A source may also be a directory, all of whose entries get the owner 0:0. Of it only what the
filters of the local source select is given, as BuildKit's clients do, by the program llbm-rules (dev/dev daemon builds
it); where it is not there, such a source is refused. `--no-filters` before the words gives all of it.

Out: what the program writes, unchanged; on standard error, below a line `fault ..` or `failed ..` of the program, lines
that begin with two spaces: first what is wrong in this run, in words: why a vertex failed (the run is repeated for
that), the word that is refused and why, the file that could not be opened, the faulty line of a file or of a text, all
local sources that have no tree; then what `explain` says of it, with the entry that it names. Names that no local
source has or that are given twice are named there, or else after all lines of the program, which passes them over.
Then follows, for a `run` that is not refused, a line `note ..` for each field that has no effect, as of `lint`, where
llbm-rules is there. Where standard input is a terminal, a line says what `step` reads, and which tool has a prompt.
--help prints the help of this tool on standard output. Words that ask the program for a page of help or for its version
print that page there too, without the fault; that of `step` also lists the commands of a session.

Exit status: that of the program, or 128 and the number of the signal that ended it; 0 if a page was asked for; 2 also
if there is no such program, or if the folder is there already; 3 if it can't be written. A refused run is not kept.
"""

import argparse
import contextlib
import os
import pathlib
import stat
import subprocess
import sys
import tempfile
from collections.abc import Iterator
from typing import BinaryIO, cast

from llbm_tools import commands
from llbm_tools.command_line import Parser, print_all
from llbm_tools.common import MOST_BYTES, say
from llbm_tools.definitions import faults, next_commands
from llbm_tools.rules import filters, notes
from llbm_tools.running import given_trees, run_records
from llbm_tools.running.command_words import COMMANDS, USUALLY
from llbm_tools.running.failure_reasons import Reasons
from llbm_tools.running.fault_causes import MISSING, Run, causes_of, data_of, of_words
from llbm_tools.running.program_words import HELP, read_words
from llbm_tools.streams import PIECE, Refused, exit_status, program_at

WORKERS = "--workers"
OPTION, RECORD, NO_FILTERS = "--llbm", "--record", filters.OPTION
# The statuses of a run that was not refused: the result was printed, or a vertex failed.
WAS_RUN = (0, 1)
UNNAMED = b"fault %d " % MISSING
SESSION_LINE = 173


def options_and_words(words: list[str]) -> tuple[dict[str, str], list[str]]:
    """Splits the command line into the tool's options, which come first, and the program's words."""
    options: dict[str, str] = {}
    while words and (name := words[0].partition("=")[0]) in (OPTION, RECORD, NO_FILTERS) and name not in options:
        if words[0] == NO_FILTERS:
            options[name], words = "", words[1:]
            continue
        value = words[0].partition("=")[2] if "=" in words[0] else words[1] if len(words) > 1 else None
        if value is None:
            break
        options[name], words = value, words[1 if "=" in words[0] else 2 :]
    return options, words


def run_words(words: list[str]) -> int:
    """Runs the program with the words of the command line, and returns the exit status."""
    options, words = options_and_words(words)
    # (the program has no command of such a name, so it is the first word of its command `run`)
    if words and (words[0].startswith(WORKERS) or "=" in words[0]):
        words = ["run", *words]
    program = program_at(options.get(OPTION), f"{OPTION} PROGRAM before the other words names another one")
    folder = pathlib.Path(options[RECORD]) if RECORD in options else None
    if folder:
        run_records.check_new(folder)
        if words[:1] != ["run"]:
            raise Refused(f"{RECORD} is for `run` alone")
    return run_program(program, words, folder, has_filters=NO_FILTERS not in options)


def stored_input(file: BinaryIO) -> BinaryIO | None:
    """Returns standard input if it can be read again, a copy of it in a file if it can be read once, or else None."""
    if sys.stdin is None:
        return None
    try:
        mode = os.fstat(0).st_mode
        if stat.S_ISDIR(mode):
            return None
        if stat.S_ISREG(mode):
            return cast(BinaryIO, os.fdopen(os.dup(0), "rb"))
        while piece := os.read(0, PIECE):
            file.write(piece)
            if file.tell() > MOST_BYTES:
                break
    except OSError:
        return None
    file.flush()
    file.seek(0)
    return file


@contextlib.contextmanager
def reasons_of(program: str, run: Run, data: bytes | None) -> Iterator[Reasons | None]:
    """Yields what finds why vertices of a run failed; the definition is in a temporary file for that long."""
    if data is None or run.words.command != "run":
        yield None
        return
    with tempfile.NamedTemporaryFile(prefix="llbm-run-") as file:
        file.write(data)
        file.flush()
        yield Reasons(program, file.name, [(source.name, source.file) for source in run.words.sources])


def explained(explainer: faults.Explainer, run: Run, line: str, reasons: Reasons | None) -> list[str]:
    """Returns what is known of a line that the program printed: what is wrong in this run, then what the line means."""
    if not line.startswith(("fault ", "failed ")):
        return []
    try:
        meanings = explainer.lines(line)
    except faults.NoLine:
        meanings = []
    hint = next_commands.hint_of(line)
    return [*(reasons.of_line(line) if reasons else []), *causes_of(run, line), *meanings, *([hint] if hint else [])]


def print_errors(program: str, run: Run, text: bytes) -> None:
    """Prints the program's lines on standard error, each with its explanation below it."""
    explainer = faults.Explainer(faults.read_page(), program=lambda: program)
    data = data_of(run) if run.words.command in ("run", "show", "step") else None
    if data:
        explainer.take(data)
    with reasons_of(program, run, data) as reasons:
        for line in text.splitlines(keepends=True):
            os.write(2, line)
            for meaning in explained(explainer, run, line.decode("utf-8", "backslashreplace").rstrip("\n"), reasons):
                say(f"  {meaning}")


def print_notes(program: str, run: Run, text: bytes) -> None:
    """Prints what the program said, with explanations, and which names it passed over without a word."""
    if text:
        print_errors(program, run, text)
    if not run.words.refused and not any(line.startswith(UNNAMED) for line in text.splitlines()):
        for note in of_words(run):
            say(note)


def close_input() -> None:
    """Closes standard input in a new process, where a temporary file may have taken its place."""
    with contextlib.suppress(OSError):
        os.close(0)


def text_in(file: BinaryIO | None) -> bytes | None:
    """Returns what follows in standard input, which is then read again, or None if it can't be."""
    if file is None:
        return None
    start = file.tell()
    text = file.read(MOST_BYTES + 1)
    file.seek(start)
    return text


def run_program(program: str, words: list[str], folder: pathlib.Path | None, *, has_filters: bool) -> int:
    """Runs the program, prints what it printed with explanations, keeps the run in a folder, and returns the status."""
    read = read_words(words)
    if read.asks:
        return page_of(program, words, read.command)
    if read.command == "step" and sys.stdin and sys.stdin.isatty():
        prompt = commands.shown("debug")
        say(f"llbm step reads a command on each line, as next, back, go or quit; {prompt} has a prompt")
    with tempfile.TemporaryFile() as file:
        reads = not read.refused and read.command != "step"
        given = stored_input(cast(BinaryIO, file)) if reads else None
        run = Run(read, text_in(given))
        with given_trees.given(words, read, data_of(run), has_filters=has_filters) as trees:
            return run_with(program, trees, Run(trees.read, run.given), given, folder)


def run_with(
    program: str, trees: given_trees.Given, run: Run, given: BinaryIO | None, folder: pathlib.Path | None
) -> int:
    """Runs the program with trees that it can read, prints what it printed, keeps the run, and returns the status."""
    closing = close_input if sys.stdin is None else None
    done = subprocess.run([program, *trees.words], stdin=given, stderr=subprocess.PIPE, preexec_fn=closing)
    print_notes(program, run, done.stderr)
    if run.words.command == "run" and run.given is not None and done.returncode in WAS_RUN:
        for note in notes.lines_of(run.given, trees.filtered):
            say(note)
        if folder:
            run_records.keep(program, trees.words, run.words, run.given, folder)
    return done.returncode if done.returncode >= 0 else 128 - done.returncode


def parser() -> argparse.ArgumentParser:
    """Returns the parser that prints the help of the tool; the words of the program are not parsed by it."""
    width = max(len(command.name) for command in COMMANDS)
    lines = [f"  {command.name:<{width}}  {command.about}" for command in COMMANDS]
    parser = Parser(
        description="Runs llbm with the same words, and explains its faults and failures.",
        usage="%(prog)s [--llbm PROGRAM] [--record FOLDER] [--no-filters] [WORD ...]",
        formatter_class=argparse.RawDescriptionHelpFormatter,
        epilog="\n".join(["commands (--help after one prints its page):", *lines, "", USUALLY]),
    )
    parser.add_argument(OPTION, metavar="PROGRAM", help="the program llbm; before the program's words")
    parser.add_argument(RECORD, metavar="FOLDER", help="keep the run in a new folder; before the program's words")
    filters.add_option(parser, "; before the program's words")
    names = [command.name for command in COMMANDS]
    parser.add_argument(
        "word", metavar="WORD", nargs=argparse.REMAINDER, choices=names, help="the words of llbm's command line"
    )
    return parser


def page_of(program: str, words: list[str], command: str) -> int:
    """Prints the page of the program that the words ask for on standard output, and returns the exit status."""
    done = subprocess.run([program, *words], stdin=subprocess.DEVNULL, capture_output=True)
    text = done.stderr.partition(b"\n")[2].decode("utf-8", "backslashreplace")
    if command == "step":
        text += "\nCommands on standard input:\n"
        for line in faults.read_page().lines[SESSION_LINE]:
            text += f"  {line.line}\n      {line.sentence}\n"
    print_all(text, "the version" if "--version" in words else "the help")
    return 0


def main() -> int:
    """Runs the tool, and returns its exit status."""
    if sys.argv[1:2] in ([word] for word in HELP):
        parser().parse_args()
    return exit_status(lambda: run_words(sys.argv[1:]))
