"""Lets a person step through the run of a definition at a prompt, forwards and backwards.

In: a definition, or the text of its entries, and NAME=PATH for each local source: a directory, a tar (both with owner
0:0) or a tree text. Commands come from standard input: `help` prints all of them. At a terminal there is a prompt, with
history and completion by the Tab key; else lines are read without one. Ctrl-C pauses a run that goes on, between two
events. The program is --llbm PROGRAM, else $LLBM, else that of the installation or the repository, else the one on
PATH; one that is not proved, and that nobody named, is named on standard error. --workers N has N workers, 1 by
default, and --paths N shows at most N paths of one tree, 20 by default. Of a directory only what the filters of its
source select is given, as by `run`; with --no-filters all of it.

Out: on standard output a line for each event that a command does, and what a command shows. What is refused is a line
there too, and changes nothing.

Exit status: 0 the input has ended, or `quit`; 2 the command line, the definition or a tree is refused; 3 a read or a
write failed, or the program ended by itself.
"""

import argparse
import signal
import sys

from llbm_tools import common
from llbm_tools.command_line import Parser
from llbm_tools.debugging import launching
from llbm_tools.debugging.terminal import Terminal
from llbm_tools.inputs import is_standard_input
from llbm_tools.rules import filters
from llbm_tools.sessions.session import SessionFailed
from llbm_tools.streams import FAILED, Refused, exit_status
from llbm_tools.trees.source_files import source_of

USUAL_PATHS = 20


def number_of(word: str) -> int:
    """Parses a number."""
    if not word.isdecimal() or len(word) > 9:
        raise argparse.ArgumentTypeError(f"{word!r} is not a number")
    return int(word)


def parse_options() -> argparse.Namespace:
    """Parses the command line."""
    parser = Parser(description="Steps through a run at a prompt.")
    parser.add_argument("definition", metavar="DEFINITION", help="the file of the definition, or of its text")
    parser.add_argument("source", nargs="*", type=source_of, metavar="NAME=PATH", help="a local source")
    parser.add_argument("--llbm", metavar="PROGRAM", default="", help="the program llbm")
    filters.add_option(parser)
    parser.add_argument("--workers", metavar="N", type=number_of, default=1, help="the number of workers")
    parser.add_argument("--paths", metavar="N", type=number_of, default=USUAL_PATHS, help="the most paths of a tree")
    return parser.parse_args()


def begin(terminal: Terminal) -> None:
    """Says where the run is, and reads commands to the end."""

    def interrupted(_number: int, _frame: object) -> None:
        """Pauses a motion after its event."""
        terminal.is_interrupted = True

    signal.signal(signal.SIGINT, interrupted)
    count = len(terminal.launched.graph.vertices)
    terminal.say(f"{count} vertices, the result is {terminal.launched.graph.result}; help prints the commands")
    terminal.cmdloop()


def debug(options: argparse.Namespace) -> int:
    """Starts the run, does the commands, and returns the exit status."""
    common.check_open(sys.stdin, "standard input")
    common.check_open(sys.stdout, "standard output")
    if is_standard_input(options.definition):
        raise Refused("the definition has to be in a file: the commands come from standard input")
    program = launching.program_of({"llbm": options.llbm}, "--llbm PROGRAM")
    given = {
        "definition": options.definition, "sources": dict(options.source), "workers": options.workers,
        "noFilters": options.no_filters,
    }
    # The program and all that is started for `try` must not end by Ctrl-C, which pauses the run.
    signal.signal(signal.SIGINT, signal.SIG_IGN)
    launched = launching.launch({**given, "llbm": program}, common.say, "--llbm PROGRAM")
    try:
        begin(Terminal(launched, program, options.paths))
    except SessionFailed as fault:
        for line in [str(fault), *fault.words]:
            common.say(line)
        return FAILED
    finally:
        launched.session.end()
    return 0


def main() -> int:
    """Runs the tool, and returns its exit status."""
    options = parse_options()
    return exit_status(lambda: debug(options))
