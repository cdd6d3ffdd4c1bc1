"""Lets an editor step through the run of a definition, by the Debug Adapter Protocol over `llbm step`.

In: requests on standard input, each a JSON object after a header with its Content-Length. A launch names a `build` (a
folder that llbmd keeps, of which the newest build is taken, or one of its builds); or else the `definition` (a file),
or the `text` of its entries (a file with what `llbm dis` prints, or any text that `llbm asm` accepts), or both, with
`sources`, an object with a directory, a tar (both with owner 0:0) or a tree text for each local source by its name;
`files`, an object with the paths of files that the definition was made from, by their names there; `workers`, 2 by
default; `stopOnEntry`, to stop before the first event; `stopAtEnd`, to stop after the last one, true by default;
`noFilters`, to give all of a directory, and not only what the filters of its source select, as `run` does; and `llbm`,
the program, else $LLBM, else that of the installation or the repository, else the one on PATH; one that is not
proved, and that nobody named, is named on standard error.

Out: responses and events on standard output. Threads are the workers of the run; the source is the text of the entries,
where a vertex is at the lines of its entry, and beside it the files that the definition was made from. A breakpoint on
a line of an action, an input or a command stops where that comes next; one elsewhere in an entry, or on a vertex by its
name, after the claim of the vertex, with the condition `settle` after its settle, and with another condition after each
event of it for which that holds. A data breakpoint stops where a path changes, and the exception filter `failed` after
the settle of a vertex that failed. Scopes show the trees that a worker works on, caches, and what the last event
changed. Each line of the record is an output event. A request that can't be granted gets a failure response with the
cause in one line. When the run is over, or the client leaves, `exited` (with 1 if a vertex failed, else 0) and
`terminated` are sent.

With `--listen PORT` (0: one that is free) the adapter listens at 127.0.0.1, and prints that address and a token: that
of LLBM_DEBUG_TOKEN, or a new one. Each connection, at most 16 at once, is a session like that of standard input; its
`launch`, or `attach`, which is the same there, has to have the `token`. It listens until it is interrupted.

Exit status: 0 the client has left, by `disconnect` or at the end of the input; 2 the input is not a message, or the
command line is refused: standard error says why; 3 a read or a write failed; 130 or 143 interrupted or terminated.
"""

import argparse
import json
import signal
import sys

from llbm_tools import common, os_errors
from llbm_tools.command_line import Parser
from llbm_tools.debugging import listening
from llbm_tools.debugging.adapter import RUNNING, Adapter
from llbm_tools.debugging.protocol_messages import MOST_CONTENT, Malformed, Reader, Writer
from llbm_tools.streams import Refused

# The bytes of a message of a client that has not shown the token.
MOST_UNTRUSTED = 1_048_576


def parse_options() -> argparse.Namespace:
    """Parses the command line."""
    parser = Parser(description="A debug adapter over llbm step, on standard input and output, or at a port.")
    parser.add_argument("--listen", type=port, metavar="PORT", help="listen at 127.0.0.1, port PORT (0: a free one)")
    return parser.parse_args()


def port(word: str) -> int:
    """Returns the number of a port."""
    number = int(word)
    if not 0 <= number <= listening.MOST_PORT:
        raise ValueError(word)
    return number


def handle(adapter: Adapter, content: bytes) -> None:
    """Handles the content of one message."""
    try:
        message = json.loads(content)
    except (ValueError, RecursionError) as fault:
        adapter.fail(0, "", f"the message is not JSON: {fault}")
        return
    adapter.handle(message)


def serve(adapter: Adapter, reader: Reader) -> None:
    """Handles requests until the client leaves; between them a run continues."""
    while not adapter.left:
        reader.most = MOST_CONTENT if adapter.is_trusted() else MOST_UNTRUSTED
        if adapter.state == RUNNING and not reader.waits():
            adapter.turn()
            continue
        content = reader.content()
        if content is None:
            return
        handle(adapter, content)


def terminated(number: int, _frame: object) -> None:
    """Exits on a signal, after cleanup."""
    sys.exit(128 + number)


def session(given: int, taken: int, token: str | None) -> None:
    """Serves a client, whose requests come from one descriptor and whose responses go to another.

    The end of a session is done whole, and once it has begun nothing is left that a signal would have to end.
    """
    adapter = Adapter(Writer(taken), token)
    try:
        try:
            serve(adapter, Reader(given))
        finally:
            signal.signal(signal.SIGTERM, signal.SIG_IGN)
    finally:
        adapter.dismiss()


def listen(number: int) -> None:
    """Serves the clients that connect to a port, each in a process of its own."""
    token = listening.token_of()
    with listening.connection_at(number, token) as connection:
        session(connection.fileno(), connection.fileno(), token)


def main() -> int:
    """Runs the tool, and returns its exit status."""
    options = parse_options()
    signal.signal(signal.SIGTERM, terminated)
    try:
        if options.listen is not None:
            listen(options.listen)
            return 0
        common.check_open(sys.stdin, "standard input")
        common.check_open(sys.stdout, "standard output")
        session(sys.stdin.fileno(), sys.stdout.fileno(), None)
    except (Malformed, Refused) as fault:
        common.say(str(fault))
        return 2
    except OSError as fault:
        common.say(os_errors.os_error_text(fault))
        return 3
    except KeyboardInterrupt:
        return 130
    return 0
