"""Runs a definition on trees of local sources, and writes its result as a directory or an archive.

In: the file DEFINITION, and for each local source NAME=PLACE, split at its first `=`; if a name is given twice the
later one is used. A line names those that are given twice, and those that DEFINITION does not have, which are given by
value. PLACE is a directory, an archive, an image (an archive with one, or a directory with an OCI layout) or the text
of a tree, as `source_texts` tells them apart. `-` or /dev/stdin is standard input; only one input can come from there.
It is read once, and so is DEFINITION, and what is neither a file nor a directory, as a named pipe. --platform
OS/ARCHITECTURE picks one of several images. With --strict a source is refused if something of it is left out. The
program is --llbm PROGRAM, or else crates/llbm/out/llbm of the repository, or else its out/llbm-unproved, which is named
on standard error as not proved; --workers N sets its number of workers. All entries of sources get the owner 0:0,
except those of texts. Of a directory only what the filters of its source select is given, as BuildKit's clients do: the
program llbm-rules applies them (dev/dev daemon builds it), and where it is not there such a source is refused. With
--no-filters all of it is given. Where llbm-rules is there, standard error has the notes of `lint`.

With --links, which needs llbm-rules, symbolic links of sources are taken and written as they are. Paths are followed
where BuildKit follows them: for this the definition is rewritten by BuildKit's rules, and a line says each change. A
build of which BuildKit would follow a link in a tree that is not known before the run is refused, by the path and the
link. A line `BuildKit: ..` says what BuildKit would make otherwise. Without --links they are left out.

The program gets a token in the place of each content, and the contents are copied into the result afterwards, so that a
source can have any size; a file that changed meanwhile is refused. With --by-value the program gets the contents. So it
does in any case those of sources at or before an exec that calls `sha256`, and all of them where a mkfile or such a
source has the byte 255, with which tokens begin. A source whose text is too long for that is refused before the program
runs. A result whose contents have more than --largest BYTES, 16 GiB by default, is refused before it is written.

Out: RESULT, which must not exist yet, or which --replace exchanges with the new one if it is of the same kind: an
archive as `tree to tar` makes it if its name ends like one, packed as its name says; or, if it ends in .oci, an image
as docs/FORMATS.md says, with the configuration in the file of --config, in JSON as frontends return it; else a
directory with owners and modes as `tree to directory` sets them. A name with another ending is refused unless `/`
follows it. `-` or /dev/stdout as RESULT is an archive that is not packed, on standard output. The time of all entries
is that of --mtime, or else, in an archive or an image, that of SOURCE_DATE_EPOCH or 0. On standard error there is a
line for each phase, the messages of the tools and the program, and an explanation after a fault or a failure of the
program. RESULT appears complete, at the end: a build that fails or is interrupted leaves an old result as it was, and
nothing new, not even temporary files, which are in TMPDIR and beside RESULT while it runs, and in no source. What a
build leaves that is killed, the next one removes that has the same TMPDIR, and RESULT in the same directory. Nothing is
on standard output before the archive is complete.

--keep FILE keeps what was read of each source, the text of the result, and the definition. If the definition, the
options, the program and the sources are those of FILE, and the result is the one that was made then, nothing is done,
and a line says so. Else there is a line `CACHED vertex V KIND` for each vertex that does the same as one of the last
build on inputs that match, with no cache mount at or before it, and on sources that did not change: its outcome is what
it was. If that is so of the result, nothing is done either. If only contents of files have changed that are given by
reference, these files are written into the result without a run; else the program runs all vertices, and the entries
that differ are written. FILE is removed while the result changes. It is a new
file in a directory that exists, an empty one, or one that a build has kept; anything else is refused, and so is an
input.

With --progress there is also a line for each vertex as it settles, `[n/m] vertex V KIND done`, or `failed`, followed by
its name if the definition's metadata has one (`llb.customname`). The vertices then run one after another, in a session
of `llbm step`, whatever the number of workers. Everything else is the same, except that executions which share a cache
may see each other's writes in another order than with several workers. With --json standard output has one object at
the end (docs/FORMATS.md, "Objects of tools"); RESULT is then no standard output.

Exit status: that of the program. Before the program runs: 2 the command line is refused, DEFINITION, a source, the
parent of RESULT or the program does not exist, a source is refused, RESULT already exists or can't be replaced or
packed; 3 a source can't be read completely, or a write failed. After the program has run: 2 its output is not a tree, a
source has changed, the result is too large, or RESULT was created meanwhile; 3 RESULT could not be written, a session
ended too early, or RESULT is written, as the last line says, but FILE could not be. 128 plus the number of a signal
that interrupted the build or ended the program.
"""

import argparse
import tempfile
from typing import TYPE_CHECKING

from llbm_tools.building import build_folders, child_processes
from llbm_tools.building.build_requests import LARGEST, NOTHING, Ended, Request, source_of
from llbm_tools.building.kept_changes import Changes, Memory
from llbm_tools.command_line import Parser
from llbm_tools.common import discard_output, say
from llbm_tools.os_errors import os_error_text
from llbm_tools.rules import filters
from llbm_tools.streams import FAILED, REFUSED, Failed, Refused, exit_status
from llbm_tools.trees import entry_times

if TYPE_CHECKING:
    from llbm_tools.building.one_build import Build


def changes_since(memory: Memory, request: Request) -> Changes | None:
    """Returns what has changed since the last build; None if nothing is kept of it."""
    if memory.last is None:
        return None
    hidden = frozenset((found.st_dev, found.st_ino) for found in request.hidden())
    return Changes(memory.last, request.sources, hidden, strict=request.options.strict)


class Work:
    """A build that is asked for, and what has to be cleaned after it."""

    def __init__(self, request: Request) -> None:
        self.request = request
        self.build: "Build | None" = None
        self.cached: list[dict[str, object]] = []
        self.end = NOTHING

    def do(self) -> None:
        """Does what is needed of the build."""
        self.request.check()
        build_folders.remove_left(build_folders.TEXTS, tempfile.gettempdir())
        if not self.request.is_output:
            build_folders.remove_left(build_folders.RESULT, self.request.above)
        memory = Memory(self.request) if self.request.options.keep is not None else None
        changes = changes_since(memory, self.request) if memory else None
        if memory and changes and self.is_done(memory, changes):
            return
        from llbm_tools.building.one_build import Build

        self.build = Build(self.request, memory)
        self.end = NOTHING
        self.build.whole()
        self.end = self.left()

    def is_done(self, memory: Memory, changes: Changes) -> bool:
        """Returns whether nothing had to be run, since the last result serves, perhaps with other contents."""
        if memory.is_same and changes.are_contents() and not changes.numbers():
            renewed = changes.renewed(memory.began)
            self.say_end(f"nothing to do: {self.request.result} has this definition, these options and these sources")
            if renewed:
                memory.store(renewed)
            return True
        # What a build does not need it does not import.
        from llbm_tools.building import cached_vertices

        found = cached_vertices.found_in(self.request, changes)
        self.cached = found.say()
        if found.has_result and changes.are_contents():
            self.say_end(f"nothing to do: {self.request.result} is what this definition makes of these sources")
            memory.store(cached_vertices.taken(self.request, memory, changes))
            return True
        if not memory.is_same or not changes.are_contents() or self.request.ending:
            return False
        from llbm_tools.building.renewed_results import renew

        self.end = f"{self.request.result} is up to date"
        return renew(self.request, memory, changes)

    def say_end(self, line: str) -> None:
        """Prints how the build ended."""
        self.end = line
        say(line)

    def left(self) -> str:
        """Returns what a build leaves that does not end well."""
        return str(self.build.left) if self.build else NOTHING

    def status(self) -> int:
        """Does the build, prints why it failed, and returns the exit status."""
        status = self.tried()
        return exit_status(lambda: self.write_object(status)) if self.request.options.json else status

    def write_object(self, status: int) -> int:
        """Writes the object of the build, and returns the exit status."""
        # Few builds print an object.
        from llbm_tools import objects

        objects.write({"result": self.request.result, "status": status, "end": self.end, "cached": self.cached})
        return status

    def tried(self) -> int:
        """Does the build, prints why it failed, and returns the exit status."""
        try:
            self.do()
            return 0
        except Ended as cause:
            self.say_end(str(cause))
            return cause.status
        except (Refused, Failed) as cause:
            self.say_end(str(cause))
            if self.build and self.build.has_begun():
                say(self.left())
            return REFUSED if isinstance(cause, Refused) else FAILED
        except BrokenPipeError:
            return FAILED
        except OSError as fault:
            self.say_end(os_error_text(fault))
            return FAILED

    def clean(self) -> None:
        """Removes everything but the result. It may be called twice."""
        if self.build:
            self.build.clean()


def bytes_of(word: str) -> int:
    """Parses a number of bytes."""
    if not word.isdecimal() or not word.isascii() or len(word) > 18:
        raise argparse.ArgumentTypeError(f"{word!r} is not a number of bytes")
    return int(word)


def parser() -> argparse.ArgumentParser:
    """Returns the parser of the command line."""
    parser = Parser(
        description="Runs a definition on trees of local sources, and writes its result as a directory or an archive.",
    )
    add = parser.add_argument
    add("--llbm", metavar="PROGRAM", help="the program llbm")
    add("--workers", metavar="N", help="the number of workers")
    add("--progress", action="store_true", help="print a line for each vertex as it settles")
    add("--strict", action="store_true", help="refuse a source if something of it is left out")
    add("--platform", metavar="OS/ARCH", help="the platform of sources that are images with several")
    add("--mtime", metavar="SECONDS", type=entry_times.seconds_of, help="the time of the result's entries")
    add("--links", action="store_true", help="take symbolic links, and follow them where BuildKit does")
    filters.add_option(parser)
    add("--by-value", action="store_true", help="give the program the contents of all sources")
    add("--replace", action="store_true", help="put the result in the place of an old one")
    add("--config", metavar="FILE", help="the configuration of an image, in JSON")
    add("--keep", metavar="FILE", help="keep there what is read, so that the next build does only what is needed")
    add("--json", action="store_true", help="print one object on standard output at the end")
    add("--largest", metavar="BYTES", type=bytes_of, default=LARGEST, help=f"the largest result ({LARGEST:,})")
    add("definition", metavar="DEFINITION", help="the file of the definition, or -")
    add("result", metavar="RESULT", help="the new directory, archive or image, or -")
    add(
        "source", metavar="NAME=PLACE", nargs="*", type=source_of,
        help="a local source: a directory, an archive, an image or the text of a tree",
    )
    return parser


def main() -> int:
    """Runs the tool, and returns its exit status."""
    work = Work(Request(parser().parse_args()))
    try:
        try:
            child_processes.handle_signals()
            return work.status()
        finally:
            work.clean()
    except child_processes.Interrupted as interrupted:
        work.clean()
        if work.request.is_output:
            discard_output()
        say(f"interrupted: {work.left()}")
        return 128 + interrupted.number
