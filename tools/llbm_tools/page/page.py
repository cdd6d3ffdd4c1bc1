"""Serves the page on this machine, with builds that it opens by a link.

In: the module that `dev/dev wasm` made, in --page FOLDER or out/page of the repository, or the page of an installation;
if it is not there, the page says how it is made, and takes it once it is there. And BUILD ..: folders with a
definition, trees of its local sources and, if there is one, a record of a run, as `builds` describes them. A folder of
llbmd's -keep stands for all builds in it, also those that are kept later, and REF in it for all definitions of that
build.

Out: without --serve a line for each build: its name, a tab, the local sources that have a tree, a tab, and whether
there is a record. With --serve the link to the page, and a link to each build; then the page is served until the tool
is interrupted, at 127.0.0.1 and --port N (by default one that is free), and nothing can be changed through it. A path
that cannot be guessed is part of the links, since others who use this machine can connect too. When the page opens a
build, `explain buildkit` looks for what would end otherwise in BuildKit, with --llbm PROGRAM or the usual program.

Exit status: 0 the builds are listed; 2 the command line is refused, or there is no build; 3 a read or a write failed,
or the port is taken; 130 interrupted.
"""

import argparse
import pathlib
import signal
import sys
import threading

from llbm_tools import common, paths
from llbm_tools.command_line import Parser
from llbm_tools.page import assets, buildkit_notes, server
from llbm_tools.sessions import builds
from llbm_tools.streams import Failed, Refused, exit_status

MISSING = "the machine is missing: `dev/dev wasm` makes it where `rt ci` has run, else with --unproved"


def list_builds(places: list[str]) -> None:
    """Prints a line for each build."""
    for name, build in builds.all_builds(places).items():
        record = "a record" if build.place(builds.RECORD) else "no record"
        print("\t".join(map(common.printable, [name, " ".join(build.trees), record])))


def serve(options: argparse.Namespace) -> None:
    """Serves the page until it is interrupted."""
    builds.all_builds(options.build)
    module = options.page / assets.MODULE
    if not module.is_file():
        common.say(f"{MISSING}: {module}")
    files = assets.made_files(paths.PAGE) if paths.INSTALLED.is_file() else assets.files(None)
    site = server.Site(files, module, options.build, lambda build: buildkit_notes.notes_of(build, options.llbm))
    try:
        with server.serving(site, options.port) as link:
            print(link)
            for name in site.builds():
                print(f"{link}#build={builds.quoted(name)}")
            sys.stdout.flush()
            threading.Event().wait()
    except OSError as fault:
        raise Failed(f"port {options.port}: {fault.strerror}") from fault


def work(options: argparse.Namespace) -> None:
    """Does what the command line asks for."""
    common.check_open(sys.stdout, "standard output")
    if options.serve:
        serve(options)
    elif not options.build:
        raise Refused("nothing to do: give --serve, or builds to list")
    else:
        list_builds(options.build)
        sys.stdout.flush()


def port_of(word: str) -> int:
    """Returns the number of a port."""
    if not word.isdecimal() or int(word) > 65535:
        raise argparse.ArgumentTypeError(f"not a port: {word}")
    return int(word)


def parse_options() -> argparse.Namespace:
    """Parses the command line."""
    parser = Parser(description="Serves the page on this machine, with builds that it opens by a link.")
    parser.add_argument("build", metavar="BUILD", nargs="*", help="a folder with a build, or one that llbmd keeps")
    parser.add_argument("--serve", action="store_true", help="serve the page; without it the builds are listed")
    parser.add_argument("--port", metavar="N", type=port_of, default=0, help="the port (default: one that is free)")
    parser.add_argument("--page", metavar="FOLDER", type=pathlib.Path, default=paths.PAGE, help="default: out/page")
    parser.add_argument("--llbm", metavar="PROGRAM", help="the program llbm, for notes of what BuildKit does otherwise")
    return parser.parse_args()


def terminated(number: int, _frame: object) -> None:
    """Exits on a signal."""
    sys.exit(128 + number)


def main() -> int:
    """Runs the tool, and returns its exit status."""
    options = parse_options()
    signal.signal(signal.SIGTERM, terminated)
    return exit_status(lambda: work(options))
