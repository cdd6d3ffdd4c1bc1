"""Changes a foreign definition, as a client of BuildKit marshals it, into one that llbm accepts.

In: a definition, on standard input or in the file DEFINITION (`-` is standard input). Sources that are images, git
repositories, files from HTTP or OCI layouts become local sources; their names are made from their identifiers, and no
two sources get the same name. A local source whose name no word NAME=FILE can have, since it has a `=` or begins with
`-`, gets another one. --without-secrets drops mounts of secrets and secret environment variables, --without-ssh mounts
of SSH agents, --without-unpack the unpacking of copies, --without-owners users and groups that are given by name. With
--run-nothing the words of executions that llbm refuses become `true`, and with --run-nothing=all those of all
executions. --rules FILE replaces the words of the executions that a rule names; each line of the file is a rule,
`digest DIGEST => NEW ..`, `name NAME => NEW ..`, `words OLD .. => NEW ..` or `pattern PATTERN => NEW ..`, quoted as for
a shell; `*` in PATTERN is any characters of the words and `?` is one, and a rule without new words keeps the old ones.
Rules take precedence over --run-nothing. --like-buildkit rewrites file ops and merges so that BuildKit and llbm agree
on them, as far as that does not depend on trees (docs/BUILDKIT.md); for trees of local sources, NAME=PATH with a
directory, a tar (both with owner 0:0) or a tree text, also what depends on these. The program llbm-rules does so
(dev/dev daemon builds it); where it is not there, a line says that nothing is rewritten for BuildKit. --all means all
of these options except --run-nothing=all, --rules and --like-buildkit.

Out: the definition, on standard output, or in FILE with -o FILE. Digests change, and with them the inputs that name
them and the keys of the metadata and of the locations in `Source`; all other bytes and the order of the entries stay
the same, and so do all entries that are not reached from the result. On standard error there is a line `entry N: ..`
for each change; then for each local source that is reached its name, a tab, and its old identifier. With --sources FILE
that list is written to FILE instead. Where something is left that llbm refuses, a line says which further options would
mend it, and what would be left with these.

Exit status: 0 the definition is written, and llbm accepts it; 2 something in it cannot be adopted, or the definition, a
rule or the command line is refused: standard error names it, by its entry and the program's name for it, and nothing is
written; with --leave what cannot be adopted is named and left as it is, with status 0; 3 a read or a write failed.
"""

import argparse
import contextlib
import os
import sys
from collections.abc import Iterator

from llbm_tools import common, inputs
from llbm_tools.command_line import Parser
from llbm_tools.definitions import adopted_ops, adoption_rules
from llbm_tools.llb import no_definition
from llbm_tools.llb.given_definitions import definition_at
from llbm_tools.llb.findings import Finding
from llbm_tools.llb.wire import Unreadable
from llbm_tools.streams import Refused, exit_status, of_place, program_to_ask
from llbm_tools.trees.source_files import source_of

OPTIONS = {kind: f"--without-{kind}" for kind in adopted_ops.DROPPED} | {adopted_ops.RUN_NOTHING: "--run-nothing"}
MENDS = {adopted_ops.RUN_NOTHING: "or --rules replaces the words"}


def settings_from(options: argparse.Namespace, llbm: str) -> adopted_ops.Settings:
    """Returns the changes that the command line asks for."""
    rules: list[adoption_rules.Rule] = []
    if options.rules is not None:
        data = inputs.data_at(options.rules)
        if len(data) > common.MOST_BYTES:
            raise Refused(f"too long, over {common.MOST_BYTES:,} bytes: {inputs.shown(options.rules)}")
        try:
            rules = adoption_rules.rules_in(data, llbm)
        except Refused as fault:
            raise Refused(f"{fault}: {inputs.shown(options.rules)}") from fault
    dropped = [kind for kind in adopted_ops.DROPPED if options.all or getattr(options, f"without_{kind}")]
    run_nothing = adopted_ops.RunNothing.REFUSED if options.all or options.run_nothing else adopted_ops.RunNothing.NONE
    if options.run_all:
        run_nothing = adopted_ops.RunNothing.ALL
    trees = tuple(dict(options.source).items())
    if trees and not options.like_buildkit:
        raise Refused("trees of local sources are for --like-buildkit")
    return adopted_ops.Settings(frozenset(dropped), tuple(rules), run_nothing, options.like_buildkit, trees)


def shown(finding: Finding) -> str:
    """Returns what is left: its entry if it has one, and the program's name for it."""
    return f"entry {finding.row}: {finding.rest}" if finding.name() else f"fault {finding.words()}"


def left_text(finding: Finding) -> str:
    """Describes what cannot be adopted, with the option that mends it."""
    if not finding.name():
        return f"not adopted: {shown(finding)}"
    kind = adopted_ops.KIND_OF_FINDING.get(finding.name())
    hint = f"; {OPTIONS[kind]} {MENDS.get(kind, 'drops it')}" if kind else ""
    return f"entry {finding.row}: not adopted: {finding.rest}{hint}"


def advice(data: bytes, settings: adopted_ops.Settings, left: list[Finding], llbm: str) -> list[str]:
    """Returns a line with the options that are missing, and what would be left with them; none if no option helps."""
    kinds = adopted_ops.missing_kinds(left, settings)
    if not kinds:
        return []
    rest = adopted_ops.adopt(data, adopted_ops.with_kinds(settings, kinds), llbm).left
    would = f"would leave {'; '.join(map(shown, rest))}" if rest else "would adopt all of it"
    return [f"{' '.join(OPTIONS[kind] for kind in kinds)} {would}"]


def say_line(line: str) -> None:
    """Prints a line that contains a tab on standard error, if it is open."""
    with contextlib.suppress(OSError, AttributeError):
        os.write(sys.stderr.fileno(), f"{line}\n".encode("utf-8", "backslashreplace"))


def lines_of(sources: list[tuple[str, str]]) -> list[str]:
    """Returns one line for each local source, without duplicates."""
    lines = [f"{common.printable(name)}\t{common.printable(identifier)}" for name, identifier in sources]
    return list(dict.fromkeys(lines))


@contextlib.contextmanager
def files_written(texts: dict[str, bytes]) -> Iterator[None]:
    """Writes files that appear only if the `with` body succeeds; devices and pipes are written at once."""
    parts: dict[str, str] = {}
    try:
        for given, text in texts.items():
            place = os.path.realpath(given)
            if os.path.exists(place) and not os.path.isfile(place):
                with open(place, "wb") as opened:
                    opened.write(text)
                continue
            beside = f"{place}.{os.getpid()}.part"
            if not os.path.isdir(os.path.dirname(place)):
                raise Refused(f"there is no such directory to write it in: {given}")
            try:
                opened = open(beside, "xb")
            except OSError as fault:
                raise of_place(fault, given) from fault
            with opened:
                parts[beside] = place
                opened.write(text)
        yield
        for beside in list(parts):
            os.replace(beside, parts[beside])
            del parts[beside]
    finally:
        for beside in parts:
            with contextlib.suppress(OSError):
                os.unlink(beside)


def write(options: argparse.Namespace, adopted: adopted_ops.Adopted) -> None:
    """Writes the definition and, if a file is named for it, the list of its sources."""
    to_output = options.output in (None, "-")
    texts = {} if to_output else {options.output: adopted.data}
    if options.sources is not None:
        lines = "".join(f"{line}\n" for line in lines_of(adopted.sources))
        texts[options.sources] = lines.encode("utf-8", "backslashreplace")
    with files_written(texts):
        if to_output:
            common.check_open(sys.stdout, "standard output")
            sys.stdout.buffer.write(adopted.data)
            sys.stdout.flush()


def adopt(options: argparse.Namespace) -> None:
    """Adopts the definition that the command line names, and writes it."""
    if options.rules is not None:
        inputs.check_inputs(options.definition, options.rules)
    llbm = program_to_ask(options.llbm)
    settings = settings_from(options, llbm)
    data = definition_at(options.definition, lambda: llbm)
    try:
        adopted = adopted_ops.adopt(data, settings, llbm)
    except Unreadable as fault:
        raise no_definition.refusal(fault, data, options.definition) from fault
    left = list(map(left_text, adopted.left))
    left += advice(data, settings, adopted.left, llbm)
    if left and not options.leave:
        raise Refused(*left, "nothing is written")
    write(options, adopted)
    for text in [*(f"entry {row}: {text}" for row, text in adopted.changes), *adopted.others, *left]:
        common.say(text)
    if options.sources is None:
        for line in lines_of(adopted.sources):
            say_line(line)


def parse_options() -> argparse.Namespace:
    """Parses the command line."""
    parser = Parser(description="Changes a foreign definition into one that llbm accepts.")
    add = parser.add_argument
    add("definition", nargs="?", metavar="DEFINITION", help="the definition (default: standard input)")
    add("source", nargs="*", type=source_of, metavar="NAME=PATH", help="a local source, for --like-buildkit")
    add("-o", "--output", metavar="FILE", help="the output (default: standard output)")
    add("--sources", metavar="FILE", help="the list of local sources (default: standard error)")
    add("--without-secrets", action="store_true", help="drop mounts of secrets and secret environment variables")
    add("--without-ssh", action="store_true", help="drop mounts of SSH agents")
    add("--without-unpack", action="store_true", help="drop the unpacking of copies")
    add("--without-owners", action="store_true", help="drop users and groups that are given by name")
    add("--run-nothing", action="store_true", help="executions that are refused run `true` if no rule names them")
    add("--run-nothing=all", action="store_true", dest="run_all", help="all executions do that no rule names")
    add("--rules", metavar="FILE", help="rules that replace words: digest, name, words or pattern, `=>`, and new words")
    add("--like-buildkit", action="store_true", help="rewrite what BuildKit takes otherwise")
    add("--all", action="store_true", help="all of the above except --run-nothing=all, --rules and --like-buildkit")
    add("--leave", action="store_true", help="leave what cannot be adopted as it is")
    add("--llbm", metavar="PROGRAM", help="the program llbm, which says what it refuses")
    return parser.parse_args()


def main() -> int:
    """Runs the tool, and returns its exit status."""
    options = parse_options()
    return exit_status(lambda: adopt(options))
