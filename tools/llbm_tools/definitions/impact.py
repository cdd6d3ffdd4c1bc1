"""Prints for each vertex of a definition whether its outcome can differ from the one in an older definition.

In: the files OLD and NEW, two definitions that the program accepts or texts of entries (`-` for one of them is standard
input), and which local sources have another tree for NEW than for OLD: the names after --changed; and of the names in
--before NAME=PLACE (the trees for OLD) and --after NAME=PLACE (those for NEW) the ones whose trees have two digests, or
that have a tree on one side only. PLACE is a directory, an archive (a path that is not a directory and ends in .tar,
.tar.gz, .tgz, .tar.bz2, .tar.xz or .tar.zst), an image or the text of a tree. Directories and archives get the owner
0:0, as `build` reads them, and what cannot be in a tree is named on standard error. A digest is the program's, the
SHA-256 of the text. All other sources are taken to have the same trees for both. The program (--llbm PROGRAM, else that
of the installation or repository) finds the vertices that match (`show --matches`), and those that read the same of
both trees of a source (`show --agrees`). With --run it also runs both definitions, and each local source needs a tree
for each definition that has it.

Out: on standard output a line for the result, and then one for each vertex of NEW, by number:

    result V.I WORD       the result is this output: the word of its vertex, or `other, in OLD V.I` if OLD has a vertex
                          that matches it or has its digest, but another result
    V KIND kept           OLD has a vertex that matches it, and no cache mount is at or before it: its outcome is the
                          same in both (matched_vertices_end_alike, matched_vertices_settle_alike). So it is if OLD
                          has a vertex with its digest, and the changed sources before it are only copied from, by file
                          ops, and have the same in both trees at and below what is copied (reads_end_alike)
    V KIND fed by NAMES   OLD has a vertex with its digest, and these changed sources but no cache mount are at or
                          before it: its outcome can differ, and depends on no other sources (outcome_by_sources)
    V KIND cached         OLD has a vertex that matches it or has its digest, and a cache mount is at or before it: no
                          law says what it leaves in a run, which depends on caches and the order of events
    V KIND new            OLD has no vertex that matches it or has its digest: no law says anything

With --run a vertex that would be `fed` has one of two words in place of it, and so has the result:

    V KIND same by NAMES      these changed sources are before it, and it ended in the same way as OLD's vertex with its
                              digest, with equal outputs
    V KIND changed by NAMES   it ended in another way, or with other outputs

each vertex with its name and its place in its source after a tab, if NEW or OLD has them. Two vertices match if the
fields of their ops that llbm reads are the same but for the inputs, and their inputs match, one by one; two local
sources, if their trees are the same, whatever their names are. So a source whose name changed is no change, if --before
and --after have its tree under the old and the new name. A line of counts follows, with the number of vertices of OLD
that NEW does not have, and a line for each of the words that occurs. The laws are those of the crate `llb_laws`. Their
premise, that no two unequal entries have one digest, is checked. With --json the output is one object: `result`, with
`vertex`, `output`, `impact` (a word, or `other`) and `old` (OLD's result); `vertices`, an array of objects with
`number`, `kind`, `digest`, `name`, `impact` (the word), `old` (the vertex of OLD that matches or else has the digest,
or null), `changed` (the changed sources at or before it) and `cached`; `counts` by word; `gone`, the vertices of OLD
that NEW does not have; `changed`, all changed sources; and `laws`. `show dot --impact FILE` colors a picture by
such an object.

Exit status: 0 the output is written; 2 the command line, a definition or a tree is refused, and nothing is written; 3 a
read or a write failed; 130 interrupted.
"""

import argparse
import collections
import io
from collections.abc import Mapping
from typing import NamedTuple

from llbm_tools import common, inputs, objects
from llbm_tools.command_line import Parser
from llbm_tools.definitions import impacts
from llbm_tools.definitions.impacts import Comparison, Impact, Names, Result
from llbm_tools.llb.given_definitions import definition_at
from llbm_tools.streams import Refused, exit_status, program_to_ask, write_output


class Source(NamedTuple):
    """The tree of a local source: the name of the source, and where its tree is."""

    name: str
    place: str


def check_sources(options: argparse.Namespace, known: Names) -> None:
    """Checks that a definition has each named source, and that each place exists."""
    given = [*options.before, *options.after]
    for name in [*options.changed, *(source.name for source in given)]:
        if name not in known:
            raise Refused(f"neither definition has this local source: {name}")
    for source in given:
        inputs.check_there(source.place)


def digests_of(places: Mapping[str, str]) -> dict[str, str]:
    """Returns the digest of the tree at each place."""
    if not places:
        return {}
    # Most comparisons have no trees, and need not import what reads them.
    from llbm_tools.trees.digests import tree_digest

    return {name: tree_digest(place) for name, place in places.items()}


def impacts_of(options: argparse.Namespace, comparison: Comparison) -> tuple[list[Impact], Names]:
    """Returns what is known of each vertex of NEW, and which sources have another tree for NEW than for OLD."""
    check_sources(options, comparison.sources())
    older, newer = (
        {name: place for name, place in given if name not in options.changed}
        for given in (options.before, options.after)
    )
    before, after = digests_of(older), digests_of(newer)
    differ = {name for name in before.keys() | after.keys() if before.get(name) != after.get(name)}
    changed = frozenset(options.changed) | (differ - comparison.renamed(before, after))
    return list(comparison.impacts(changed, before, after, (older, newer))), changed


def word_of(impact: Impact) -> str:
    """Returns the word of a vertex, with the changed sources if they are why."""
    by_sources = impact.word in (impacts.FED, impacts.SAME, impacts.CHANGED)
    return f"{impact.word} by {', '.join(sorted(impact.changed))}" if by_sources else impact.word


def laws_of(is_run: bool) -> dict[str, str]:
    """Returns what each word says, by word: with runs two words take the place of one."""
    if not is_run:
        return impacts.LAWS
    return {word: text for word, text in impacts.LAWS.items() if word != impacts.FED} | impacts.BY_RUNS


def line_of(number: int, impact: Impact) -> str:
    """Returns the line of a vertex."""
    line = common.printable(f"{number} {impact.vertex.kind} {word_of(impact)}")
    return f"{line}\t{impact.name}\n" if impact.name else f"{line}\n"


def counts_of(found: list[Impact], laws: dict[str, str]) -> dict[str, int]:
    """Returns how many vertices have each word."""
    counts = collections.Counter(impact.word for impact in found)
    return {word: counts[word] for word in laws}


def result_line(result: Result, found: list[Impact]) -> str:
    """Returns the line of the result."""
    if result.word in impacts.BY_RUNS:
        return f"result {result.vertex}.{result.output} {result.word}\n"
    if result.word == impacts.OTHER:
        return f"result {result.vertex}.{result.output} other, in OLD {result.old[0]}.{result.old[1]}\n"
    return common.printable(f"result {result.vertex}.{result.output} {word_of(found[result.vertex])}") + "\n"


def lines_of(found: list[Impact], gone: list[int], result: Result, laws: dict[str, str]) -> str:
    """Returns all lines."""
    counts = counts_of(found, laws)
    lines = [result_line(result, found), *(line_of(number, impact) for number, impact in enumerate(found))]
    parts = [f"{count} {word}" for word, count in counts.items()]
    lines.append(f"{len(found)} vertices: {', '.join(parts)}; {len(gone)} of OLD gone\n")
    lines += [f"{word}: {laws[word]}\n" for word, count in counts.items() if count]
    lines += [f"{impacts.OTHER}: {impacts.OTHER_RESULT}\n"] if result.word == impacts.OTHER else []
    return "".join(lines)


def vertex_object(number: int, impact: Impact) -> dict[str, object]:
    """Returns the object of a vertex."""
    vertex = impact.vertex
    about = {"number": number, "kind": vertex.kind, "digest": vertex.digest, "name": impact.name}
    why = {"impact": impact.word, "old": impact.old, "changed": sorted(impact.changed), "cached": impact.cached}
    return {**about, **why}


def members_of(
    found: list[Impact], gone: list[int], changed: Names, result: Result, laws: dict[str, str]
) -> dict[str, object]:
    """Returns the members of the object of the result and of all vertices."""
    return {
        "result": {"vertex": result.vertex, "output": result.output, "impact": result.word, "old": list(result.old)},
        "vertices": [vertex_object(*one) for one in enumerate(found)],
        "counts": counts_of(found, laws),
        "gone": gone,
        "changed": sorted(changed),
        "laws": laws,
    }


def compare(options: argparse.Namespace) -> None:
    """Prints what is known of each vertex of NEW."""
    before, after = dict(options.before), dict(options.after)
    inputs.check_inputs(options.old, options.new, *before.values(), *after.values())
    program = program_to_ask(options.llbm)
    data = definition_at(options.old, lambda: program), definition_at(options.new, lambda: program)
    comparison = Comparison(*data, program, (options.old, options.new))
    found, changed = impacts_of(options, comparison)
    gone, result = comparison.gone(found), comparison.result(found)
    if options.run:
        from llbm_tools.definitions import compared_runs

        found, word = compared_runs.compared(program, comparison, data, (before, after), found)
        result = result._replace(word=word)
    laws = laws_of(options.run)
    if options.json:
        objects.write(members_of(found, gone, changed, result, laws))
        return
    lines = lines_of(found, gone, result, laws)
    write_output(io.BytesIO(lines.encode("utf-8", "surrogateescape")), "the output")


def source_of(word: str) -> Source:
    """Parses `NAME=PLACE`."""
    name, equals, place = word.partition("=")
    if not equals or not place:
        raise argparse.ArgumentTypeError(f"{word!r} is not NAME=PLACE")
    return Source(name, place)


def parse_options() -> argparse.Namespace:
    """Parses the command line."""
    parser = Parser(
        description="Prints for each vertex of NEW whether its outcome can differ from the one in OLD.",
    )
    parser.add_argument("old", metavar="OLD", help="the older definition")
    parser.add_argument("new", metavar="NEW", help="the newer definition")
    changed = "local sources that have another tree"
    parser.add_argument("--changed", metavar="NAME", nargs="+", action="extend", default=[], help=changed)
    place = "a directory, an archive or the text of a tree"
    for option, side in [("--before", "OLD"), ("--after", "NEW")]:
        parser.add_argument(
            option,
            metavar="NAME=PLACE",
            type=source_of,
            nargs="+",
            action="extend",
            default=[],
            help=f"its tree for {side}: {place}",
        )
    parser.add_argument("--run", action="store_true", help="run both, and compare what vertices that are fed made")
    parser.add_argument("--llbm", metavar="PROGRAM", help="the program llbm")
    parser.add_argument("--json", action="store_true", help="print one object")
    return parser.parse_args()


def main() -> int:
    """Runs the tool, and returns its exit status."""
    options = parse_options()
    return exit_status(lambda: compare(options))
