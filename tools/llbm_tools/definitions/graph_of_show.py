"""Converts the lines of `llbm show` to a Graphviz digraph.

In: the lines on standard input, `V KIND steps S outputs O inputs LIST` for each vertex by number and then `result V.I`;
KIND is source, file, merge or exec, LIST the inputs as `V.I` with spaces between them, or `-` for none. --definition
FILE names the definition of the graph, --impact FILE the object that `impact --json` prints for it. Or in place of the
lines a definition in the file DEFINITION (`-` for standard input), whether or not the program accepts it.

Out: a digraph on standard output. A source is a folder, a file operation a note, a merge a trapezium and an execution a
box, each with its numbers of steps and outputs. With a definition each vertex has instead its name and its place in its
source, if the definition has them, and what it does: the identifier of a source, the kind and the paths of each action,
the script of an execution, each in at most 60 characters, and at most 8 actions. An edge goes from an input's vertex to
the vertex that uses it, labeled with the number of the output; the double circle `result` follows the output that is
the result. With an impact the vertices have colors: green is kept or made the same, gold fed by a changed source or
made otherwise, blue new, gray cached.
With DEFINITION all entries are drawn, also those that the result does not depend on; one that is no vertex has its row,
`%K`, in place of a number. What the program refuses in an entry is a line `refused: NUMBER NAME` of its label, and the
entry is red; an octagon is of another kind, or is no op.

Exit status: 0 the digraph is written; 2 a line, the definition or the command line is refused, and nothing is written:
the first faulty line is named on standard error with `line N` at its end, counted from 1; 3 a read or a write failed.
"""

import argparse
import json
import sys

from llbm_tools import common
from llbm_tools.command_line import Parser
from llbm_tools.definitions import graphviz, inspected_graph, inspection
from llbm_tools.inputs import STANDARD_INPUT, check_inputs, check_there, data_at, input_lines
from llbm_tools.llb import definition, names, no_definition
from llbm_tools.llb.given_definitions import definition_at
from llbm_tools.llb.ops import Op
from llbm_tools.llb.wire import Unreadable
from llbm_tools.sessions.shows import Edge, Show, Vertex, show_of
from llbm_tools.streams import Refused, exit_status, program_to_ask

COLORS = {
    "kept": "palegreen", "same": "palegreen", "fed": "gold", "changed": "gold", "new": "lightblue",
    "cached": "lightgray",
}


def given_show() -> Show:
    """Returns the graph whose lines are on standard input."""
    text = b"".join(input_lines())
    if not text:
        raise Refused(f"not the lines of llbm show: there are no bytes: {STANDARD_INPUT}")
    return show_of(text.decode("ascii", "backslashreplace"))


def counts_of(vertex: Vertex) -> list[str]:
    """Returns what a label has after a vertex's number and kind if no definition is given."""
    return [f"steps {vertex.steps}", f"outputs {vertex.outputs}"]


def check(show: Show, graph: definition.Graph, ops: list[Op]) -> None:
    """Checks that the lines are those of the definition's graph."""
    if len(ops) != len(show.vertices) or graph.result != show.result:
        raise Refused("the definition has another graph than the lines")
    for vertex, inputs, op in zip(show.vertices, graph.inputs, ops):
        if vertex.kind != op.kind or vertex.inputs != inputs:
            raise Refused(f"vertex {vertex.number} is another one in the definition")


def labels_of(show: Show, file: str | None, llbm: str | None) -> list[list[str]]:
    """Returns what the labels have after number and kind."""
    if file is None:
        return [counts_of(vertex) for vertex in show.vertices]
    data = definition_at(file, lambda: program_to_ask(llbm))
    try:
        entries = definition.entries_of(data)
        graph = definition.graph_of(entries)
        ops = [definition.op_of(row, entries[row]) for row in graph.rows]
        shown = [name.shown() for name in names.names_of_vertices(names.names_of(data))]
    except Unreadable as fault:
        raise no_definition.refusal(fault, data, file) from fault
    check(show, graph, ops)
    return [[*graphviz.named_by(name), *graphviz.texts_of(op)] for name, op in zip(shown, ops)]


def impacts_in(data: bytes) -> list[tuple[str, str]]:
    """Returns the kind and the word of each vertex in the object that `impact --json` prints."""
    try:
        found = [(vertex["kind"], vertex["impact"]) for vertex in json.loads(data)["vertices"]]
        if all(word in COLORS for _, word in found):
            return found
    except (ValueError, LookupError, TypeError):
        pass
    raise Refused("the impact is not an object that impact --json prints")


def colors_of(show: Show, file: str | None) -> list[str]:
    """Returns the attributes that color each vertex."""
    if file is None:
        return [""] * len(show.vertices)
    found = impacts_in(data_at(file))
    if [vertex.kind for vertex in show.vertices] != [kind for kind, _ in found]:
        raise Refused("the impact is that of another graph")
    return [graphviz.filled(COLORS[word]) for _, word in found]


def arrow(edge: Edge, target: int | str) -> str:
    """Returns the line of an edge to a vertex or to the result."""
    return f'  {edge[0]} -> {target} [label="{edge[1]}"];\n'


def node(vertex: Vertex, label: list[str], color: str) -> str:
    """Returns the lines of a vertex and of the edges to it."""
    text = graphviz.quoted([f"{vertex.number} {vertex.kind}", *label])
    prefix = f"  {vertex.number} [shape={graphviz.SHAPES[vertex.kind]}, label={text}{color}];\n"
    return prefix + "".join(arrow(edge, vertex.number) for edge in vertex.inputs)


def digraph(show: Show, labels: list[list[str]], colors: list[str]) -> str:
    """Returns the digraph."""
    nodes = map(node, show.vertices, labels, colors)
    return f"digraph llb {{\n{''.join(nodes)}  result [shape=doublecircle];\n{arrow(show.result, 'result')}}}\n"


def parser() -> argparse.ArgumentParser:
    """Returns the parser of the command line."""
    parser = Parser(
        description="Converts the lines of llbm show on standard input, or any definition, to a Graphviz digraph.",
    )
    parser.add_argument("file", nargs="?", metavar="DEFINITION", help="a definition, accepted or not, to draw alone")
    parser.add_argument("--definition", metavar="FILE", help="the definition of the graph, for the labels")
    parser.add_argument("--impact", metavar="FILE", help="the output of impact --json, for the colors")
    parser.add_argument("--llbm", metavar="PROGRAM", help="the program llbm, which says what it refuses in DEFINITION")
    return parser


def drawn(options: argparse.Namespace) -> str:
    """Returns the digraph of what is given."""
    if options.file is not None:
        if options.definition is not None or options.impact is not None:
            raise Refused("DEFINITION is drawn alone, without --definition and --impact")
        llbm = program_to_ask(options.llbm)
        data = definition_at(options.file, lambda: llbm)
        return inspected_graph.digraph(inspection.inspected(data, options.file, llbm))
    if options.definition is not None:
        check_inputs(None, options.definition)
        check_there(options.definition)
    show = given_show()
    return digraph(show, labels_of(show, options.definition, options.llbm), colors_of(show, options.impact))


def draw(options: argparse.Namespace) -> None:
    """Writes the digraph."""
    common.check_open(sys.stdout, "standard output")
    sys.stdout.buffer.write(drawn(options).encode("utf-8"))
    sys.stdout.flush()


def main() -> int:
    """Runs the tool, and returns its exit status."""
    options = parser().parse_args()
    return exit_status(lambda: draw(options))
