"""Draws the entries of any definition as a digraph for Graphviz, with what the program refuses in each."""

from llbm_tools.definitions import graphviz
from llbm_tools.definitions.inspection import Edge, Entry, Inspected
from llbm_tools.llb.findings import Finding


def refused_in(entry: Entry) -> list[str]:
    """Returns what a label has of what is refused."""
    return graphviz.first_texts([f"refused: {words(finding)}" for finding in entry.refused])


def words(finding: Finding) -> str:
    """Returns the number of a fault and what follows its row."""
    return " ".join(filter(None, [str(finding.number), finding.rest]))


def arrow(edge: Edge, target: str) -> str:
    """Returns the line of an edge from what an input names, which may be no entry."""
    missing = [graphviz.shortened(edge.digest or "no digest")]
    start = graphviz.quoted(missing) if edge.row is None else f"e{edge.row}"
    return f'  {start} -> {target} [label="{edge.output}"];\n'


def node(entry: Entry) -> str:
    """Returns the lines of an entry and of the edges to it."""
    number = f"%{entry.row}" if entry.name.vertex is None else str(entry.name.vertex)
    texts = [graphviz.shortened(entry.cause)] if entry.op is None else graphviz.texts_of(entry.op)
    name = graphviz.named_by(entry.name.shown())
    label = graphviz.quoted([f"{number} {entry.kind()}", *name, *texts, *refused_in(entry)])
    color = graphviz.filled(graphviz.REFUSED_COLOR) if entry.refused else ""
    shape = graphviz.SHAPES.get(entry.kind(), graphviz.OTHER_SHAPE)
    line = f"  e{entry.row} [shape={shape}, label={label}{color}];\n"
    return line + "".join(arrow(edge, f"e{entry.row}") for edge in entry.inputs)


def digraph(inspected: Inspected) -> str:
    """Returns the digraph; the double circle `result` has what is refused of the whole and of the terminal."""
    lines = "".join(map(node, inspected.below_terminal()))
    causes = [f"refused: {finding.words()}" for finding in inspected.refused]
    causes += refused_in(inspected.entries[-1]) if inspected.entries else []
    color = graphviz.filled(graphviz.REFUSED_COLOR) if causes else ""
    lines += f"  result [shape=doublecircle, label={graphviz.quoted(['result', *causes])}{color}];\n"
    if inspected.result is not None:
        lines += arrow(inspected.result, "result")
    return f"digraph llb {{\n{lines}}}\n"
