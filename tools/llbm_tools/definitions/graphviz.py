"""What the graphs for Graphviz share: shapes, colors, and labels."""

import re

from llbm_tools import common
from llbm_tools.llb import definition
from llbm_tools.llb.ops import Op

SHAPES = {"source": "folder", "file": "note", "merge": "trapezium", "exec": "box"}
OTHER_SHAPE = "octagon"
REFUSED_COLOR = "lightcoral"
MOST_CHARACTERS = 60
MOST_TEXTS = 8

ENTITY = re.compile(r"&(?=#?\w+;)")


def shortened(text: str) -> str:
    """Returns a text for a label, in printable characters and not too long."""
    return common.shortened(common.printable(text), MOST_CHARACTERS)


def first_texts(texts: list[str]) -> list[str]:
    """Returns the first of some texts for a label, and one that counts the others."""
    left = len(texts) - MOST_TEXTS
    shown = [shortened(text) for text in texts[:MOST_TEXTS]]
    return [*shown, f"and {left} more"] if left > 0 else shown


def texts_of(op: Op) -> list[str]:
    """Returns what a label has from an op."""
    return first_texts(definition.texts_of(op))


def named_by(name: str) -> list[str]:
    """Returns what a label has from a name, shortened; nothing for an empty one."""
    return [common.shortened(name, MOST_CHARACTERS)] if name else []


def quoted(lines: list[str]) -> str:
    """Returns a label with these lines, quoted for Graphviz."""
    escaped = [line.replace("\\", "\\\\").replace('"', '\\"') for line in lines]
    return '"' + ENTITY.sub("&amp;", "\\n".join(escaped)) + '"'


def filled(color: str) -> str:
    """Returns the attributes of a node with a color."""
    return f", style=filled, fillcolor={color}"
