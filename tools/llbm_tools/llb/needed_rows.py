"""The rows of any definition that its result needs, whether or not the program accepts it.

An entry that is no op leads to no other one, as for the program's findings.
"""

import contextlib

from llbm_tools.llb import definition, op_reading
from llbm_tools.llb.ops import Op
from llbm_tools.llb.wire import Unreadable


class Rows:
    """The rows of a definition: the first row of each digest, and the ops of those that are one."""

    def __init__(self, entries: list[bytes]) -> None:
        self.named: dict[str, int] = {}
        self.ops: dict[int, Op] = {}
        self.terminal = -1
        for row, entry in enumerate(entries):
            self.terminal = self.named.setdefault(definition.digest_of(entry), row)
            if self.terminal == row:
                with contextlib.suppress(Unreadable):
                    self.ops[row] = op_reading.read_op(entry)

    def links(self, row: int, most: int | None = None) -> list[int]:
        """Returns the rows that the inputs of a row name, or its first ones; no input names the terminal."""
        inputs = self.ops[row].inputs[:most] if row in self.ops else ()
        named = [self.named.get(edge.digest) for edge in inputs]
        return [one for one in named if one is not None and one != self.terminal]

    def reached(self) -> set[int]:
        """Returns the terminal, and the rows that its first input needs."""
        found = {self.terminal}
        left = self.links(self.terminal, 1)
        while left:
            row = left.pop()
            if row not in found:
                found.add(row)
                left.extend(self.links(row))
        return found
