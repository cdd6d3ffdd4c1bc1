"""The vertices of a build that the last one had, on the same sources: their outcomes are what they were.

A vertex is cached if it does the same as one of the last definition on inputs that match, with no cache mount at or
before it, and no source before it has changed: the law `matched_vertices_end_alike` of crates/llb_laws. The matching is
that of `impact`. Only the result is kept of a build. So the program runs the cached vertices again, unless the result
is one: then it is the result that was kept.
"""

import contextlib
from typing import NamedTuple

from llbm_tools.building.build_requests import Request
from llbm_tools.building.kept_builds import Build
from llbm_tools.building.kept_changes import Changes, Memory
from llbm_tools.common import say, shortened
from llbm_tools.definitions import impacts
from llbm_tools.definitions.impacts import Comparison, Impact
from llbm_tools.streams import Refused, program_to_ask
from llbm_tools.trees.kept_sources import bytes_of

MOST_OF_A_NAME = 100


class Found(NamedTuple):
    """The cached vertices of a build, by number, and whether the result is an output of one that the last one was."""

    vertices: dict[int, Impact]
    has_result: bool

    def say(self) -> list[dict[str, object]]:
        """Prints a line for each cached vertex, and returns an object for each."""
        for number, impact in self.vertices.items():
            say(line_of(number, impact))
        return [
            {"vertex": number, "kind": impact.vertex.kind, "name": impact.name}
            for number, impact in self.vertices.items()
        ]


def line_of(number: int, impact: Impact) -> str:
    """Returns the line of a cached vertex."""
    name = shortened(impact.name, MOST_OF_A_NAME)
    line = f"CACHED vertex {number} {impact.vertex.kind}"
    return f"{line}: {name}" if name else line


def found_in(request: Request, changes: Changes) -> Found:
    """Returns the cached vertices; none of a definition that the program does not accept, which says why itself."""
    with contextlib.suppress(Refused):
        program = program_to_ask(request.options.llbm)
        comparison = Comparison(bytes_of(changes.last.definition), request.data, program)
        found = list(comparison.impacts(changes.names(request.sources)))
        kept = {number: impact for number, impact in enumerate(found) if impact.word == impacts.KEPT}
        return Found(kept, comparison.result(found).word == impacts.KEPT)
    return Found({}, False)


def taken(request: Request, memory: Memory, changes: Changes) -> Build:
    """Returns what is to be kept if the last result is taken for this definition."""
    kept = changes.renewed(memory.began) or changes.last
    return kept._replace(asked=memory.asked, definition=request.data)
