"""Runs an older and a newer definition on their trees, and compares what vertices made.

Each run is a session of `llbm step` with one worker, which goes to its end. A vertex made the same in both if it ended
in the same way and its outputs have equal texts.
"""

import hashlib
import os
import pathlib
import tempfile
from collections.abc import Iterable, Mapping

from llbm_tools.common import say
from llbm_tools.definitions import impacts
from llbm_tools.definitions.impacts import Impact, Names, Vertex
from llbm_tools.sessions.session import Refusal, Session, SessionFailed
from llbm_tools.streams import Failed, Refused
from llbm_tools.trees.source_files import source_words

Places = Mapping[str, str]

# How a vertex ended, and the digest of each of its outputs.
Made = tuple[str, tuple[str, ...]]


def check_all_given(names: Names, places: Places, option: str) -> None:
    """Checks that each local source of a definition has a tree, and that no other one is given."""
    missing = sorted(names - places.keys())
    if missing:
        raise Refused(f"--run needs a tree for each local source, and {option} has none for: {', '.join(missing)}")


class Run:
    """A run of a definition, from its beginning to its end. It has to be closed."""

    def __init__(self, program: str, data: bytes, vertices: list[Vertex], places: Places) -> None:
        known = {vertex.source for vertex in vertices}
        with tempfile.TemporaryDirectory(prefix="llbm-impact-") as folder:
            file = os.path.join(folder, "definition")
            pathlib.Path(file).write_bytes(data)
            words = source_words({name: place for name, place in places.items() if name in known}, folder, say)
            self.session = Session([program, "step", file, "--looks", "--ends", "--workers", "1", *words], 1)
            # The program reads its files before it answers, so the folder can go after the first answer.
            try:
                while self.session.event("next"):
                    pass
                self.statuses = self.session.status()
                self.outputs = [vertex.outputs for vertex in self.session.graph().vertices]
            except BaseException:
                self.session.end()
                raise

    def digest(self, vertex: int, output: int) -> str:
        """Returns the digest of the text of an output, or an empty text if the vertex did not make it."""
        lines = self.session.tree(vertex, output)
        if lines is None:
            return ""
        digest = hashlib.sha256()
        for line in lines:
            digest.update(line + b"\n")
        return digest.hexdigest()

    def made(self, vertex: int) -> Made:
        """Returns how a vertex ended, with the digests of its outputs."""
        digests = (self.digest(vertex, output) for output in range(self.outputs[vertex]))
        return self.statuses[vertex], tuple(digests)

    def close(self) -> None:
        """Ends the session."""
        self.session.end()


class BothRuns:
    """The runs of the older and of the newer definition."""

    def __init__(self, older: Run, newer: Run) -> None:
        self.older, self.newer = older, newer

    def word(self, number: int, impact: Impact) -> str:
        """Returns the word of a vertex: for one that is fed by changed sources, whether it made the same in both."""
        if impact.word != impacts.FED or impact.old is None:
            return impact.word
        is_same = self.older.made(impact.old) == self.newer.made(number)
        return impacts.SAME if is_same else impacts.CHANGED

    def words(self, found: Iterable[Impact]) -> list[Impact]:
        """Returns what is known of each vertex, given what is known without runs."""
        return [impact._replace(word=self.word(number, impact)) for number, impact in enumerate(found)]

    def result_word(self, older: tuple[int, int], newer: tuple[int, int]) -> str:
        """Returns whether both definitions have the same result: its vertex ended alike, and the trees are equal."""
        ends = [run.statuses[edge[0]] for run, edge in ((self.older, older), (self.newer, newer))]
        trees = [self.older.digest(*older), self.newer.digest(*newer)]
        return impacts.SAME if ends[0] == ends[1] and trees[0] == trees[1] else impacts.CHANGED


def ended(fault: SessionFailed) -> Exception:
    """Returns the end of the tool for a run that did not begin or did not end."""
    lines = [str(fault), *fault.words]
    return Refused(*lines) if fault.status == 2 else Failed(": ".join(lines))


def compared(
    program: str, comparison: impacts.Comparison, data: tuple[bytes, bytes], places: tuple[Places, Places],
    found: list[Impact],
) -> tuple[list[Impact], str]:
    """Runs both definitions; returns what is known of each vertex of the newer one, and the word of its result."""
    check_all_given(impacts.sources_of(comparison.old), places[0], "--before")
    check_all_given(impacts.sources_of(comparison.new), places[1], "--after")
    runs: list[Run] = []
    try:
        runs.append(Run(program, data[0], comparison.old, places[0]))
        runs.append(Run(program, data[1], comparison.new, places[1]))
        both = BothRuns(*runs)
        return both.words(found), both.result_word(comparison.old_result, comparison.new_result)
    except SessionFailed as fault:
        raise ended(fault) from fault
    except Refusal as fault:
        raise Refused(str(fault)) from fault
    finally:
        for run in runs:
            run.close()
