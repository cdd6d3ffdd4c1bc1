"""Finds for each vertex of a definition whether its outcome can differ from the one in an older definition.

Both definitions have to be ones that the program accepts. The laws are those of the crate `llb_laws`: vertices that
do the same on inputs that match have one plain outcome, whatever their digests and the names of sources are, and an
outcome depends on no other sources than those at or before the vertex. Of a source that a file op only copies from, it
depends only on what is at and below the paths that are copied; the program says whether that is the same in two trees.
That no two unequal entries have one digest is checked here.
"""

from collections.abc import Iterable, Iterator, Mapping
from typing import NamedTuple

from llbm_tools import commands
from llbm_tools.definitions.agreed_vertices import agreed, trees_of
from llbm_tools.definitions.matched_vertices import NotAccepted, Words, matches_of, with_names
from llbm_tools.llb import definition, names, op_reading
from llbm_tools.llb.findings import findings_of
from llbm_tools.llb.ops import CACHE, LOCAL
from llbm_tools.llb.wire import Unreadable
from llbm_tools.streams import Failed, Refused

KEPT, NEW, FED, CACHED = "kept", "new", "fed", "cached"
# Both definitions were run, and a vertex that changed sources feed made the same in both, or not.
SAME, CHANGED = "same", "changed"
OTHER = "other"
OTHER_RESULT = "OLD's result is an output of another vertex, or another output of this one; no law says anything"

LAWS = {
    KEPT: "its outcome is that of OLD's vertex that does the same on inputs that match (matched_vertices_end_alike), or"
    " is the same file op, and only copies from changed sources what is the same in both (reads_end_alike)",
    NEW: "OLD has no vertex that matches it or has its digest; no law says anything",
    FED: "its outcome depends on the sources before it alone, and these of them have changed (outcome_by_sources)",
    CACHED: "a cache mount is at or before it; no law says what it leaves in a run",
}
BY_RUNS = {
    SAME: "both definitions were run: it is fed by changed sources, and ended in the same way with equal outputs",
    CHANGED: "both definitions were run: it ended in another way than OLD's vertex, or with other outputs",
}

Names = frozenset[str]
# The places of the trees of sources, for the older and for the newer definition.
Places = tuple[Mapping[str, str], Mapping[str, str]]

EMPTY: Words = {}
NO_PLACES: Places = {}, {}


class Vertex(NamedTuple):
    """A vertex: its digest, its kind, and its inputs (vertices with outputs).

    `source` is its name if it is a local source, `has_cache` whether it mounts a cache.
    """

    digest: str
    kind: str
    inputs: list[tuple[int, int]]
    source: str | None
    has_cache: bool


class Result(NamedTuple):
    """The result of the newer definition: its vertex and its output, the word, and the older one's result."""

    vertex: int
    output: int
    word: str
    old: tuple[int, int]


class Impact(NamedTuple):
    """What is known of a vertex of the newer definition: one of the words, and why.

    `old` is the vertex of the older definition that matches it or, if none does, that has its digest; `changed` has the
    changed sources at or before it, and `cached` says whether a cache mount is at or before it.
    """

    vertex: Vertex
    name: str
    word: str
    old: int | None
    changed: Names
    cached: bool


def vertex_of(entry: bytes, inputs: list[tuple[int, int]]) -> Vertex:
    """Returns the vertex of an entry."""
    op = op_reading.read_op(entry)
    is_local = op.source is not None and op.source.identifier.startswith(LOCAL)
    source = op.source.identifier.removeprefix(LOCAL) if op.source and is_local else None
    has_cache = op.exec is not None and any(mount.mount_type == CACHE for mount in op.exec.mounts)
    return Vertex(definition.digest_of(entry), op.kind or "no kind", inputs, source, has_cache)


class Read:
    """A definition that the program accepts: its entries, the rows of its vertices, these, and its result."""

    def __init__(self, data: bytes) -> None:
        self.entries = definition.entries_of(data)
        graph = definition.graph_of(self.entries)
        self.rows, self.result = graph.rows, graph.result
        held = zip(graph.rows, graph.inputs, strict=True)
        self.vertices = [vertex_of(self.entries[row], inputs) for row, inputs in held]

    def named(self, words: Words) -> tuple[bytes, list[str]]:
        """Returns the definition with words in place of the names of local sources, and the digest of each vertex."""
        data, digests = with_names(self.entries, self.rows, words)
        return data, [digests[vertex.digest] for vertex in self.vertices]


def check_digests(old: list[bytes], new: list[bytes]) -> None:
    """Checks that no two unequal entries have one digest."""
    entries: dict[str, bytes] = {}
    for entry in [*old, *new]:
        digest = definition.digest_of(entry)
        if entries.setdefault(digest, entry) != entry:
            raise Refused(f"two unequal entries have the digest {digest}: no law holds")


def sources_of(vertices: Iterable[Vertex]) -> Names:
    """Returns the names of the local sources."""
    return frozenset(vertex.source for vertex in vertices if vertex.source is not None)


def names_by_digest(data: bytes) -> dict[str, str]:
    """Returns the names that the metadata of a definition has for its entries."""
    return {name.digest: shown for name in names.names_of(data) if (shown := name.shown())}


def joined(own: Names, sets: list[Names]) -> Names:
    """Returns the union of sets; a set that has all of it is not copied."""
    most = max([own, *sets], key=len)
    return most if all(one <= most for one in [own, *sets]) else own.union(*sets)


def changed_before(vertices: list[Vertex], changed: Names) -> list[Names]:
    """Returns the changed sources at or before each vertex."""
    found: list[Names] = []
    for vertex in vertices:
        own = changed & sources_of([vertex])
        found.append(joined(own, [found[number] for number, _ in vertex.inputs]))
    return found


def caches_before(vertices: list[Vertex]) -> list[bool]:
    """Returns whether a cache mount is at or before each vertex."""
    found: list[bool] = []
    for vertex in vertices:
        found.append(vertex.has_cache or any(found[number] for number, _ in vertex.inputs))
    return found


def copied_sources(vertices: list[Vertex]) -> Names:
    """Returns the local sources that are an input of a file op, which may only copy from them."""
    read = (vertices[number] for vertex in vertices if vertex.kind == "file" for number, _ in vertex.inputs)
    return sources_of(read)


def unfed(vertices: list[Vertex], changed: Names, same: Mapping[str, list[bool]]) -> list[bool]:
    """Returns for each vertex whether it reads the same in both definitions, if the older one has all these vertices.

    A changed source does not. `same` says of sources which vertices read the same of them, whichever tree they have.
    """
    found: list[bool] = []
    for number, vertex in enumerate(vertices):
        sources = ((before, same.get(vertices[before].source or "")) for before, _ in vertex.inputs)
        reads = (found[before] or (agree is not None and agree[number]) for before, agree in sources)
        found.append(vertex.source not in changed and all(reads))
    return found


def word_of(matched: int | None, digested: int | None, cached: bool, is_unfed: bool) -> str:
    """Returns the word for a vertex, given the vertices of the older definition that match it and have its digest."""
    if matched is None and digested is None:
        return NEW
    if cached:
        return CACHED
    return FED if matched is None and not is_unfed else KEPT


def words_of(names: Names, side: str, changed: Names, digests: Words) -> dict[str, str]:
    """Returns words for the trees of sources in one of the definitions: the digest if it is known, else the name.

    The trees of a changed source have another word in each definition.
    """
    return {name: digests.get(name, f"{side} {name}" if name in changed else f"same {name}") for name in names}


class Comparison:
    """Two definitions that the program accepts, without a collision of digests."""

    def __init__(self, old: bytes, new: bytes, program: str, places: tuple[str, str] = ("OLD", "NEW")) -> None:
        self.data, self.places, self.program = (old, new), places, program
        try:
            self.read = Read(old), Read(new)
        except Unreadable as fault:
            raise self.refusal() from fault
        self.old, self.new = (read.vertices for read in self.read)
        self.old_result, self.new_result = (read.result for read in self.read)
        check_digests(*(read.entries for read in self.read))
        self.names = {**names_by_digest(old), **names_by_digest(new)}
        self.numbers = {vertex.digest: number for number, vertex in enumerate(self.old)}

    def refusal(self) -> Exception:
        """Returns why the definitions can't be compared."""
        lint = commands.shown("lint")
        for data, place in zip(self.data, self.places, strict=True):
            if found := findings_of(data, self.program):
                return Refused(f"the program does not accept it: {place}: fault {found[0].words()}; {lint} prints why")
        return Failed("the definitions could not be compared")

    def sources(self) -> Names:
        """Returns the names of the local sources of both."""
        return sources_of(self.old) | sources_of(self.new)

    def renamed(self, before: Words, after: Words) -> Names:
        """Returns the names that are in one definition alone, and whose tree another source has in the other one."""
        old, new = sources_of(self.old), sources_of(self.new)
        return frozenset(
            [name for name in new - old if name in after and after[name] in before.values()]
            + [name for name in old - new if name in before and before[name] in after.values()]
        )

    def matched(self, changed: Names, before: Words, after: Words) -> list[int | None]:
        """Returns for each vertex of the newer definition the lowest one of the older one that matches it, or None."""
        old, new = self.data
        olds, news = ([vertex.digest for vertex in read.vertices] for read in self.read)
        if changed or before or after:
            (old, olds), (new, news) = (
                read.named(words_of(sources_of(read.vertices), side, changed, digests))
                for read, side, digests in zip(self.read, ("old", "new"), (before, after), strict=True)
            )
        try:
            matches = matches_of(old, new, self.program)
        except NotAccepted as fault:
            raise self.refusal() from fault
        numbers = {digest: number for number, digest in reversed(list(enumerate(olds)))}
        return [numbers.get(matches.get(digest, "")) for digest in news]

    def agreements(self, changed: Names, places: Places) -> dict[str, list[bool]]:
        """Returns for each changed source with two known trees which vertices of the newer definition read the same of
        both."""
        known = {name: trees_of(name, places) for name in changed & copied_sources(self.new)}
        words = {name: str(number) for number, name in enumerate(sorted(sources_of(self.new)))}
        data, digests = self.read[1].named(words) if any(known.values()) else (b"", [])
        found = {name: agreed(data, words[name], trees, self.program) for name, trees in known.items() if trees}
        return {name: [digest in agree for digest in digests] for name, agree in found.items()}

    def impacts(
        self, changed: Names, before: Words = EMPTY, after: Words = EMPTY, places: Places = NO_PLACES
    ) -> Iterator[Impact]:
        """Yields what is known of each vertex of the newer definition, if these sources have other trees.

        `before` and `after` have the digests of trees that are known, for the older and for the newer definition.
        `places` has where these trees are, if it may be asked in what they differ.
        """
        found = self.matched(changed, before, after)
        caches, reads = caches_before(self.new), unfed(self.new, changed, self.agreements(changed, places))
        befores = zip(self.new, found, changed_before(self.new, changed), caches, reads, strict=True)
        for vertex, matched, fed, cached, is_unfed in befores:
            digested = self.numbers.get(vertex.digest)
            name = self.names.get(vertex.digest, "")
            word = word_of(matched, digested, cached, is_unfed)
            yield Impact(vertex, name, word, digested if matched is None else matched, fed, cached)

    def result(self, found: list[Impact]) -> Result:
        """Returns what is known of the result, given what is known of the vertices."""
        vertex, output = self.new_result
        is_same = (found[vertex].old, output) == self.old_result or found[vertex].old is None
        return Result(vertex, output, found[vertex].word if is_same else OTHER, self.old_result)

    def gone(self, found: Iterable[Impact]) -> list[int]:
        """Returns the vertices of the older definition that no vertex of the newer one matches or has the digest of."""
        matched = {impact.old for impact in found}
        there = {vertex.digest for vertex in self.new}
        digests = enumerate(vertex.digest for vertex in self.old)
        return [number for number, digest in digests if number not in matched and digest not in there]
