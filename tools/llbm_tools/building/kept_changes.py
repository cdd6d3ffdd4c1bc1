"""What has changed since the last build, by the file in which that was kept."""

import time

from llbm_tools.building import kept_builds
from llbm_tools.building.build_requests import Named, Request
from llbm_tools.building.kept_builds import Build, File, State, digest_of_file, state_at
from llbm_tools.trees.kept_sources import Changed, Hidden, Kept, Structure, changes_of

# Linux's clock of the times of files.
COARSE = getattr(time, "CLOCK_REALTIME_COARSE", 5)
TIMES = slice(4, 6)
# What a build was asked for that another one may differ in.
DEFINITION = "definition"


def now() -> int:
    """Returns the time by the clock that the times of files have."""
    return time.clock_gettime_ns(COARSE)


def file_changed(before: File, place: str, began: int) -> bool:
    """Returns whether a source that is one file has another content; if its times are young it is read again."""
    state = state_at(place)
    if state is not None and state == before.state and max(state[TIMES]) < began:
        return False
    return state is None or digest_of_file(place) != before.digest


class Memory:
    """What is kept of the builds of a result in a file; whether the last build had the same definition."""

    def __init__(self, request: Request) -> None:
        self.place: str = request.options.keep
        self.asked = request.asked()
        self.began = now()
        self.last = self.load(state_at(request.result))
        self.is_same = self.last is not None and self.last.asked == self.asked

    def load(self, result: State | None) -> Build | None:
        """Returns what is kept, if it is of a build whose result is still there, and which was asked for the same, but
        perhaps with another definition.
        """
        last = kept_builds.load(self.place)
        if not last or not result or last.result != result:
            return None
        same = {DEFINITION: last.asked.get(DEFINITION)}
        return last if last.asked == {**self.asked, **same} else None

    def store(self, build: Build) -> None:
        """Keeps what was read and made."""
        kept_builds.store(self.place, build)


class Changes:
    """The files of each source that are in another state than in the last build, or None if more than contents of
    files has changed.

    So it is if the reading is strict and an entry in another state has an extended attribute.
    """

    def __init__(self, last: Build, sources: list[Named], hidden: Hidden, *, strict: bool) -> None:
        self.last = last
        self.is_young = False
        self.found: list[list[Changed] | None] = []
        for source, before in zip(sources, last.sources):
            try:
                self.found.append(self.changed(source, before, hidden, strict=strict))
            except Structure:
                self.found.append(None)

    def changed(self, source: Named, before: Kept | File, hidden: Hidden, *, strict: bool) -> list[Changed]:
        """Returns the files of a source that are in another state; if more has changed, raises Structure."""
        if isinstance(before, Kept):
            self.is_young = self.is_young or before.latest >= self.last.began
            return changes_of(before, source.place, self.last.began, hidden, strict=strict)
        if file_changed(before, source.place, self.last.began):
            raise Structure
        return []

    def are_contents(self) -> bool:
        """Returns whether nothing but contents of files has changed."""
        return None not in self.found

    def names(self, sources: list[Named]) -> frozenset[str]:
        """Returns the names of the sources whose trees may have changed."""
        pairs = zip(sources, self.last.sources, self.found)
        return frozenset(source.name for source, kept, found in pairs if found is None or other_contents(kept, found))

    def numbers(self) -> list[int]:
        """Returns the tokens of the contents that have changed."""
        return [
            kept.numbers[one.place]
            for kept, found in zip(self.last.sources, self.found) if isinstance(kept, Kept)
            for one in other_contents(kept, found or [])
        ]

    def renewed(self, began: int) -> Build | None:
        """Returns what is to be kept in place of the last build; None if that still says all."""
        if not self.is_young and not any(self.found):
            return None
        pairs = zip(self.last.sources, self.found)
        sources: list[Kept | File] = [
            one.with_changes(found or []) if isinstance(one, Kept) else one for one, found in pairs
        ]
        return self.last._replace(sources=sources, began=began)


def other_contents(kept: Kept | File, found: list[Changed]) -> list[Changed]:
    """Returns the files in another state that have another content too."""
    return [one for one in found if isinstance(kept, Kept) and one.digest != kept.digest(one.place)]
