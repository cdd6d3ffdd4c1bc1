"""The texts of a build's local sources: by reference, or by value where the graph needs the contents themselves."""

import contextlib
import os
from collections.abc import Callable

from llbm_tools import inputs
from llbm_tools.building.build_requests import Named
from llbm_tools.building.kept_builds import state_at
from llbm_tools.building.sources_by_value import Plan
from llbm_tools.common import MOST_BYTES, say
from llbm_tools.rules.filters import Paths
from llbm_tools.streams import Refused
from llbm_tools.trees.content_tokens import Table
from llbm_tools.trees.directory_texts import HasMark, Text, TooLong, Values
from llbm_tools.trees.kept_sources import Recorder
from llbm_tools.trees.source_texts import Reading, Source

STORED = "source-{}.tar"


def stored_at(source: Named, number: int, folder: str) -> Named:
    """Returns a source; one that can be read only once is stored in a folder."""
    if not inputs.is_pipe(source.place):
        return source
    stored = os.path.join(folder, STORED.format(number))
    inputs.store(source.place, stored)
    return source._replace(place=stored)


class Given:
    """The sources of a build, and the table of their contents. With links, these have tokens too, also in a source that
    is given by value.
    """

    def __init__(
        self,
        sources: list[Named],
        text: Callable[[int], str],
        hidden: list[os.stat_result],
        reading: Reading,
        records: list[Recorder | None],
        selected: list[Paths | None],
        has_links: bool,
    ) -> None:
        self.sources = sources
        self.text = text
        self.hidden = hidden
        self.reading = reading._replace(contents=self.link if has_links else None)
        self.records = records
        self.selected = selected
        self.states = [state_at(source.place) for source in sources]
        self.table = Table()
        self.kept = contextlib.ExitStack()
        self.is_whole = True
        self.no_tokens = ""
        # The paths of files that have other names in their source, by the source's name.
        self.hard_links: dict[str, list[bytes]] = {}

    def close(self) -> None:
        """Closes the files and directories of the sources."""
        self.kept.close()
        self.table.close()

    def link(self, target: bytes) -> bytes:
        """Returns the token of a symbolic link."""
        if self.no_tokens:
            raise Refused(
                f"a symbolic link to {os.fsdecode(target)} needs a token, "
                f"and this build can't have any: {self.no_tokens}"
            )
        return self.table.add_link(target)

    def give(self, plan: Plan) -> str:
        """Writes the texts of all sources. Returns why all have to be given by value, or nothing."""
        causes = [plan.cause(os.fsencode(source.name)) for source in self.sources]
        for number in sorted(range(len(causes)), key=lambda number: not causes[number]):
            source, cause = self.sources[number], causes[number]
            say(f"reading {source.name} from {source.shown}" + (f" by value: {cause}" if cause else ""))
            is_seen = os.fsencode(source.name) in plan.names
            try:
                self.read(number, cause, unmarked=is_seen)
            except HasMark as path:
                return f"{cause}, and {path} of {source.name}, which is before it, has the byte 255"
        return ""

    def give_values(self, cause: str) -> None:
        """Writes the texts of all sources by value."""
        self.no_tokens = cause
        for number, source in enumerate(self.sources):
            say(f"reading {source.name} from {source.shown}")
            self.read(number, cause, unmarked=False)

    def read(self, number: int, cause: str, *, unmarked: bool) -> None:
        """Writes the text of a source: by value if there is a cause, which is then in the refusal of a long one."""
        source = self.sources[number]
        with open(self.text(number), "wb") as output:
            text = Values(output, unmarked=unmarked) if cause else Text(output)
            reader = Source(text, self.table, self.kept, self.reading)
            try:
                is_whole = reader.read(
                    source.place, self.hidden, self.records[number], source.shown, self.selected[number]
                )
            except TooLong as fault:
                line = f"{source.name} is too long to be given by value, over {MOST_BYTES:,} bytes: {cause}"
                raise Refused(line) from fault
        self.hard_links[source.name] = reader.hard_links
        self.is_whole = self.is_whole and is_whole
