"""Does one build: reads the sources, runs the program, and writes the result."""

import io
import os
import tempfile
from typing import TYPE_CHECKING

from llbm_tools.building import build_folders, child_processes, replaced_results, sources_by_value
from llbm_tools.building.atomic_exchange import exchange
from llbm_tools.building.build_requests import NOTHING, Ended, Request
from llbm_tools.building.child_processes import held_back
from llbm_tools.building.given_sources import Given, stored_at
from llbm_tools.building.kept_builds import Build as LastBuild
from llbm_tools.building.kept_builds import forget, state_at
from llbm_tools.building.kept_changes import Memory
from llbm_tools.building.program_runs import Program
from llbm_tools.building.result_texts import Checked, read_line
from llbm_tools.building.result_writing import DirectoryWriter
from llbm_tools.building.source_readings import digests_of, kept_of, other_digests, recorders_of, resolved
from llbm_tools.common import say
from llbm_tools.images import packing
from llbm_tools.inputs import shown
from llbm_tools.llb import source_names
from llbm_tools.rules import notes
from llbm_tools.streams import FAILED, REFUSED, program_at, program_to_ask, write_output
from llbm_tools.trees import entry_times
from llbm_tools.trees.content_tokens import Copier, Table
from llbm_tools.trees.kept_sources import bytes_of
from llbm_tools.trees.source_texts import Reading

if TYPE_CHECKING:
    from llbm_tools.building.followed_links import Following

ASKED = "--by-value asks for it"
UNREADABLE = "the definition can't be read"
CUT_OFF = "the archive is cut off"
# The note of the fields by which links are followed; it has no meaning where they are.
FOLLOWED = "FollowSymlink"


class Build:
    """One build: what it was asked for, what is kept of the last one, and what it has made so far."""

    def __init__(self, request: Request, memory: Memory | None) -> None:
        self.request = request
        self.options = request.options
        self.memory = memory
        self.sources = request.sources
        self.left = NOTHING
        self.texts = ""
        self.directory = ""
        self.program: Program | None = None
        self.given: Given | None = None
        self.following: "Following | None" = None
        self.writer: DirectoryWriter | None = None
        self.has_tokens = False

    def has_begun(self) -> bool:
        """Returns whether there was more than checks."""
        return bool(self.texts)

    def make_folders(self) -> None:
        """Makes the folder for the texts, and the one that becomes the result."""
        with held_back():
            self.texts = build_folders.made(build_folders.TEXTS, tempfile.gettempdir())
            above = self.texts if self.request.is_output else self.request.above
            self.directory = build_folders.made(build_folders.RESULT, above)

    def hidden(self) -> list[os.stat_result]:
        """Returns what is no part of a source."""
        return [*map(os.stat, (self.texts, self.directory)), *self.request.hidden()]

    def store(self) -> None:
        """Stores the definition, and the sources that can be read only once."""
        with open(os.path.join(self.texts, "definition"), "xb") as file:
            file.write(self.request.data)
        self.sources = [stored_at(source, number, self.texts) for number, source in enumerate(self.sources)]

    def clean(self) -> None:
        """Removes everything but the result. It may be called twice."""
        for part in (self.program, self.writer):
            if part:
                part.end()
        for one in (self.given, self.following):
            if one:
                one.close()
        for folder in (self.texts, self.directory):
            try:
                child_processes.remove(folder)
            except OSError as fault:
                say(f"could not be removed: {folder}: {fault.strerror}")

    def text(self, number: int) -> str:
        """Returns the path of the text of a source."""
        return os.path.join(self.texts, f"{number}.tree")

    def read_all(self, llbm: str) -> None:
        """Writes the texts of all sources: by reference, unless the options or the graph need all by value."""
        names = [source.name for source in self.sources]
        for note in source_names.word_notes(self.request.data, names) if names else []:
            say(note)
        heeded = FOLLOWED if self.options.links else ""
        for note in notes.lines_of(self.request.data, self.request.filtered, heeded):
            say(note)
        plan = sources_by_value.plan_of(self.request.data, llbm) if names and not self.options.by_value else None
        cause = ASKED if self.options.by_value else plan.all if plan else UNREADABLE
        if cause == UNREADABLE and self.options.links:
            from llbm_tools.building.followed_links import check_unread

            check_unread(self.request.data)
        if not cause and plan:
            cause = self.new_given().give(plan)
        if cause:
            if names and cause not in (ASKED, UNREADABLE):
                say(f"all sources are given by value: {cause}")
            self.new_given().give_values(cause)
        self.has_tokens = bool(names) and not cause
        if self.given and not self.given.is_whole:
            raise Ended(FAILED)

    def new_given(self) -> Given:
        """Returns a new reading of the sources, in place of one that was begun."""
        if self.given:
            self.given.close()
        reading = Reading(strict=self.options.strict, platform=self.options.platform)
        records = recorders_of(self.memory.last, self.sources) if self.memory else [None] * len(self.sources)
        selected, has_links = self.request.selected, self.options.links
        self.given = Given(self.sources, self.text, self.hidden(), reading, records, selected, has_links)
        return self.given

    def table(self) -> Table | None:
        """Returns the table of the contents, or None if the texts have the contents themselves."""
        return self.given.table if self.given and self.has_tokens else None

    def run(self, llbm: str) -> str:
        """Runs the program, and returns the path of the result's text."""
        say(f"running {shown(self.options.definition)}")
        texts = [(source.name, self.text(number)) for number, source in enumerate(self.sources)]
        definition = os.path.join(self.texts, "definition")
        if self.options.links:
            self.follow(texts, definition)
        self.program = Program(llbm, definition, texts, self.texts)
        ran = self.following.finish if self.following and self.following.needs_outputs() else None
        if ran or self.options.progress:
            from llbm_tools.building import session_runs

            result = session_runs.run(self.program, self.options.workers, is_shown=self.options.progress, ran=ran)
        else:
            result = self.program.run(self.options.workers)
        if self.following:
            self.following.say_differences()
        return result

    def follow(self, texts: list[tuple[str, str]], place: str) -> None:
        """Stores the definition in which links are followed, in the place of the one that was given."""
        # Most builds have no links, nor what follows them.
        from llbm_tools.building.followed_links import Following, Texts

        assert self.given
        self.following = Following(self.request.data, Texts(texts, self.given.table, self.given.hard_links))
        with open(place, "wb") as file:
            file.write(self.following.data)

    def write(self, result: str, made: LastBuild | None) -> None:
        """Writes the result from its text; if there is a last build, only what differs from its result."""
        request, last = self.request, self.memory.last if self.memory else None
        if last and made and not request.ending and self.write_differences(result, last, made):
            return
        say("writing to standard output" if request.is_output else f"writing {request.result}")
        place = os.path.join(self.directory, f"result{request.ending}") if request.ending else self.directory
        self.write_contents(result, place)
        if request.is_output:
            self.pass_archive(place)
        else:
            self.rename(place)

    def write_contents(self, result: str, place: str) -> None:
        """Writes the result from its text and the contents of the sources."""
        table, most = self.table(), self.options.largest
        if self.request.ending:
            self.write_archive(result, place)
        else:
            self.writer = DirectoryWriter(result, place, table, self.options.mtime, most)
            self.writer.write()
        if table:
            table.check_archives()

    def write_archive(self, result: str, place: str) -> None:
        """Writes the result as an archive, which is packed or made the layer of an image if its name says so."""
        # Most results are directories.
        from llbm_tools.building.archive_results import write_archive

        form, time = packing.form_of_name(place), entry_times.time_of_archive(self.options.mtime)
        is_image = self.request.ending == packing.IMAGE
        plain = os.path.join(self.directory, "plain") if form or is_image else place
        write_archive(result, plain, self.table(), time, self.options.largest)
        if plain == place:
            return
        with open(plain, "rb") as archive, open(place, "xb") as packed:
            if form:
                packing.pack(form, archive, packed)
                return
            # Few results are images.
            from llbm_tools.images import oci_layout

            oci_layout.write(archive, packed, self.request.config, time, entry_times.is_given(self.options.mtime))

    def pass_archive(self, place: str) -> None:
        """Writes the archive to standard output."""
        self.left = CUT_OFF
        with open(place, "rb") as archive:
            write_output(archive, "the archive")
        say("the archive is written")

    def rename(self, place: str) -> None:
        """Gives the result its own name; an old one is exchanged with it."""
        result = self.request.result
        with held_back():
            if not os.path.lexists(result):
                os.rename(place, result)
                self.directory = "" if place == self.directory else self.directory
            elif self.options.replace:
                self.forget()
                replaced_results.say_steps(exchange(place, result))
            else:
                raise Ended(REFUSED, f"this exists already: {result}")
            child_processes.ignore_signals()
        self.left = f"{result} is written"
        say(self.left)

    def forget(self) -> None:
        """Removes what is kept, since the result is about to change."""
        if self.memory:
            forget(self.memory.place)

    def write_differences(self, result: str, last: LastBuild, made: LastBuild) -> bool:
        """Writes only what differs from the last result; returns False if all of it has to be written."""
        if last.has_tokens != made.has_tokens:
            return False
        before, after = digests_of(last), digests_of(made)

        def same(one: bytes, two: bytes) -> bool:
            """Returns whether two contents are the same."""
            return one == two and not self.has_tokens or resolved(one, before) == resolved(two, after)

        with open(result, "rb") as new:
            old = io.BytesIO(bytes_of(last.text))
            found = list(replaced_results.differences(map(read_line, old), map(read_line, new), same))
        if not found:
            self.left = f"{self.request.result} stays as it is"
            say(self.left)
            return True
        return self.replace_part(bytes_of(made.text), found)

    def replace_part(self, text: bytes, found: list[tuple[bytes, bytes]]) -> bool:
        """Replaces the place that has all differences; returns False if that is most of the result."""
        place = replaced_results.common_place(above for _, above in found)
        part = replaced_results.Part(place, list(replaced_results.lines_at(text, place)), {path for path, _ in found})
        if 2 * len(found) > len(part.lines) and not place:
            return False
        self.forget()
        replaced_results.replace(part, self.request.result, self.directory, self.table(), self.options.mtime)
        self.left = f"{self.request.result} is written"
        return True

    def new_build(self, result: str) -> LastBuild:
        """Returns what is to be kept of this build, if its result is a tree and not too large."""
        assert self.memory and self.given
        hidden = frozenset((found.st_dev, found.st_ino) for found in self.hidden())
        sources = kept_of(self.memory.last, self.given, hidden)
        with open(result, "rb") as text:
            data = text.read()
        checked = Checked(Copier(self.table()).size, self.options.largest)
        checked.read(io.BytesIO(data))
        others = other_digests(self.given.table) if self.has_tokens else {}
        memory, definition, size = self.memory, self.request.data, checked.bytes
        return LastBuild(memory.asked, memory.began, sources, None, data, definition, size, self.has_tokens, others)

    def whole(self) -> None:
        """Does the whole build."""
        asks = self.sources and not self.options.by_value
        llbm = program_to_ask(self.options.llbm) if asks else program_at(self.options.llbm)
        self.make_folders()
        self.store()
        self.read_all(llbm)
        result = self.run(llbm)
        made = self.new_build(result) if self.memory else None
        self.write(result, made)
        if self.memory and made:
            self.memory.store(made._replace(result=state_at(self.request.result)))
