"""What a build is asked for, and the checks of it that need neither the program nor the trees of the sources."""

import argparse
import os
import shutil
import sys
from collections.abc import Iterator
from typing import NamedTuple

from llbm_tools import inputs
from llbm_tools.building.kept_builds import check_place, state_at
from llbm_tools.common import check_open, program_place
from llbm_tools.hashes import sha256
from llbm_tools.images import packing
from llbm_tools.llb.given_definitions import definition_at
from llbm_tools.rules.filters import Filters, Paths
from llbm_tools.streams import Refused, program_at
from llbm_tools.trees import entry_times

OUTPUTS = ("-", "/dev/stdout")
LARGEST = 16 << 30
NOTHING = "nothing is written"


class Ended(Exception):
    """The build ends with this status; the cause is printed unless it was before."""

    def __init__(self, status: int, cause: str = NOTHING) -> None:
        super().__init__(cause)
        self.status = status


class Named(NamedTuple):
    """A local source: its name, the place of its tree, and that place as it is printed."""

    name: str
    place: str
    shown: str


def source_of(word: str) -> Named:
    """Parses `NAME=PLACE`."""
    name, equals, place = word.partition("=")
    if not equals or not place:
        raise argparse.ArgumentTypeError(f"{word!r} is not NAME=PLACE")
    return Named(name, place, inputs.shown(place))


def digest_of(paths: Paths) -> str:
    """Returns the digest of some paths."""
    return sha256(b"\0".join(sorted(paths))).hexdigest()


class Request:
    """A build: its options, its definition, its sources, and its result."""

    def __init__(self, options: argparse.Namespace) -> None:
        self.options = options
        self.sources: list[Named] = options.source
        self.is_output = options.result in OUTPUTS
        self.result = options.result.rstrip("/") or "/"
        self.above = os.path.dirname(self.result) or "."
        self.ending = packing.PLAIN if self.is_output else packing.ending_of_result(options.result)
        self.data = b""
        self.config = b""
        # The paths that filters select of each source, None if all of it is given; and whose filters are applied.
        self.selected: list[Paths | None] = []
        self.filtered: set[str] = set()

    def places(self) -> list[str]:
        """Returns the places of all inputs."""
        config = [] if self.options.config is None else [self.options.config]
        return [*(source.place for source in self.sources), self.options.definition, *config]

    def check(self) -> None:
        """Refuses at the start what would make the build fail at its end, and reads the definition."""
        inputs.check_inputs(*self.places())
        if self.is_output and self.options.json:
            raise Refused("--json needs a RESULT that is not standard output")
        self.check_keep()
        if self.is_output:
            check_open(sys.stdout, "standard output")
        elif os.path.lexists(self.result):
            self.check_replaced()
        else:
            packing.check_ending(self.options.result)
        form = packing.form_of_name(self.result)
        if form:
            packing.check_form(form)
        if self.ending:
            entry_times.time_of_archive(self.options.mtime)
        if not os.path.isdir(self.above):
            raise Refused(f"there is no such directory: {self.above}")
        self.data = definition_at(self.options.definition, lambda: program_at(self.options.llbm))
        self.config = self.image_config()
        filters = Filters(self.data, are_applied=not self.options.no_filters)
        self.selected = [filters.selected(source.name, source.place) for source in self.sources]
        self.filtered = filters.applied

    def image_config(self) -> bytes:
        """Returns the configuration for an image as JSON; one that is given for another result is refused."""
        if self.options.config is None:
            return b"{}"
        if self.ending != packing.IMAGE:
            raise Refused(f"--config needs a RESULT that ends in {packing.IMAGE}: {self.options.result}")
        # Most builds need no configuration, nor what reads it.
        from llbm_tools.images import oci_layout

        return oci_layout.config_in(inputs.data_at(self.options.config), inputs.shown(self.options.config))

    def check_keep(self) -> None:
        """Refuses a file of --keep that is inside the result, an input, or what no build has kept.

        There has to be a result, in the place of an old one.
        """
        if self.options.keep is None:
            return
        if self.is_output or not self.options.replace:
            raise Refused("--keep needs --replace and a RESULT that is not standard output")
        inside, keep = (os.path.realpath(place) for place in (self.result, self.options.keep))
        if os.path.commonpath([inside, keep]) == inside:
            raise Refused(f"the file of --keep would be replaced with the result: {self.options.keep}")
        for given in self.places():
            if not inputs.is_standard_input(given) and os.path.realpath(given) == keep:
                raise Refused(f"the file of --keep would replace {given}")
        check_place(self.options.keep)

    def check_replaced(self) -> None:
        """Refuses a result that is there, unless it is to be replaced and is of the kind of the new one."""
        if not self.options.replace:
            raise Refused(f"this exists already, and --replace is not given: {self.result}")
        is_kind = os.path.isfile(self.result) if self.ending else os.path.isdir(self.result)
        if os.path.islink(self.result) or not is_kind:
            kind = "a file" if self.ending else "a directory"
            raise Refused(f"--replace puts {kind} only in the place of {kind}: {self.result}")
        if os.path.ismount(self.result):
            raise Refused(f"a mount point can't be replaced: {self.result}")
        replaced = os.path.realpath(self.result)
        for given in [*self.places(), "."]:
            inside = not inputs.is_standard_input(given) and os.path.realpath(given)
            if inside and os.path.commonpath([replaced, inside]) == replaced:
                raise Refused(f"the result would replace {'the folder of this build' if given == '.' else given}")

    def hidden(self) -> Iterator[os.stat_result]:
        """Yields what is no part of a source: the result that is replaced, and the file of --keep."""
        for place in (self.result, self.options.keep):
            if place is not None and not self.is_output and os.path.exists(place):
                yield os.stat(place)

    def asked(self) -> dict[str, object]:
        """Returns all that the result depends on, besides the trees of the sources."""
        program = shutil.which(program_place(self.options.llbm))
        others = ("source", "keep", "replace", "llbm", "json")
        options = {name: value for name, value in vars(self.options).items() if name not in others}
        sources = [[source.name, source.shown, os.path.abspath(source.place)] for source in self.sources]
        return {
            **options,
            "config": sha256(self.config).hexdigest(),
            "definition": sha256(self.data).hexdigest(),
            "program": [program, state_at(program) if program else None],
            "result": os.path.abspath(self.result),
            "selected": [None if paths is None else digest_of(paths) for paths in self.selected],
            "sources": sources,
            "time": entry_times.time_of_archive(self.options.mtime) if self.ending else None,
            "time is given": entry_times.is_given(self.options.mtime) if self.ending else None,
            "user": os.geteuid(),
        }
