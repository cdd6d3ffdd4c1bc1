"""The names that a definition has for people: the name of each entry, and its place in the source that it was made
from.

The program skips both. `metadata` is a map from digests to messages: in these `description` (2), a map of texts, has
the name under `llb.customname`, or else the command of a Dockerfile under `com.docker.dockerfile.v1.command`; the group
is under `llb.customnamegroup`, or else it is the name in `progress_group` (6). `Source` has `locations` (1), a map from
digests to places, and `infos` (2), the files of these. What cannot be parsed is skipped, since nothing depends on it.
"""

from typing import NamedTuple

from llbm_tools.common import printable
from llbm_tools.llb import definition, wire

CUSTOM_NAME = "llb.customname"
CUSTOM_GROUP = "llb.customnamegroup"
COMMAND = "com.docker.dockerfile.v1.command"

Fields = dict[int, list[int | bytes]]


class Name(NamedTuple):
    """The name of an entry: row, digest, the number of its vertex if it is one, and texts, empty if absent."""

    row: int
    digest: str
    vertex: int | None
    text: str
    group: str
    place: str

    def shown(self) -> str:
        """Returns the name, the group if it differs, and the place as one text; empty if there are none."""
        group = f"[{self.group}]" if self.group not in ("", self.text) else ""
        place = f"({self.place})" if self.place else ""
        return printable(" ".join(filter(None, [self.text, group, place])))


def fields_of(data: bytes) -> Fields:
    """Returns the values of the records of a message, by field; empty if it cannot be parsed."""
    found: Fields = {}
    try:
        for record in wire.records(data):
            found.setdefault(record.field, []).append(record.held)
    except wire.Unreadable:
        return {}
    return found


def parts_of(fields: Fields, number: int) -> list[bytes]:
    """Returns the byte values of a field, one for each record."""
    return [held for held in fields.get(number, []) if isinstance(held, bytes)]


def message_of(fields: Fields, number: int) -> Fields:
    """Returns the message in a field that is not repeated."""
    return fields_of(b"".join(parts_of(fields, number)))


def text_of(fields: Fields, number: int) -> str:
    """Returns the text in a field."""
    held = parts_of(fields, number)[-1:]
    return held[0].decode("utf-8", "backslashreplace") if held else ""


def number_of(fields: Fields, number: int) -> int:
    """Returns the number in a field, as 31 bits, so that it is never negative."""
    held = [held for held in fields.get(number, []) if isinstance(held, int)]
    return held[-1] & 0x7FFF_FFFF if held else 0


def map_of(fields: Fields, number: int) -> dict[str, Fields]:
    """Returns a map from texts; each entry is a message with key (1) and value (2)."""
    entries = map(fields_of, parts_of(fields, number))
    return {text_of(entry, 1): entry for entry in entries}


def description_in(metadata: Fields) -> dict[str, str]:
    """Returns the texts in the metadata of an entry, by their keys."""
    return {key: text_of(entry, 2) for key, entry in map_of(metadata, 2).items()}


def descriptions_of(data: bytes) -> dict[str, dict[str, str]]:
    """Returns the texts in the metadata of a definition, by the digest of their entry."""
    entries = map_of(fields_of(data), 2).items()
    return {digest: description_in(message_of(entry, 2)) for digest, entry in entries}


def texts_of(metadata: Fields) -> tuple[str, str]:
    """Returns the name and the group in the metadata of an entry."""
    description = description_in(metadata)
    name = description.get(CUSTOM_NAME) or description.get(COMMAND) or ""
    return name, description.get(CUSTOM_GROUP) or text_of(message_of(metadata, 6), 2)


def place_of(locations: Fields, files: list[str]) -> str:
    """Returns the first place of an entry: its file, and the lines of its first range."""
    for location in map(fields_of, parts_of(locations, 1)):
        source = number_of(location, 1)
        if source >= len(files):
            continue
        ranges = list(map(fields_of, parts_of(location, 2)))[:1]
        lines = [number_of(message_of(one, end), 1) for one in ranges for end in (1, 2)]
        shown = [str(line) for line in dict.fromkeys(lines) if line]
        return ":".join(filter(None, [files[source], "-".join(shown)]))
    return ""


def vertices_of(entries: list[bytes]) -> dict[int, int]:
    """Returns the vertex of each row that has one; empty if the entries are not a graph."""
    try:
        return {row: vertex for vertex, row in enumerate(definition.graph_of(entries).rows)}
    except wire.Unreadable:
        return {}


def names_of(data: bytes) -> list[Name]:
    """Returns the name of each entry of a definition, in order. Among equal entries the first one has the vertex."""
    entries = definition.entries_of(data)
    fields = fields_of(data)
    metadata = map_of(fields, 2)
    source = message_of(fields, 3)
    files = [text_of(info, 1) for info in map(fields_of, parts_of(source, 2))]
    locations = map_of(source, 1)
    vertices = vertices_of(entries)
    names = []
    for row, entry in enumerate(entries):
        digest = definition.digest_of(entry)
        name, group = texts_of(message_of(metadata.get(digest, {}), 2))
        place = place_of(message_of(locations.get(digest, {}), 2), files)
        names.append(Name(row, digest, vertices.get(row), name, group, place))
    return names


def names_of_vertices(names: list[Name]) -> list[Name]:
    """Returns the names of the vertices, by number."""
    found = {name.vertex: name for name in names if name.vertex is not None}
    return [found[vertex] for vertex in sorted(found)]
