"""The object that a tool prints with --json in place of its lines, as docs/FORMATS.md says under "Objects of tools"."""

import io
import json
from collections.abc import Mapping

from llbm_tools.streams import write_output

Members = Mapping[str, object]


def value_of(value: object) -> str:
    """Returns a member's value in JSON: an array of objects has a line for each of them."""
    if isinstance(value, list) and value and all(isinstance(one, dict) for one in value):
        return "[\n" + ",\n".join(f"    {json.dumps(one)}" for one in value) + "\n  ]"
    return json.dumps(value)


def text_of(members: Members) -> str:
    """Returns the object with these members, each of which begins a line."""
    return "{\n" + ",\n".join(f"  {json.dumps(name)}: {value_of(value)}" for name, value in members.items()) + "\n}\n"


def write(members: Members) -> None:
    """Writes the object with these members to standard output."""
    write_output(io.BytesIO(text_of(members).encode("ascii")), "the output")
