"""What a tool says of bytes that it can't read as a definition: what is wrong, the file, and a hint if it is a text."""

import re

from llbm_tools.inputs import shown
from llbm_tools.llb import op_reading
from llbm_tools.llb.wire import Unreadable
from llbm_tools.streams import Refused

NO_TEXT = re.compile(rb"[^\t\n\r -~\x80-\xf4]")
HINT = "`llbm asm` makes a definition of a text of entries, BuildKit's client one of a Dockerfile"


def is_text(data: bytes) -> bool:
    """Returns whether bytes can't be read as a definition, and are a text."""
    try:
        op_reading.read_definition(data)
    except Unreadable:
        return bool(data.strip()) and not NO_TEXT.search(data)
    return False


def text_line(place: str | None) -> str:
    """Returns the line that says of a text at a place that it is no definition."""
    return f"not the bytes of a definition but a text: {shown(place)}; {HINT}"


def refusal(fault: Unreadable, data: bytes, place: str | None) -> Refused:
    """Returns the refusal of the bytes at a place, which are no definition because of this fault."""
    return Refused(text_line(place) if is_text(data) else f"not a definition: {fault}: {shown(place)}")


def check(data: bytes, place: str | None) -> None:
    """Refuses the bytes at a place if they are no definition, or none at all."""
    if not data:
        raise Refused(f"not a definition: there are no bytes: {shown(place)}")
    try:
        op_reading.read_definition(data)
    except Unreadable as fault:
        raise refusal(fault, data, place) from fault
