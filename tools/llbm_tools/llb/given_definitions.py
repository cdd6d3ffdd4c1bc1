"""A definition as a person gives it: its bytes, or the text of its entries, which the program assembles."""

import contextlib
import subprocess
from collections.abc import Callable

from llbm_tools.inputs import data_at, shown
from llbm_tools.llb import no_definition
from llbm_tools.streams import Refused


def assembled(program: str, text: bytes, place: str | None) -> bytes:
    """Returns the definition of a text of entries; a text that is none is refused, as no definition."""
    done = subprocess.run([program, "asm"], input=text, capture_output=True)
    if done.returncode:
        why = done.stderr.decode("utf-8", "backslashreplace").strip()
        raise Refused(f"{no_definition.text_line(place)} ({why})")
    return done.stdout


def bytes_at(place: str | None, program: Callable[[], str]) -> bytes:
    """Returns the bytes of the definition at a place, or what is there if it is none; only a text needs the program."""
    data = data_at(place)
    if no_definition.is_text(data):
        with contextlib.suppress(Refused):
            return assembled(program(), data, shown(place))
    return data


def definition_at(place: str | None, program: Callable[[], str]) -> bytes:
    """Returns the bytes of the definition at a place; `program` returns the program, which only a text needs.

    Bytes that are no definition are refused.
    """
    data = data_at(place)
    if no_definition.is_text(data):
        return assembled(program(), data, shown(place))
    no_definition.check(data, place)
    return data
