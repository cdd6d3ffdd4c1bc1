"""The time of the entries of a result: that of --mtime, or SOURCE_DATE_EPOCH."""

import argparse
import os
import re

from llbm_tools.streams import Refused

MOST_SECONDS = (1 << 33) - 1
VARIABLE = "SOURCE_DATE_EPOCH"


def is_time(text: str) -> bool:
    """Returns whether a text is a number of seconds that an archive can have."""
    return bool(re.fullmatch(r"0|[1-9][0-9]{0,9}", text)) and int(text) <= MOST_SECONDS


def seconds_of(text: str) -> int:
    """Parses the time of --mtime."""
    if not is_time(text):
        raise argparse.ArgumentTypeError(f"{text!r} is not a decimal of at most {MOST_SECONDS}")
    return int(text)


def is_given(given: int | None) -> bool:
    """Returns whether a time is given, by --mtime or by SOURCE_DATE_EPOCH."""
    return given is not None or bool(os.environ.get(VARIABLE))


def time_of_archive(given: int | None) -> int:
    """Returns the time of --mtime, or else that of SOURCE_DATE_EPOCH, or else 0."""
    text = os.environ.get(VARIABLE, "")
    if given is not None or not text:
        return given or 0
    if not is_time(text):
        raise Refused(f"not a decimal of at most {MOST_SECONDS}: {VARIABLE}={text!r}")
    return int(text)
