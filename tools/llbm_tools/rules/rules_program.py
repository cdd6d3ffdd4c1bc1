"""The program `llbm-rules`, which has BuildKit's rules: where it is, and what its words answer.

It is what LLBM_RULES names, or else that of the repository or of the installation, or else the one on PATH.
"""

import json
import os
import shutil
import subprocess
from typing import Any

from llbm_tools import paths
from llbm_tools.streams import REFUSED, Failed, Refused

NAME = "llbm-rules"
VARIABLE = "LLBM_RULES"

Answer = dict[str, Any]


class Missing(Exception):
    """The program is not there; the message says which command makes it."""


def place() -> str:
    """Returns the path of the program."""
    named = os.environ.get(VARIABLE)
    for one in [named] if named else [str(paths.RULES), str(paths.INSTALLED_RULES), NAME]:
        if found := shutil.which(one):
            return found
    missing = f"{VARIABLE} names no program: {named}" if named else f"there is no program {NAME}"
    raise Missing(f"{missing}; dev/dev daemon of the repository builds it")


def output_of(word: str, *words: str, given: bytes = b"") -> bytes:
    """Returns what a word of the program prints."""
    done = subprocess.run([place(), word, *words], input=given, capture_output=True)
    if done.returncode:
        said = done.stderr.decode("utf-8", "backslashreplace").strip() or f"status {done.returncode}"
        raise Refused(said) if done.returncode == REFUSED else Failed(f"{NAME} {word}: {said}")
    return done.stdout


def answers(word: str, *words: str, given: bytes = b"") -> list[Answer]:
    """Returns the lines of JSON that a word of the program prints."""
    return [json.loads(line) for line in output_of(word, *words, given=given).splitlines()]
