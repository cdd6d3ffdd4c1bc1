"""Keeps a run in a folder of its own, which the page, `explain run` and `record trace` take.

The folder has `definition`; N.tree, the text of the tree of each local source, counted from 0; `sources`, a line
NAME=PATH for each of them; and `record`, the lines of a session that does the run on one thread to its end. It appears
complete, or not at all.
"""

import os
import pathlib
import shutil
import subprocess
import tempfile

from llbm_tools.running.program_words import Words
from llbm_tools.streams import Refused

DEFINITION, RECORD, SOURCES = "definition", "record", "sources"
TO_THE_END = b"go\n"


def check_new(folder: pathlib.Path) -> None:
    """Refuses a folder that can't be made."""
    if os.path.lexists(folder):
        raise Refused(f"this exists already: {folder}")
    if not folder.absolute().parent.is_dir():
        raise Refused(f"there is no such folder: {folder.parent}")


def recorded(program: str, options: list[str], folder: pathlib.Path, sources: list[str]) -> bytes:
    """Returns the lines that a session prints of the run."""
    words = [program, "step", *options, str(folder / DEFINITION), *sources]
    return subprocess.run(words, input=TO_THE_END, stdout=subprocess.PIPE, stderr=subprocess.DEVNULL).stdout


def options_in(words: list[str]) -> list[str]:
    """Returns the option with the number of workers, if it is among the words of a run."""
    for place, word in enumerate(words):
        if word.startswith("--workers"):
            return words[place : place + (1 if "=" in word else 2)]
    return []


def keep(program: str, words: list[str], read: Words, definition: bytes, folder: pathlib.Path) -> None:
    """Keeps the run of a definition with these words in a new folder."""
    place = folder.absolute()
    with tempfile.TemporaryDirectory(dir=place.parent, prefix=f".{place.name}-") as name:
        made = pathlib.Path(name) / "kept"
        made.mkdir()
        (made / DEFINITION).write_bytes(definition)
        lines, sources = [], []
        for number, source in enumerate(read.sources):
            shutil.copyfile(source.file, made / f"{number}.tree")
            sources.append(f"{source.name}={made / f'{number}.tree'}")
            lines.append(f"{source.name}={place / f'{number}.tree'}\n")
        (made / SOURCES).write_text("".join(lines), "utf-8", "surrogateescape")
        (made / RECORD).write_bytes(recorded(program, options_in(words), made, sources))
        made.rename(place)
