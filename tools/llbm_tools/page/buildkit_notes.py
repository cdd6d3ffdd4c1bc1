"""What ends otherwise in BuildKit in a build that the page opens, as `explain buildkit` finds it, by vertex, step."""

import json
import pathlib
import subprocess
import tempfile

from llbm_tools import common
from llbm_tools.commands import line_of
from llbm_tools.sessions.builds import Build

MOST_SECONDS = 60


def definition_of(build: Build, program: str, folder: str) -> pathlib.Path | None:
    """Returns the file of a build's definition; a text is assembled into a folder."""
    place = build.place(build.definition)
    if place is None or not build.definition.endswith(".text"):
        return place
    made = pathlib.Path(folder, "definition")
    with place.open("rb") as text, made.open("wb") as output:
        done = subprocess.run([program, "asm"], stdin=text, stdout=output, stderr=subprocess.DEVNULL)
    return None if done.returncode else made


def differences_of(build: Build, program: str) -> list[dict[str, object]]:
    """Returns what `explain buildkit` finds; nothing if it can't tell, as for a definition that llbm refuses."""
    with tempfile.TemporaryDirectory(prefix="llbm-page-") as folder:
        definition = definition_of(build, program, folder)
        trees = {name: build.place(file) for name, file in build.trees.items()}
        if definition is None or None in trees.values():
            return []
        given = [f"{name}={at}" for name, at in trees.items()]
        words = line_of("explain buildkit", "--json", "--llbm", program, str(definition), *given)
        try:
            done = subprocess.run(words, stdin=subprocess.DEVNULL, capture_output=True, timeout=MOST_SECONDS)
        except subprocess.TimeoutExpired:
            return []
        found: list[dict[str, object]] = json.loads(done.stdout)["differences"] if done.returncode < 2 else []
        return found


def notes_of(build: Build, llbm: str | None) -> list[object]:
    """Returns the notes of a build's vertices: the vertex, the action if it is one, and what differs there."""
    program = str(pathlib.Path(common.program_place(llbm)).absolute())
    if not pathlib.Path(program).is_file():
        return []
    found = [one for one in differences_of(build, program) if one["vertex"] is not None]
    return [
        {"vertex": one["vertex"], "action": one["action"], "words": common.printable(str(one["text"]))} for one in found
    ]
