"""Tries commands on the trees of a run that has stopped: in a run of their own, so the one that is stopped keeps its
trees."""

import os
import pathlib
import tempfile
from collections.abc import Iterator
from typing import NamedTuple

from llbm_tools import common
from llbm_tools.debugging import event_lines, launching, worker_trees
from llbm_tools.debugging.last_event import Watch
from llbm_tools.debugging.launching import Launched
from llbm_tools.llb import definition, messages
from llbm_tools.llb.messages import made
from llbm_tools.llb.ops import Meta, Mount
from llbm_tools.streams import Refused


class Stage(NamedTuple):
    """Where commands are tried: mounts, each with the line that prints its tree, and the meta of an execution."""

    mounts: list[tuple[Mount, str]]
    meta: Meta


def stage_of_output(command: str) -> Stage:
    """Returns the stage with one tree, at the root."""
    return Stage([(Mount(dest="/"), command)], Meta(cwd="/"))


def stage_of(launched: Launched, worker: int, vertex: int) -> Stage:
    """Returns where a command is tried for a worker's vertex: the mounts of an execution, or its last tree."""
    session, known = launched.session, launched.graph.vertices[vertex]
    if session.runs[worker] is None:
        if known.outputs == 0 or session.tree(vertex, 0) is None:
            raise Refused(f"vertex {vertex} has no output on which a command could be tried")
        return stage_of_output(f"tree {vertex} 0")
    parts = worker_trees.parts_of(session, worker)
    if not parts:
        raise Refused(f"worker {worker} has no tree yet on which a command could be tried")
    if known.op.exec:
        mounts = [(mount, f"work {worker} {part.number}") for part, mount in zip(parts, known.op.exec.mounts)]
        return Stage(mounts, known.op.exec.meta or Meta())
    return stage_of_output(f"work {worker} {parts[-1].number}")


def mount_of(number: int, output: int, mount: Mount) -> messages.Message:
    """Returns a bind mount of an input with the place of another mount; an output of -1 is none."""
    return made(
        "Mount", input=number, selector=mount.selector, dest=mount.dest, output=output, readonly=mount.readonly
    )


def definition_of(stage: Stage, words: str) -> bytes:
    """Returns the definition of the commands on local sources that are named by the numbers of the mounts."""
    sources = [
        messages.encoded(made("Op", source=made("SourceOp", identifier=f"local://{number}")))
        for number in range(len(stage.mounts))
    ]
    writable = [number for number, (mount, _) in enumerate(stage.mounts) if not mount.readonly]
    if not writable:
        raise Refused("no mount can be written, so a command would have no result")
    outputs = {number: output for output, number in enumerate(writable)}
    mounts = [mount_of(number, outputs.get(number, -1), mount) for number, (mount, _) in enumerate(stage.mounts)]
    meta = made("Meta", args=(*definition.SHELL, words), env=stage.meta.env, cwd=stage.meta.cwd)
    inputs = tuple(messages.edge(source) for source in sources)
    entry = messages.encoded(made("Op", inputs=inputs, exec=made("ExecOp", meta=meta, mounts=tuple(mounts))))
    last = messages.encoded(made("Op", inputs=(messages.edge(entry),)))
    return messages.definition_of([*sources, entry, last])


def stored(launched: Launched, stage: Stage, folder: str) -> dict[str, str]:
    """Writes the trees of the mounts to files of a folder, and returns their places by the names of the sources."""
    places = {}
    for number, (_, command) in enumerate(stage.mounts):
        place = os.path.join(folder, f"{number}.tree")
        lines = launched.session.tree_by(command) or []
        pathlib.Path(place).write_bytes(b"".join(line + b"\n" for line in lines))
        places[str(number)] = place
    return places


def steps_of(tried: Launched, most: int) -> Iterator[str]:
    """Yields what each command did in a run of its own."""
    watch = Watch(tried.session, tried.graph, tried.entries.data)
    while event := tried.session.event("next"):
        happened = watch.last(most) if event.kind == "step" and event.reply != "read" else None
        if happened:
            yield happened.text
            yield from (f"  {line}" for line in event_lines.changed_lines(happened, most))


def tried_lines(launched: Launched, program: str, stage: Stage, words: str, most: int) -> list[str]:
    """Returns what commands do on a stage, as lines. The run that is stopped stays as it is."""
    with tempfile.TemporaryDirectory(prefix="llbm-try-") as folder:
        file = os.path.join(folder, "definition")
        pathlib.Path(file).write_bytes(definition_of(stage, words))
        given = {"definition": file, "sources": stored(launched, stage, folder), "workers": 1, "llbm": program}
        tried = launching.launch(given, common.say)
        try:
            return list(steps_of(tried, most))
        finally:
            tried.session.end()
