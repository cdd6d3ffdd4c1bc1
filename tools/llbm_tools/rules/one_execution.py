"""Runs one execution by the program, on trees that are given."""

import subprocess

from llbm_tools.llb import definition, messages
from llbm_tools.llb.definition import Graph
from llbm_tools.llb.messages import made
from llbm_tools.llb.ops import CACHE
from llbm_tools.llb.rewriting import changed, placed
from llbm_tools.llb.wire import record_of
from llbm_tools.rules.comparison import Outputs, Tree
from llbm_tools.streams import Refused

FAILED = 1
INPUTS = 1


class NotKnown(Refused):
    """What an execution makes is not known; the message says why."""


class Program:
    """The program, and the definition of which executions are run."""

    def __init__(self, program: str, graph: Graph, entries: list[bytes]) -> None:
        self.program = program
        self.graph = graph
        self.entries = entries

    def definition(self, vertex: int, output: int) -> bytes:
        """Returns the definition of an execution alone: its inputs are local sources with their numbers as names."""
        count = len(self.graph.inputs[vertex])
        sources = [
            messages.encoded(made("Op", source=made("SourceOp", identifier=f"local://{number}")))
            for number in range(count)
        ]
        edges = [record_of(INPUTS, messages.encoded(messages.edge(source))) for source in sources]
        entry = changed(self.entries[self.graph.rows[vertex]], lambda records: placed(records, INPUTS, edges))
        last = messages.encoded(made("Op", inputs=(messages.edge(entry, output),)))
        return messages.definition_of([*sources, entry, last])

    def run(self, vertex: int, files: list[str]) -> Outputs:
        """Returns the outputs of an execution on inputs in files, or None if its script fails."""
        op = definition.op_of(self.graph.rows[vertex], self.entries[self.graph.rows[vertex]])
        mounts = op.exec.mounts if op.exec else ()
        if any(mount.mount_type == CACHE for mount in mounts):
            cause = "mounts a cache, and its inputs differ in BuildKit: its outputs are unknown"
            raise NotKnown(f"vertex {vertex} {cause}")
        words = [f"{number}={file}" for number, file in enumerate(files)]
        outputs = sorted(mount.output for mount in mounts if mount.output >= 0)
        found = [self.output(vertex, output, words) for output in outputs]
        return None if None in found else [one for one in found if one is not None]

    def output(self, vertex: int, output: int, words: list[str]) -> Tree | None:
        """Returns an output of an execution, or None if its script fails."""
        done = subprocess.run(
            [self.program, "run", *words], input=self.definition(vertex, output), capture_output=True
        )
        if done.returncode == FAILED:
            return None
        if done.returncode:
            raise NotKnown(f"vertex {vertex}: {done.stderr.decode('utf-8', 'backslashreplace').strip()}")
        return done.stdout.splitlines(keepends=True)
