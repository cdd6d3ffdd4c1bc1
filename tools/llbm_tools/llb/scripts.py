"""Which words are scripts: the program says so of definitions that have an execution for each."""

from collections.abc import Iterable, Sequence

from llbm_tools.llb import messages
from llbm_tools.llb.findings import ENTRY, RULE, findings_of
from llbm_tools.llb.messages import made

# How many executions one definition has: a merge is on all of them, and no op has over 1,024 inputs.
MOST = 1_000
SCRIPT = "Script "

Words = tuple[str, ...]


def execution(words: Words) -> bytes:
    """Returns the entry of an execution with these words."""
    mount = made("Mount", input=-1, dest="/")
    held = made("ExecOp", meta=made("Meta", args=words), mounts=(mount,))
    return messages.encoded(made("Op", exec=held))


def definition_with(scripts: Sequence[Words]) -> bytes:
    """Returns a definition whose result needs an execution for each of some words; their rows are in their order."""
    executions = list(map(execution, scripts))
    edges = tuple(map(messages.edge, executions))
    merge = messages.encoded(made("Op", inputs=edges, merge=made("MergeOp")))
    last = messages.encoded(made("Op", inputs=(messages.edge(merge),)))
    return messages.definition_of([*executions, merge, last])


def faults_of(scripts: Iterable[Words], program: str) -> dict[Words, str]:
    """Returns why some of these words are no script, as the program prints it; those that are one are left out."""
    faults: dict[Words, str] = {}
    left = list(dict.fromkeys(scripts))
    while left:
        few, left = left[:MOST], left[MOST:]
        for one in findings_of(definition_with(few), program):
            if one.row is None or one.row >= len(few):
                continue
            if one.number == ENTRY:
                faults[few[one.row]] = one.words()
            elif one.number == RULE and one.rest.startswith(SCRIPT):
                faults[few[one.row]] = one.rest.removeprefix(SCRIPT)
    return faults
