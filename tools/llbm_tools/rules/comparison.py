"""A session of `llbm-rules compare`: where BuildKit ends otherwise, vertex by vertex.

The program is given a request, and prints messages, each of them a line of JSON
(daemon/internal/comparison/protocol.go). It asks what executions made, and is given a reply for each question; trees
are in files.
"""

import contextlib
import functools
import json
import pathlib
import subprocess
import tempfile
from collections.abc import Callable, Iterator, Mapping
from typing import IO, NamedTuple

from llbm_tools.rules import rules_program
from llbm_tools.rules.rule_words import INHERITED, more_paths
from llbm_tools.rules.rules_program import Answer
from llbm_tools.streams import REFUSED, Failed, Refused

# The action of what is about a vertex as a whole.
WHOLE = -1
MOST_PATHS = 20
# More lines than a step has: those with the same rules are not counted by the program.
MOST_LINES = 1_000_000

Tree = list[bytes]
StepLines = dict[int, list[str]]
# What an execution made: the trees of its outputs, None if it failed.
Outputs = list[Tree] | None


class Unknown(Exception):
    """What an execution made is not known; the message says why."""


class Later(Exception):
    """What an execution makes is not known yet."""


class End(NamedTuple):
    """The end of a comparison: whether the results agree, in words, why BuildKit has none, and its tree."""

    agree: bool
    words: str
    fails: str
    tree: pathlib.Path | None


class Executions(NamedTuple):
    """What executions made here, and what they make of other inputs, which are in files, if that can be found out; and
    the entries of the vertices, by the numbers that vertices have here."""

    made: Callable[[int], Outputs]
    make: Callable[[int, list[str]], Outputs] | None = None
    entries: list[int] | None = None


def path_of(file: IO[bytes]) -> str:
    """Returns the path of an open file in a program that it is passed to."""
    return f"/proc/self/fd/{file.fileno()}"


class Comparison:
    """A comparison of a definition, given open files with its sources' trees by name, and the result if it is known.
    Its lines are known step by step. `further` has members of the request; with `rewrite` the program says which
    definition is to run, and `vertices` have its vertices by row."""

    def __init__(
        self, data: bytes, sources: Mapping[str, IO[bytes]], executions: Executions, paths: int = MOST_PATHS,
        tree: bool = False, made: Tree | None = None, further: Answer | None = None,
    ) -> None:
        self.executions = executions
        self.run: Answer | None = None
        self.vertices: dict[int, int] = {}
        # The vertices at which BuildKit would follow a symbolic link, with words that say which.
        self.follows: list[tuple[int, str]] = []
        self.paths = paths
        self.closing = contextlib.ExitStack()
        self.steps: dict[int, StepLines] = {}
        self.end: End | None = None
        self.question: Answer | None = None
        self.error = self.closing.enter_context(tempfile.TemporaryFile())
        definition = self.closing.enter_context(tempfile.TemporaryFile())
        definition.write(data)
        definition.flush()
        self.process = subprocess.Popen(
            [rules_program.place(), "compare"], stdin=subprocess.PIPE, stdout=subprocess.PIPE, stderr=self.error,
            pass_fds=[file.fileno() for file in (definition, *sources.values())],
        )  # fmt: skip
        self.closing.callback(self.stop)
        folder = {"folder": str(self.folder)} if tree or executions.make or further else {}
        numbered = {"numbered": executions.entries} if executions.entries else {}
        self.send({
            "sent": path_of(definition), "sources": {name: path_of(file) for name, file in sources.items()},
            "executes": executions.make is not None, **folder, **numbered, "paths": MOST_LINES, "result": True,
            "tree": tree, **({} if made is None else {"made": self.stored(made)}), **(further or {}),
        })  # fmt: skip

    @functools.cached_property
    def folder(self) -> pathlib.Path:
        """The folder of trees that are written, which is made when it is needed."""
        return pathlib.Path(self.closing.enter_context(tempfile.TemporaryDirectory(prefix="llbm-comparing-")))

    def stop(self) -> None:
        """Ends the program."""
        for stream in (self.process.stdin, self.process.stdout):
            if stream:
                with contextlib.suppress(OSError):
                    stream.close()
        self.process.kill()
        self.process.wait()

    def close(self) -> None:
        """Ends the program, and removes its files."""
        self.closing.close()

    def send(self, line: Answer) -> None:
        """Sends a line; where the program has ended, its end is read next."""
        with contextlib.suppress(BrokenPipeError):
            if self.process.stdin:
                self.process.stdin.write(json.dumps(line).encode("utf-8") + b"\n")
                self.process.stdin.flush()

    def message(self) -> Answer:
        """Reads a message; raises Refused or Failed if the program ended by itself."""
        line = self.process.stdout.readline() if self.process.stdout else b""
        if line:
            found: Answer = json.loads(line)
            return found
        status = self.process.wait()
        self.error.seek(0)
        said = self.error.read().decode("utf-8", "backslashreplace").strip() or f"status {status}"
        raise Refused(said) if status == REFUSED else Failed(f"{rules_program.NAME} compare: {said}")

    def go(self, defers: bool = False) -> None:
        """Goes on until the end, or until what an execution makes is not known yet; with `defers` each such question is
        put off once, since another execution may have ended."""
        deferred: set[int] = set()
        while self.end is None:
            if self.question:
                vertex = self.question["vertex"]
                reply = self.reply(self.question)
                if reply is None and (not defers or vertex in deferred):
                    return
                deferred.add(vertex)
                self.send({"vertex": vertex, **(reply or {"later": True})})
            self.question = None
            self.take(self.message())

    def take(self, message: Answer) -> None:
        """Takes a message."""
        if run := message.get("run"):
            self.run = run
        elif follows := message.get("follows"):
            self.follows.append((follows["vertex"], follows["words"]))
        elif step := message.get("step"):
            self.steps.setdefault(step["vertex"], {}).setdefault(step["action"], []).extend(self.lines_of(step))
        elif end := message.get("end"):
            tree = pathlib.Path(end["tree"]) if end.get("tree") else None
            self.end = End(end["agree"], end.get("words", ""), end.get("fails", ""), tree)
        else:
            self.question = message.get("needs") or message["execute"]

    def reply(self, question: Answer) -> Answer | None:
        """Returns the reply to a question, or None if it is not known yet."""
        vertex, inputs = self.vertices.get(question["row"], question["vertex"]), question.get("inputs")
        try:
            made = self.executions.make
            found = made(vertex, inputs) if made and inputs is not None else self.executions.made(vertex)
        except Unknown:
            return {"unknown": True}
        except Later:
            return None
        return {"failed": True} if found is None else {"outputs": list(map(self.stored, found))}

    def stored(self, tree: Tree) -> str:
        """Writes a tree into a file, and returns its path."""
        with tempfile.NamedTemporaryFile(dir=self.folder, delete=False) as file:
            file.writelines(tree)
        return file.name

    def lines_of(self, step: Answer) -> list[str]:
        """Returns the lines of a step: those of the first paths, and one that counts the others."""
        lines = [f"{one['words']}: {', '.join(one['notes'] or [INHERITED])}" for one in step["lines"]]
        more = len(lines) - self.paths
        return [*lines[: self.paths], more_paths(more, step.get("more", False))] if more > 0 else lines


@contextlib.contextmanager
def stored_trees(sources: Mapping[str, Tree]) -> Iterator[dict[str, IO[bytes]]]:
    """Yields files with trees, by their names."""
    with contextlib.ExitStack() as kept:
        files = {name: kept.enter_context(tempfile.TemporaryFile()) for name in sources}
        for name, tree in sources.items():
            files[name].writelines(tree)
            files[name].flush()
        yield files


def of_trees(data: bytes, sources: Mapping[str, Tree]) -> tuple[End, Tree | None]:
    """Returns the end of the comparison of a definition without executions, and BuildKit's tree if there is one."""
    with stored_trees(sources) as files, contextlib.closing(
        Comparison(data, files, Executions(lambda _: None), tree=True)
    ) as comparison:
        comparison.go()
        if comparison.end is None:
            raise Failed(f"{rules_program.NAME} compare has not ended")
        tree_file = comparison.end.tree
        return comparison.end, tree_file.read_bytes().splitlines(keepends=True) if tree_file else None
