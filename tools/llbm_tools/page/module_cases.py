"""Cases that are answered by the module of WebAssembly in Node, and by the program: the same bytes are wanted.

A case is a command of the program with its inputs. Those of a folder are folders with `args` (one word a line),
`stdin`, the files that the words name, and the stored answers `stdout`, `stderr` and `status`. The module has no
words, files and threads: cases that are about these are left out.
"""

import base64
import json
import pathlib
import shutil
import subprocess
import tempfile
from collections.abc import Iterator
from typing import Any, NamedTuple

from llbm_tools import paths
from llbm_tools.page import assets, wasm_module
from llbm_tools.streams import Failed

NODE = "node"
RUNNER = pathlib.Path(__file__).with_name("module_answers.mjs")
MACHINE = assets.STATIC / "machine.mjs"
WITH_LOCALS = ("run", "step")
COMMANDS = ("run", "show", "asm", "dis", "step")
FORMS = {"findings": ("show", "--findings"), "plan": ("show", "--plan"), "ops": ("show", "--ops")}
USUAL_WORKERS = {"run": 1, "step": 2}
MOST_SECONDS = 600
AT_A_TIME = 100
# The fault of the program's words.
WORDS_FAULT = "fault 183"
LOOKING = (b"work ", b"caches", b"cache ", b"graph", b"digests")
LOOKS = b"next\nstatus\nwork %d\nwork %d 0\ncaches\ncache 0 0\ntree 0 0\ngraph\ndigests\n"


class Answer(NamedTuple):
    """The exit status, and what is written on standard output and standard error."""

    status: int
    out: bytes
    err: str


class Case(NamedTuple):
    """A case: its name, the command, and what the module is given; the stored answer if it has one."""

    name: str
    command: str
    definition: bytes
    locals: list[tuple[str, bytes]]
    workers: int
    commands: bytes
    stored: Answer | None = None

    def line(self) -> str:
        """Returns the case as a line of JSON."""
        given = {
            "command": self.command, "definition": base64_of(self.definition), "workers": self.workers,
            "locals": [(name, base64_of(text)) for name, text in self.locals], "commands": base64_of(self.commands),
        }  # fmt: skip
        return json.dumps(given) + "\n"


def base64_of(data: bytes) -> str:
    """Returns bytes in base64."""
    return base64.b64encode(data).decode()


def node() -> str | None:
    """Returns the path of Node, or None."""
    return shutil.which(NODE)


def stored_case(folder: pathlib.Path) -> Case | None:
    """Returns the case of a folder, or None if it is about words, files or threads."""
    words = (folder / "args").read_text("utf-8").split("\n")
    if words and words[-1] == "":
        words.pop()
    command = words.pop(0) if words and words[0] in COMMANDS else "run"
    stdin = (folder / "stdin").read_bytes()
    definition: bytes | None = None if command == "step" else stdin
    workers, given = USUAL_WORKERS.get(command, 1), []
    # The module always answers looks, so a session without them that asks for one is no case.
    if "--looks" in words and command == "step":
        words.remove("--looks")
    elif command == "step" and any(line.startswith(LOOKING) for line in stdin.split(b"\n")):
        return None
    while words:
        word = words.pop(0)
        name, mark, file = word.partition("=")
        if word == "--workers" and words and words[0].isdecimal() and command in WITH_LOCALS:
            workers = int(words.pop(0))
        elif mark and command in WITH_LOCALS and (folder / file).is_file():
            given.append((name, (folder / file).read_bytes()))
        elif command == "step" and definition is None and not mark and (folder / word).is_file():
            definition = (folder / word).read_bytes()
        else:
            return None
    if definition is None or (command == "run" and workers != 1) or workers >= 1 << 32:
        return None
    status = int((folder / "status").read_text("utf-8"))
    stored = Answer(status, (folder / "stdout").read_bytes(), (folder / "stderr").read_text("utf-8"))
    if stored.err.startswith(WORDS_FAULT):
        return None
    return Case(f"{folder.parent.name}/{folder.name}", command, definition, given, workers, stdin, stored)


def stored_cases(folder: pathlib.Path) -> Iterator[Case]:
    """Yields the cases of a folder and of those in it."""
    for args in sorted(folder.rglob("args")):
        case = stored_case(args.parent)
        if case:
            yield case


def example_cases(program: str) -> Iterator[Case]:
    """Yields cases of the repository's examples: each command on each of them, and sessions over it."""
    tour = (assets.EXAMPLES / "tour.commands").read_bytes()
    looks = b"".join(LOOKS % (number % 2, number % 2) for number in range(12))
    for example in assets.MENU:
        found = assets.shown(example)
        text = found.definition.read_bytes()
        given = [(name, file.read_bytes()) for name, file in found.locals.items()]
        definition = text
        if found.definition.suffix == ".text":
            definition = program_answer(program, Case("", "asm", text, [], 1, b"")).out
            yield Case(f"{example.name}: asm", "asm", text, [], 1, b"")
        for command in ("show", "findings", "plan", "ops", "dis", "run"):
            yield Case(f"{example.name}: {command}", command, definition, given, 1, b"")
        yield Case(f"{example.name}: run without trees", "run", definition, [], 1, b"")
        sessions = {"go": b"go\nback\nback\nstatus\nnext\nfoo\ngo\nquit\nnext\n", "looks": looks, "tour": tour}
        for name, commands in sessions.items():
            for workers in (1, 3):
                yield Case(f"{example.name}: {name}, {workers} workers", "step", definition, given, workers, commands)


def program_answer(program: str, case: Case) -> Answer:
    """Returns the program's answer to a case."""
    with tempfile.TemporaryDirectory(prefix="llbm-case-") as folder:
        words = list(FORMS.get(case.command, (case.command,)))
        stdin = case.definition
        if case.command == "step":
            pathlib.Path(folder, "definition").write_bytes(case.definition)
            words += ["definition", "--workers", str(case.workers), "--looks"]
            stdin = case.commands
        for number, (name, text) in enumerate(case.locals if case.command in WITH_LOCALS else []):
            pathlib.Path(folder, str(number)).write_bytes(text)
            words.append(f"{name}={number}")
        command = [str(pathlib.Path(program).absolute()), *words]
        done = subprocess.run(command, cwd=folder, input=stdin, capture_output=True, timeout=MOST_SECONDS)
        return Answer(done.returncode, done.stdout, done.stderr.decode("utf-8", "replace"))


def module_answers(module: pathlib.Path, cases: list[Case]) -> Iterator[Answer | str]:
    """Yields the module's answer to each case, or why it stopped."""
    for at in range(0, len(cases), AT_A_TIME):
        part = cases[at : at + AT_A_TIME]
        words = [NODE, str(RUNNER), str(MACHINE), str(module)]
        given = "".join(case.line() for case in part).encode()
        done = subprocess.run(words, input=given, capture_output=True)
        lines = done.stdout.decode("utf-8").splitlines()
        if done.returncode or len(lines) != len(part):
            raise Failed(f"node: {done.stderr.decode('utf-8', 'replace').strip()[-400:] or done.returncode}")
        yield from map(answer_of, lines)


def answer_of(line: str) -> Answer | str:
    """Returns the answer on a line of the runner."""
    told: dict[str, Any] = json.loads(line)
    if "trap" in told:
        return str(told["trap"])
    return Answer(told["status"], base64.b64decode(told["out"]), told["err"])


def without_help(answer: Answer) -> Answer:
    """Returns an answer whose messages are its lines of faults and failures."""
    lines = [line for line in answer.err.splitlines(keepends=True) if line.startswith(("fault ", "failed "))]
    return answer._replace(err="".join(lines))


def differences(module: pathlib.Path, program: str | None, cases: list[Case]) -> Iterator[tuple[Case, str]]:
    """Yields for each case what differs; nothing where the answers are the same, byte for byte."""
    for case, answer in zip(cases, module_answers(module, cases), strict=True):
        wanted = case.stored or program_answer(str(program), case)
        if isinstance(answer, str):
            yield case, f"the module stopped: {answer}"
        elif without_help(answer) == without_help(wanted):
            yield case, ""
        else:
            parts = [name for name, a, b in zip(Answer._fields, answer, wanted, strict=True) if a != b]
            yield case, f"the module's {', '.join(parts)} differ: {str(answer)[:160]}, not {str(wanted)[:160]}"


def cases_for(folder: pathlib.Path | None, program: str) -> list[Case]:
    """Returns the cases of the examples, and those of a folder if one is given."""
    return [*example_cases(program), *(stored_cases(folder) if folder else ())]


# A file that each command doubles, and the lines of a session over it.
DOUBLED = """op {
  exec {
    meta {
      args "/bin/sh"
      args "-c"
      args "write /a 0123456789abcdef%s"
      cwd "/"
    }
    mounts {
      input -1
      dest "/"
    }
  }
}
op {
  inputs {
    digest %%0
  }
}
"""
DOUBLINGS = 10
EVENTS = 2 * DOUBLINGS + 3
PAGES = 64


def refused_memory(module: pathlib.Path, program: str) -> str:
    """Returns what is wrong in a session whose module has 4 MiB of memory to grow by, or nothing.

    The refusal of an event changes nothing and ends nothing: the record up to it is the program's, each event that is
    tried again is refused again, the vertex is still running, and the last event can be taken back.
    """
    text = DOUBLED % (" && concat /b /a /a && concat /a /b /b" * DOUBLINGS)
    definition = program_answer(program, Case("", "asm", text.encode(), [], 1, b"")).out
    commands = b"next\n" * EVENTS + b"status\nback\n"
    case = Case("refused memory", "step", definition, [], 1, commands)
    wanted = program_answer(program, case).out.decode().splitlines()
    with tempfile.TemporaryDirectory(prefix="llbm-module-") as folder:
        small = pathlib.Path(folder, "small.wasm")
        small.write_bytes(wasm_module.with_most_memory(module.read_bytes(), PAGES))
        answer = next(module_answers(small, [case]))
    if isinstance(answer, str):
        return f"the module stopped: {answer}"
    found = answer.out.decode().splitlines()
    done = next((number for number, line in enumerate(found) if line.startswith("fault ")), EVENTS)
    if not 1 < done < EVENTS:
        return f"{done} of {EVENTS} events were done"
    rest = ["fault 171 141"] * (EVENTS - done) + ["0 running 0", f"back {done - 1}"]
    return "" if found == wanted[:done] + rest else f"the session's lines are {found}"


MODULE = paths.ROOT / "out" / "page" / assets.MODULE
