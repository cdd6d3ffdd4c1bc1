"""The cases of dev/dev fuzz: their inputs, how they are tried, and what is stored of a case that fails.

A case depends only on the seed and its number, so it is the same in every run.
"""

import os
import pathlib
import random
import re
from typing import NamedTuple

from llbm_tools.building import sources_by_value
from llbm_tools.definitions import faults
from llbm_tools.fuzzing import changed_inputs, made_inputs, token_texts
from llbm_tools.fuzzing.limited_runs import Ran, Runner
from llbm_tools.fuzzing.made_inputs import one_in
from llbm_tools.fuzzing.run_checks import Broken, Graph, Rules, Session, caches_in, check_findings, need, tree_fault
from llbm_tools.llb import definition, messages
from llbm_tools.llb.wire import Unreadable
from llbm_tools.trees.content_tokens import MARK

FAULTY_LINE = re.compile(rb"fault 16[12] ([1-9][0-9]*)[ \n]")
POOL = 40
MOST_COMMANDS = 40
DEFINITION, TREE = "definition", "tree"
KINDS = ["run"] * 5 + ["session"] * 4 + ["entries"] * 3 + ["text"] * 3 + ["tree"] * 3 + ["commands"] * 2 + ["build"] * 2


def definition_of_source(name: str) -> bytes:
    """Returns the definition whose result is a local source."""
    source = messages.made("Op", source=messages.made("SourceOp", identifier=f"local://{name}"))
    terminal = messages.made("Op", inputs=(messages.edge(messages.encoded(source)),))
    return messages.definition_of([messages.encoded(source), messages.encoded(terminal)])


class Examples(NamedTuple):
    """The inputs that cases start from: definitions, texts of entries, texts of trees, and sessions."""

    definitions: list[bytes]
    texts: list[bytes]
    trees: list[bytes]
    sessions: list[bytes]


class Found(NamedTuple):
    """A finding: the number and the kind of its case, the broken rule, the runs, and the files that they read."""

    number: int
    kind: str
    cause: str
    runs: list[Ran]
    files: dict[str, bytes]


def examples_in(folder: pathlib.Path, program: Runner) -> Examples:
    """Returns the examples in a folder; the program assembles the texts."""
    texts = [place.read_bytes() for place in sorted([*folder.glob("*.text"), *folder.glob("*/*.text")])]
    definitions = [place.read_bytes() for place in sorted(folder.glob("*.definition"))]
    for text in texts:
        ran = program.run("asm", given=text)
        if ran.status == 0:
            definitions.append(ran.out)
    trees = [place.read_bytes() for place in sorted([*folder.glob("*.tree"), *folder.glob("*/*.tree")])]
    sessions = [place.read_bytes() for place in sorted(folder.glob("*.commands"))]
    return Examples(definitions, texts, trees, sessions)


class Case:
    """One case while it is tried: its random generator, the runs so far, and the files that they read."""

    def __init__(self, tried: "Cases", number: int) -> None:
        self.tried = tried
        self.number = number
        self.dice = random.Random(f"{tried.seed} {number}")
        self.kind = self.dice.choice(KINDS)
        self.runs: list[Ran] = []
        self.files: dict[str, bytes] = {}

    def run(self, *words: str, given: bytes = b"") -> Ran:
        """Runs the program, and checks the rules for every run."""
        ran = self.tried.runner.run(*words, given=given)
        self.runs.append(ran)
        self.tried.rules.check(ran)
        if words == ("show",):
            listed = self.tried.runner.run("show", "--findings", given=given)
            self.runs.append(listed)
            check_findings(ran, listed)
        return ran

    def file(self, name: str, content: bytes) -> str:
        """Writes a file of the case."""
        self.files[name] = content
        pathlib.Path(name).write_bytes(content)
        return name

    def made_definition(self) -> bytes:
        """Returns a random definition, or one of the examples."""
        if one_in(self.dice, 6):
            return self.dice.choice(self.tried.examples.definitions)
        return messages.definition_of([messages.encoded(op) for op in made_inputs.ops(self.dice)])

    def definition(self) -> bytes:
        """Returns a definition, in half of the cases a changed one."""
        data = self.made_definition()
        return data if one_in(self.dice, 2) else changed_inputs.changed_definition(self.dice, data)

    def sources(self, data: bytes) -> list[str]:
        """Returns words with trees for the local sources of a definition; now and then one is missing."""
        names = [name for name in self.tried.names if b"local://" + name.encode() in data]
        if names and one_in(self.dice, 40):
            names.pop()
        words = []
        for name in names:
            file = self.dice.choice(list(self.tried.trees))
            self.files[file] = self.tried.trees[file]
            words.append(f"{name}={file}")
        return words

    def try_run(self) -> None:
        """Checks that one and several workers print the same, and that `run` refuses what `show` refuses."""
        data = self.definition()
        words = self.sources(data)
        one = self.run("run", *words, given=data)
        if one.status == 0:
            need(tree_fault(one.out) is None, "the result is not the text of a tree")
        if one.status == 2:
            self.compare_refusals(one, self.run("show", given=data))
        several = self.run("run", "--workers", str(self.dice.choice([2, 2, 3, 4, 8])), *words, given=data)
        if caches_in(data) == []:
            need(several[2:] == one[2:], "several workers print something else than one")

    def compare_refusals(self, ran: Ran, shown: Ran) -> None:
        """Checks that a run is refused as its graph is, or because a local source has no tree."""
        if shown.status == 0:
            need(ran.err.startswith(b"fault 121 "), "run refuses what show accepts")
        else:
            need(ran.err == shown.err, "run and show refuse in different ways")

    def try_entries(self) -> None:
        """Checks that `dis` and `asm` return the same entries, and that `show` and the tools' reader agree."""
        data = self.definition()
        text = self.run("dis", given=data)
        if text.status == 2:
            shown = self.run("show", given=data)
            need(shown.err == b"fault 81 " + text.err.removeprefix(b"fault "), "dis and show refuse in different ways")
            return
        again = self.run("asm", given=text.out)
        need(again.status == 0, "asm refuses what dis prints")
        need(again.out == messages.definition_of(definition.entries_of(data)), "asm of dis returns other entries")
        if one_in(self.dice, 2):
            need(self.run("dis", given=again.out).out == text.out, "dis of asm of dis prints another text")
        elif (shown := self.run("show", given=data)).status == 0:
            graph = Graph(shown.out)
            read = definition.graph_of(definition.entries_of(data))
            agree = (read.inputs, read.result) == (graph.inputs, graph.result)
            need(agree, "show prints another graph than the entries have")

    def try_text(self) -> None:
        """Checks texts of entries; an unchanged random text comes back word for word."""
        if one_in(self.dice, 4):
            ops = made_inputs.ops(self.dice)
            text, entries = messages.text_of(ops), [messages.encoded(op) for op in ops]
            data = messages.definition_of(entries)
            need(self.run("asm", given=text).out == data, "asm of a random text returns other entries")
            need(self.run("dis", given=data).out == text, "dis of a random definition prints another text")
            return
        is_made = one_in(self.dice, 2)
        text = messages.text_of(made_inputs.ops(self.dice)) if is_made else self.dice.choice(self.tried.examples.texts)
        ran = self.run("asm", given=changed_inputs.changed_text(self.dice, text, "text"))
        if ran.status == 2:
            line = FAULTY_LINE.match(ran.err)
            need(line is not None and int(line[1]) <= ran.given.count(b"\n") + 1, "the faulty line is not in the text")
        elif ran.status == 0:
            shown = self.run("dis", given=ran.out)
            need(self.run("asm", given=shown.out).out == ran.out, "asm of dis of asm returns other entries")

    def try_tree(self) -> None:
        """Checks that a tree text is printed as it is, or refused at its first faulty line."""
        text = self.dice.choice(self.tried.examples.trees) if one_in(self.dice, 3) else made_inputs.tree(self.dice)
        if not one_in(self.dice, 8):
            text = changed_inputs.changed_text(self.dice, text, "tree")
        ran = self.run("run", f"p={self.file(TREE, text)}", given=definition_of_source("p"))
        fault = tree_fault(text)
        if fault is None:
            need((ran.status, ran.out) == (0, text), "a tree's text is not printed as it is")
        else:
            refused = (ran.status, ran.err) == (2, f"fault {fault}\n".encode())
            need(refused, f"a tree's text is not refused with fault {fault}")

    def session_words(self, data: bytes, words: list[str], workers: int) -> list[str]:
        """Returns the words that start a session."""
        given = ["--workers", str(workers)] if workers != 2 or one_in(self.dice, 2) else []
        return ["step", self.file(DEFINITION, data), *given, *words]

    def try_session(self) -> None:
        """Checks that a session ends like a run, whatever was done and undone in it before."""
        data = self.definition()
        words = self.sources(data)
        ran = self.run("run", *words, given=data)
        workers = self.dice.choice([1, 2, 2, 3])
        step = self.session_words(data, words, workers)
        if ran.status == 2:
            refused = self.run(*step, given=b"status\n")
            need(refused[2:] == ran[2:], "a session and a run refuse in different ways")
            return
        graph = Graph(self.run("show", given=data).out)
        commands = self.commands(graph, workers)
        ends = ["clear", "go", "status", "tree %d %d" % graph.result]
        lines = ["status", *(line for command in commands for line in (command, "status")), *ends]
        held = self.run(*step, given="".join(line + "\n" for line in lines).encode())
        need(held.status == 0, "a session fails")
        caches = caches_in(data)
        if caches is not None and not any(b"\n" in cache for cache in caches):
            self.tried.rules.check_answers(held.out)
            self.compare_session(Session(len(graph.steps), held.out), commands, ran if caches == [] else None)

    def commands(self, graph: Graph, workers: int) -> list[str]:
        """Returns commands that each move by one event, or commands of all kinds."""
        most = min(graph.events(), MOST_COMMANDS)
        if one_in(self.dice, 2):
            there, back = self.dice.randint(0, most), self.dice.randint(0, most)
            return ["next"] * there + ["back"] * back + ["go"] + ["back"] * most
        count = self.dice.randint(1, MOST_COMMANDS)
        return [made_inputs.command(self.dice, len(graph.steps), workers) for _ in range(count)]

    def compare_session(self, session: Session, commands: list[str], ran: Ran | None) -> None:
        """Checks that the answers of a session are consistent, and that it ends like a run without caches."""
        need(session.answer() == [], "a session does not begin with a status")
        session.status()
        for command in commands:
            before, answers = session.count, session.answer()
            session.status()
            need(command != "back" or session.count in (before, before - 1), "back undoes several events")
            need(command[:2] in ("go", "tr") or len(answers) <= 1, f"{command} has several answers")
        answers = session.answer()
        need(answers[-1:] == [b"end"], "go does not reach the end")
        last = session.status()
        tree = session.answer()
        need(session.place == len(session.lines), "a session has more answers than commands")
        if ran is None:
            return
        failed = [b"failed " + line.replace(b" failed", b"") for line in last if b" failed" in line]
        need(b"".join(line + b"\n" for line in failed) == ran.err, "a session and a run fail in different ways")
        printed = b"".join(line + b"\n" for line in tree)
        need(printed == (ran.out if ran.status == 0 else b"none\n"), "a session and a run end in different ways")

    def try_build(self) -> None:
        """Checks that tokens in the place of contents, put back in the result, make the result of the contents."""
        data = self.made_definition()
        words = self.sources(data)
        plan = sources_by_value.plan_of(data, self.tried.runner.program)
        if plan is None or plan.all:
            return
        table, short = token_texts.Contents(), []
        for word in words:
            name, _, file = word.partition("=")
            text = self.tried.trees[file]
            if plan.cause(os.fsencode(name)) and MARK in token_texts.contents_in(text):
                return
            given = text if plan.cause(os.fsencode(name)) else table.with_tokens(text)
            short.append(f"{name}={self.file(f'short-{file}', given)}")
        one, two = self.run("run", *words, given=data), self.run("run", *short, given=data)
        same = (two.status, table.expanded(two.out), two.err) == (one.status, one.out, one.err)
        need(same, "tokens in the place of contents make another result")

    def try_commands(self) -> None:
        """Checks the answers to lines that are mostly not commands."""
        data = self.made_definition()
        text = self.dice.choice(self.tried.examples.sessions)
        if one_in(self.dice, 2):
            lines = (made_inputs.command(self.dice, 4, 2) + "\n" for _ in range(self.dice.randint(1, 12)))
            text = "".join(lines).encode()
        for _ in range(self.dice.choice([1, 1, 2, 3])):
            text = changed_inputs.changed_lines(self.dice, text, "commands")
        held = self.run(*self.session_words(data, self.sources(data), 2), given=text)
        if caches_in(data) is not None and held.status == 0:
            self.tried.rules.check_answers(held.out)

    def found(self) -> Found | None:
        """Tries the case, and returns its finding if there is one."""
        try:
            {
                "run": self.try_run, "session": self.try_session, "entries": self.try_entries, "text": self.try_text,
                "tree": self.try_tree, "commands": self.try_commands, "build": self.try_build,
            }[self.kind]()
        except (Broken, Unreadable) as fault:
            return Found(self.number, self.kind, str(fault), self.runs, self.files)
        return None


class Cases:
    """All cases of a seed, in the folder of this process."""

    def __init__(self, runner: Runner, seed: int, examples: pathlib.Path) -> None:
        self.runner = runner
        self.seed = seed
        self.rules = Rules(faults.read_page())
        self.examples = examples_in(examples, runner)
        self.names = [*made_inputs.SOURCES, "project", "empty", "lower", "middle", "upper"]
        dice = random.Random(f"{seed} trees")
        pool = [*self.examples.trees, *(made_inputs.tree(dice) for _ in range(POOL))]
        self.trees = {f"{number}.tree": text for number, text in enumerate(pool)}
        for name, text in self.trees.items():
            pathlib.Path(name).write_bytes(text)

    def found(self, number: int) -> Found | None:
        """Tries the case with this number, and returns its finding if there is one."""
        return Case(self, number).found()


def store(found: Found, seed: int, folder: pathlib.Path, program: str) -> pathlib.Path:
    """Stores a finding in its own folder: the files of the case, and the commands that repeat it."""
    place = folder / f"case-{seed}-{found.number}"
    place.mkdir(parents=True, exist_ok=True)
    lines = []
    for number, ran in enumerate(found.runs):
        (place / f"input-{number}").write_bytes(ran.given)
        lines.append(ran.line(program, f"input-{number}"))
    for name, content in found.files.items():
        (place / name).write_bytes(content)
    (place / "output").write_bytes(found.runs[-1].out if found.runs else b"")
    (place / "error").write_bytes(found.runs[-1].err if found.runs else b"")
    (place / "cause").write_text(f"{found.kind}: {found.cause}\n", "utf-8", "backslashreplace")
    (place / "command").write_text("".join(line + "\n" for line in lines), "utf-8", "surrogateescape")
    return place


def finding_line(found: Found, program: str) -> str:
    """Returns a finding as a line: the case, the rule, and the last run."""
    last = found.runs[-1].line(os.path.basename(program), f"input-{len(found.runs) - 1}") if found.runs else "-"
    return f"case {found.number} ({found.kind}): {found.cause}: {last}"
