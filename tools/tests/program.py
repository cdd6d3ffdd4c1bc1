"""Tests of the tools with the program llbm, skipped if it is not there."""

import json
import os
import pathlib
import re
import resource
import subprocess

from llbm_tools.definitions import faults, next_commands
from llbm_tools.fuzzing import limited_runs
from tests import base
from tests.base import ROOT, run

EXAMPLES = ROOT / "examples"
DEEPEST = 65_535
STACK = 256 << 10
DOUBLINGS = 20
# The forms of the command line, as the pages of --help have them.
COMMAND_LINES = [
    "run [--workers N] [NAME=FILE ...]", "show", "show --findings", "show --plan", "show --matches OLD", "show --ops",
    "show --agrees NEW --older NAME=OLD [--older NAME=OLD ...]",
    "step [--workers N] [--looks] [--ends] FILE [NAME=FILE ...]", "asm", "dis", "[run|show|step|asm|dis] --help",
    "--version",
]  # fmt: skip


def narrow():
    """Limits this process to a small stack: less than four bytes for each vertex of the deepest graph."""
    _, hard = resource.getrlimit(resource.RLIMIT_STACK)
    resource.setrlimit(resource.RLIMIT_STACK, (STACK, hard))


class WithProgram(base.WithProgram):
    """The tools and the program read each other's texts."""

    def setUp(self):
        super().setUp()
        self.at = pathlib.Path(os.fsdecode(self.folder))

    def llbm(self, *words, given, **settings):
        """Runs the program on this input."""
        return subprocess.run([base.llbm, *words], input=given, capture_output=True, timeout=base.GUARD, **settings)

    def output(self, *words, given, **settings):
        """Returns what the program prints; it has to succeed."""
        done = self.llbm(*words, given=given, **settings)
        self.assertEqual((done.returncode, done.stderr), (0, b""), words)
        return done.stdout

    def definitions(self):
        """Yields the definitions of the examples with their names."""
        for place in sorted(EXAMPLES.glob("*.definition")):
            yield place.stem, place.read_bytes()
        for place in sorted(EXAMPLES.glob("*/definition.text")):
            yield place.parent.name, self.output("asm", given=place.read_bytes())

    def build(self, given, *words, result="out"):
        """Builds a definition, with these words after RESULT."""
        options = [word for word in words if word.startswith("--")]
        sources = [word for word in words if not word.startswith("--")]
        place = self.file(b"definition", given)
        return run("build", "--llbm", base.llbm, *options, place, self.at / result, *sources)

    def text_of(self, name):
        """Returns the text of a directory, with owner 0:0."""
        done = run("tree-of-directory", "--owner", "0:0", self.at / name)
        self.assertEqual(done.returncode, 0)
        return done.stdout

    def test_a_directory_goes_through_the_program(self):
        self.make(b"a/b/c", bytes(range(256)), mode=0o6711)
        self.make(b"a-b", b"", mode=0o400)
        self.make("\N{GREEK SMALL LETTER ALPHA} b".encode(), b"x" * 10_000)
        given = base.ending(base.source("local://src"))
        text = self.text_of("in")
        output = self.output("run", f"src={os.fsdecode(self.file(b'text', text))}", given=given)
        self.assertEqual(output, text)
        done = self.build(given, f"src={self.at / 'in'}")
        self.assertEqual(done.returncode, 0, done.stderr)
        self.assertEqual(self.text_of("out"), text)

    def test_the_example_is_built(self):
        tree = EXAMPLES / "tour.tree"
        given = (EXAMPLES / "tour.definition").read_bytes()
        self.check_success(run("directory-of-tree", self.at / "source", text=tree.read_bytes()))
        text = self.output("run", f"source={tree}", given=given)
        for workers in ["--workers=1", "--workers=4"]:
            done = self.build(given, workers, f"source={self.at / 'source'}", result=workers)
            self.assertEqual(done.returncode, 0, done.stderr)
            self.assertEqual(self.text_of(workers), text)

    def test_a_run_is_kept_in_a_folder(self):
        tree, definition = EXAMPLES / "tour.tree", EXAMPLES / "tour.definition"
        given = definition.read_bytes()
        words = ["run", "--llbm", base.llbm, "--record", self.at / "kept", "run", "--workers", "2", f"source={tree}"]
        done = run(*words, text=given)
        self.assertEqual((done.returncode, done.stderr), (0, b""))
        self.assertEqual(done.stdout, self.output("run", f"source={tree}", given=given))
        session = self.output("step", "--workers", "2", definition, f"source={tree}", given=b"go\n")
        kept = {path.name: path.read_bytes() for path in (self.at / "kept").iterdir()}
        named = f"source={self.at / 'kept' / '0.tree'}\n".encode()
        wanted = {"definition": given, "0.tree": tree.read_bytes(), "sources": named, "record": session}
        self.assertEqual(kept, wanted)
        done = run(*words, text=given)
        self.check_run(done, 2, b"", f"this exists already: {self.at / 'kept'}\n".encode())

    def test_a_run_that_is_refused_or_is_none_is_not_kept(self):
        definition = EXAMPLES / "tour.definition"
        for words, line in [(["run"], b"fault 121 source\n"), (["show"], b"--record is for `run` alone\n")]:
            done = run("run", "--llbm", base.llbm, "--record", self.at / "kept", *words, text=definition.read_bytes())
            self.assertEqual((done.returncode, done.stdout), (2, b""))
            self.assertTrue(done.stderr.startswith(line), done.stderr)
            self.assertFalse((self.at / "kept").exists())

    def test_graphs_are_numbered_as_the_program_numbers_them(self):
        for name, given in self.definitions():
            text = self.output("show", given=given)
            done = run("graph-of-show", "--definition", self.file(b"definition", given), text=text)
            self.assertEqual((done.returncode, done.stderr), (0, b""), name)
            self.assertEqual(done.stdout.count(b"shape="), text.count(b"\n"), name)

    def test_entries_in_another_order_have_the_right_labels(self):
        one, two, three = (base.source(f"local://{name}") for name in "abc")
        lower = base.file_op(base.rm("/a"), on=[three])
        upper = base.merge(two, lower, one)
        given = base.definition(upper, three, two, lower, one, two, base.file_op(base.rm("/b")), base.inputs(upper))
        text = self.output("show", given=given)
        done = run("graph-of-show", "--definition", self.file(b"definition", given), text=text)
        self.assertEqual((done.returncode, done.stderr), (0, b""))
        labels = [r"0 source\nlocal://c", r"1 source\nlocal://b", r"2 file\nrm /a", r"3 source\nlocal://a", "4 merge"]
        for label in labels:
            self.assertIn(f'label="{label}"'.encode(), done.stdout)

    def test_a_failure_is_explained(self):
        folder = EXAMPLES / "failure"
        given = self.output("asm", given=(folder / "definition.text").read_bytes())
        (self.at / "empty").mkdir()
        done = self.build(given, f"empty={self.at / 'empty'}")
        self.assertEqual(done.returncode, 1)
        lines = done.stderr.decode().splitlines()
        place = lines.index("failed 1 command 1 status 1")
        self.assertIn("  command 1: cp /none /b", lines[place:])
        self.assertEqual(lines[-1], "nothing is written")
        self.assertFalse((self.at / "out").exists())

    def test_refusals_are_explained(self):
        nameless = base.ending(base.file_op())
        for given, words, line in [
            (nameless, [], "fault 89 0 NoActions"),
            (base.ending(base.source("local://src")), [], "fault 121 src"),
            (base.ending(base.source("docker-image://a")), [], "fault 88 0 Source"),
            (base.ending(base.exec_op("apk")), [], "fault 89 0 Script 71 apk"),
            (base.ending(base.file_op(base.mkdir("/a"))), ["--workers=0"], "fault 122"),
        ]:
            done = self.build(given, *words)
            self.assertEqual(done.returncode, 2)
            explained = run("explain", "--definition", self.place(b"definition"), *line.split(" "))
            meaning = [f"  {text}" for text in explained.stdout.decode().splitlines()]
            # What `explain` refuses, a build says below the explanation.
            refused = [text.partition(": ")[0] for text in explained.stderr.decode().splitlines()]
            meaning += [f"  the definition: {cause}" for cause in refused]
            meaning += ["  without a tree: src (vertex 0)"] * (line == "fault 121 src")
            meaning += [f"  {next_commands.hint_of(line)}"] * line.startswith(("fault 88 ", "fault 89 "))
            self.assertEqual(done.stderr.decode().splitlines()[1:], [line, *meaning, "nothing is written"])
        for given, cause in [(b"\x0a", b"the bytes end inside a record"), (b"", b"there are no bytes")]:
            line = b"not a definition: " + cause + b": " + self.place(b"definition") + b"\n"
            self.check_run(self.build(given), 2, b"", line)

    def source_name(self, text):
        """Returns the name of the local source that a file of the examples is the tree of."""
        return "source" if text.parent == EXAMPLES else text.stem

    def sources(self):
        """Yields the name and the definition of each example, and its sources as words of a build."""
        texts = [*EXAMPLES.glob("*.tree"), *EXAMPLES.glob("*/*.tree")]
        for name, given in self.definitions():
            sources = [text for text in texts if text.parent.name == name or text.parent == EXAMPLES]
            words = []
            for text in sources:
                place = self.at / f"{text.parent.name}-{text.stem}"
                if not place.exists():
                    self.check_success(run("directory-of-tree", place, text=text.read_bytes()))
                words.append(f"{self.source_name(text)}={place}")
            yield name, given, words

    def without_progress(self, done):
        """Splits the lines of a build into those of settled vertices, which are numbered, and the others."""
        lines = done.stderr.decode().splitlines()
        settled = [line for line in lines if line.startswith("[")]
        self.assertEqual([line.split("/")[0] for line in settled], [f"[{count + 1}" for count in range(len(settled))])
        return settled, [line.replace("/plain", "/progress") for line in lines if line not in settled]

    def test_progress_changes_nothing_else(self):
        for number, (name, given, sources) in enumerate(self.sources()):
            # What several workers find in a cache depends on their order.
            workers = "--workers=1" if name == "cache" else f"--workers={number + 1}"
            plain = self.build(given, workers, *sources, result=f"plain-{number}.tar")
            done = self.build(given, workers, "--progress", *sources, result=f"progress-{number}.tar")
            self.assertEqual(self.without_progress(plain)[0], [])
            settled, lines = self.without_progress(done)
            self.assertEqual((done.returncode, lines), (plain.returncode, self.without_progress(plain)[1]))
            self.assertEqual(done.returncode, 1 if name == "failure" else 0)
            if done.returncode == 0:
                self.assertEqual(len(settled), self.output("show", given=given).count(b"\n") - 1)
                results = [self.at / f"{kind}-{number}.tar" for kind in ("plain", "progress")]
                self.assertEqual(*(result.read_bytes() for result in results))

    def test_progress_shows_names(self):
        one, two = base.file_op(base.mkdir("/a")), base.file_op(base.mkdir("/b"))
        both = base.merge(two, one)
        description = base.part(2, base.part(1, "llb.customname") + base.part(2, "both of them"))
        metadata = base.part(2, base.part(1, base.digest(both)) + base.part(2, description))
        done = self.build(base.ending(one, two, both) + metadata, "--progress")
        self.assertEqual(done.returncode, 0, done.stderr)
        lines = ["[1/3] vertex 0 file done", "[2/3] vertex 1 file done", "[3/3] vertex 2 merge done: both of them"]
        self.assertEqual(done.stderr.decode().splitlines()[1:4], lines)

    def test_progress_reports_refusals_and_failures_the_same(self):
        start = base.file_op(base.mkdir("/x"))
        failing, other = base.file_op(base.rm("/a"), on=[start]), base.file_op(base.rm("/b"), on=[start])
        for given, words, status in [
            (b"\x0a", [], 2), (base.ending(base.source("local://src")), [], 2),
            (base.ending(start, failing, other, base.merge(failing, other)), [], 1),
            (base.ending(base.exec_op("false")), ["--workers=9"], 1),
            (base.ending(start), ["--workers=x"], 2), (base.ending(start), ["--workers=65"], 2),
        ]:
            plain, done = self.build(given, *words), self.build(given, "--progress", *words)
            self.assertEqual((plain.returncode, done.returncode), (status, status), done.stderr)
            self.assertEqual(self.without_progress(done)[1], plain.stderr.decode().splitlines())

    def test_graphs_and_records_of_the_examples_become_json(self):
        for name, given in self.definitions():
            shown = self.output("show", given=given)
            objects = json.loads(run("json-of-show", text=shown).stdout)
            self.assertEqual(len(objects["vertices"]), shown.count(b"\n") - 1, name)
            number = len(objects["vertices"])
            words = ["step", self.file(b"definition", given)]
            trees = [*EXAMPLES.glob("*.tree"), *EXAMPLES.glob("*/*.tree")]
            words += [f"{self.source_name(text)}={text}" for text in trees]
            record = self.output(*words, given=b"status\ngo\nstatus\nback\nstep 9\ntree 0 0\nx\nquit\n")
            objects = json.loads(run("json-of-record", text=record).stdout)
            self.assertEqual([one["kind"] for one in objects[:number]], ["status"] * number)
            self.assertEqual(len(objects), record.count(b"\n"))
            events = [one for one in objects if "reply" in one]
            self.assertEqual([one["number"] for one in events], list(range(1, len(events) + 1)))
            self.assertEqual(objects[-1], {"kind": "fault", "fault": 173, "line": 7})

    def test_each_command_line_is_accepted(self):
        place = EXAMPLES / "first-run.definition"
        tree = str(EXAMPLES / "tour.tree")
        settled = {"N": "2", "FILE": str(place), "OLD": str(place), "NEW": tree, "NAME=FILE ...": f"a={tree}"}
        settled |= {"NAME=OLD": f"a={tree}", "NAME=OLD ...": f"b={tree}"}
        for line in COMMAND_LINES:
            words = re.findall(r"NAME=(?:FILE|OLD) \.\.\.|[^ \[\]]+", line)
            for first in words[0].split("|"):
                given = [settled.get(word, word) for word in [first, *words[1:]]]
                text = (EXAMPLES / "first-run.text").read_bytes() if first == "asm" else place.read_bytes()
                done = self.llbm(*given, given=b"" if first == "step" else text)
                if given[-1] in ("--help", "--version"):
                    self.assertRegex(done.stderr, b"(?s)^fault 183\n.*llbm")
                else:
                    self.assertEqual((done.returncode, done.stderr), (0, b""), given)

    def test_each_line_for_173_is_accepted(self):
        lines = [re.sub("[VWIK]", "0", row.line) for row in faults.read_page().lines[173]]
        self.assertEqual((len(set(lines)), lines.pop(lines.index("quit"))), (21, "quit"))
        given = "\n".join([*lines, "quit"]).encode()
        answers = self.output("step", "--looks", EXAMPLES / "first-run.definition", given=given)
        self.assertNotIn(b"fault 173", answers)

    def test_a_text_that_is_too_long_is_refused(self):
        base.skip_if_slow(self)
        self.make(b"a", b"")
        os.truncate(self.place(b"in", b"a"), 1 << 25)
        given = base.ending(base.source("local://src"))
        done = self.build(given, "--by-value", f"src={self.at / 'in'}")
        self.assertEqual(done.returncode, 2)
        self.assertIn(b"\nsrc is too long to be given by value, over 67,108,864 bytes: ", done.stderr)
        self.assertTrue(done.stderr.endswith(b": --by-value asks for it\nnothing is written\n"), done.stderr)
        text = self.file(b"text", self.read(b"in").stdout)
        done = self.llbm("run", f"src={os.fsdecode(text)}", given=given)
        self.assertEqual((done.returncode, done.stdout, done.stderr), (2, b"", b"fault 185\n"))

    def with_little_memory(self):
        """Returns the settings of a run that is refused more than a gigabyte, or more than a megabyte at once."""
        if limited_runs.SANITIZER in pathlib.Path(base.llbm).read_bytes():
            return {"env": {**os.environ, "ASAN_OPTIONS": "allocator_may_return_null=1:max_allocation_size_mb=1"}}
        return {"preexec_fn": lambda: limited_runs.limit(resource.RLIMIT_AS, 1 << 30)}

    def test_a_script_that_doubles_a_file_without_end_is_refused_memory(self):
        doubles = [f"concat {to} {at} {at}" for at, to in [("/a", "/b"), ("/b", "/a")] * DOUBLINGS]
        script = " && ".join(["write /a x", *doubles])
        given = base.ending(base.exec_op("/bin/sh", "-c", script))
        done = self.llbm("run", given=given, **self.with_little_memory())
        self.assertEqual((done.returncode, done.stdout), (3, b""))
        self.assertEqual(done.stderr.splitlines()[-1], b"fault 151")

    def narrow_lines(self, *words, given):
        """Returns the lines that the program prints with a small stack; it has to succeed."""
        return self.output(*words, given=given, preexec_fn=narrow).decode().splitlines()

    def test_the_deepest_graph_needs_no_deep_stack(self):
        base.skip_if_slow(self)
        given = run("bigdef", "chain", str(DEEPEST)).stdout
        last = DEEPEST - 1
        inputs = ["-", *(f"{number}.0" for number in range(last))]
        shown = [f"{number} file steps 1 outputs 1 inputs {on}" for number, on in enumerate(inputs)]
        self.assertTrue(self.narrow_lines("show", given=given) == [*shown, f"result {last}.0"])
        paths = ["/", "/d", *(f"/e{number}" for number in range(7))]
        for words in [["run"], ["run", "--workers", "2"]]:
            self.assertEqual(self.narrow_lines(*words, given=given), [f"d 0755 0 0 {path}" for path in paths])
        text = self.output("dis", given=given, preexec_fn=narrow)
        self.assertTrue(self.output("asm", given=text, preexec_fn=narrow) == given)

    def test_the_deepest_graph_is_run_and_undone(self):
        base.skip_if_slow(self)
        given = run("bigdef", "chain", str(DEEPEST)).stdout
        events = 3 * DEEPEST
        commands = b"go\n" + b"back\n" * (events + 1)
        lines = self.narrow_lines("step", self.file(b"definition", given), "--workers=1", given=commands)
        parts = ["claim 0 {} -> file 1", "step 0 -> acted 0", "settle 0 -> {} done"]
        forwards = [f"{number + 1} {parts[number % 3].format(number // 3)}" for number in range(events)]
        back = [f"back {number}" for number in reversed(range(events))]
        self.assertTrue(lines == [*forwards, "end", *back, "fault 172"])
