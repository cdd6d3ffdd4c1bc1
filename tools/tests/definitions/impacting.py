"""Tests of `impact`: its words by examples, and what it calls kept by runs of the program."""

import hashlib
import json
import os
import pathlib
import random
import re
import subprocess

from llbm_tools import commands
from llbm_tools.definitions.impacts import Comparison
from llbm_tools.fuzzing import changed_inputs as fuzz_changed
from llbm_tools.fuzzing import made_inputs as fuzz_made
from llbm_tools.llb import definition, messages, op_reading, wire
from llbm_tools.llb.findings import findings_of
from llbm_tools.sessions.shows import show_of
from llbm_tools.trees.digests import tree_digest
from tests import base
from tests.base import ROOT, run, run_closed, run_into

EXAMPLES = ROOT / "examples"
STORED = EXAMPLES / "from-buildkit"
EMPTY = "d 0755 0 0 /\n"
SECOND = "d 0755 0 0 /\nf 0644 0 0 61 /b\n"
STATUS = re.compile(r"([0-9]+) (ready|blocked|done|failed .*)")
TREE = re.compile(r"none\n|d [0-7]{4} [0-9]+ [0-9]+ /\n(?:[df] .*\n)*?(?=none\n|d [0-7]{4} [0-9]+ [0-9]+ /\n|\Z)")


def with_cache(on):
    """Returns an exec on an input that also mounts a cache."""
    root = base.number(1, 0) + base.part(3, "/")
    cache = base.number(1, -1) + base.part(3, "/cache") + base.number(4, -1) + base.number(6, 3)
    mounts = base.part(2, root) + base.part(2, cache + base.part(20, base.part(1, "k")))
    return base.inputs(on) + base.part(2, base.part(1, base.part(1, "true")) + mounts)


def copied(path, pattern=False, onto=-1, output=0):
    """Returns a copy of what is at a path of the first input, or at what matches a pattern, onto the empty tree."""
    made = base.part(1, path) + base.part(2, "/") + base.number(4, -1) + base.number(9, int(pattern))
    return base.number(1, onto) + base.number(2, 0) + base.number(3, output) + base.part(4, made)


class Pair(base.WithProgram):
    """Two definitions: a file op on a source is on the left, and a merge of it with another source on top."""

    def setUp(self):
        super().setUp()
        self.left, self.right = base.source("local://left"), base.source("local://right")
        self.lower = base.file_op(base.mkdir("/a"), on=[self.left])
        self.old = self.definition(base.file_op(base.mkdir("/b"), on=[self.right]))
        self.new = self.definition(base.file_op(base.mkdir("/c"), on=[self.right]))

    def definition(self, upper):
        """Returns the definition with this vertex on the second source."""
        return base.ending(self.left, self.lower, self.right, upper, base.merge(self.lower, upper))

    def impact(self, *words, old=None, new=None, text=b""):
        """Runs the tool on two definitions, by default the two of this class."""
        places = [self.file(b"old", old or self.old), self.file(b"new", new or self.new)]
        return run("impact", *places, *words, text=text)

    def words_of(self, *words, **given):
        """Returns what the tool prints after the kind of each vertex."""
        done = self.impact(*words, **given)
        self.assertEqual((done.returncode, done.stderr), (0, b""))
        first, *lines = done.stdout.decode().splitlines()
        self.assertTrue(first.startswith("result "), first)
        count = next(place for place, line in enumerate(lines) if " vertices: " in line)
        return [line.split(" ", 2)[2].split("\t")[0] for line in lines[:count]]

    def check_refused(self, cause, *words, **given):
        """Checks that a command line is refused for this cause, and that nothing is written."""
        done = self.impact(*words, **given)
        self.assertEqual((done.returncode, done.stdout), (2, b""))
        self.assertIn(cause, done.stderr.decode())


class Words(Pair):
    """The word of each vertex."""

    def test_a_definition_keeps_all_of_itself(self):
        self.assertEqual(self.words_of(new=self.old), ["kept"] * 5)

    def test_a_changed_entry_and_what_is_above_it_are_new(self):
        self.assertEqual(self.words_of(), ["kept", "kept", "kept", "new", "new"])

    def test_a_changed_source_reaches_what_is_above_it(self):
        words = self.words_of("--changed", "left")
        self.assertEqual(words, ["fed by left", "fed by left", "kept", "new", "new"])

    def test_sources_that_meet_are_named_together(self):
        words = self.words_of("--changed", "right", "left", new=self.old)
        right, both = "fed by right", "fed by left, right"
        self.assertEqual(words, ["fed by left", "fed by left", right, right, both])

    def test_other_numbers_do_not_matter(self):
        new = base.ending(self.right, self.left, self.lower)
        self.assertEqual(self.words_of(new=new), ["kept", "kept"])
        self.assertEqual(self.words_of("--changed", "right", new=new), ["kept", "kept"])

    def test_another_result_of_the_same_vertices_is_named(self):
        two = base.file_op(base.number(3, 0) + base.mkdir("/a"), base.number(3, 1) + base.mkdir("/b"))
        old, new = (base.definition(two, base.inputs((two, output))) for output in (0, 1))
        lines = self.impact(old=old, new=new).stdout.decode().splitlines()
        self.assertEqual(lines[:2], ["result 0.1 other, in OLD 0.0", "0 file kept"])
        self.assertTrue(lines[-1].startswith("other: "))
        found = json.loads(self.impact("--json", old=old, new=new).stdout)
        self.assertEqual(found["result"], {"vertex": 0, "output": 1, "impact": "other", "old": [0, 0]})
        lines = self.impact(old=old, new=old).stdout.decode().splitlines()
        self.assertEqual(lines[:2], ["result 0.0 kept", "0 file kept"])

    def test_nothing_is_said_above_a_cache(self):
        below = with_cache(self.left)
        given = base.ending(self.left, below, base.file_op(base.mkdir("/a"), on=[below]))
        self.assertEqual(self.words_of(old=given, new=given), ["kept", "cached", "cached"])
        words = self.words_of("--changed", "left", old=given, new=given)
        self.assertEqual(words, ["fed by left", "cached", "cached"])

    def test_all_lines_are_printed(self):
        done = self.impact("--changed", "left")
        lines = """result 4.0 new
0 source fed by left
1 file fed by left
2 source kept
3 file new
4 merge new
5 vertices: 1 kept, 2 new, 2 fed, 0 cached; 2 of OLD gone
kept: its outcome is that of OLD's vertex that does the same on inputs that match (matched_vertices_end_alike), or\
 is the same file op, and only copies from changed sources what is the same in both (reads_end_alike)
new: OLD has no vertex that matches it or has its digest; no law says anything
fed: its outcome depends on the sources before it alone, and these of them have changed (outcome_by_sources)
"""
        self.check_success(done, lines.encode())

    def test_names_come_from_either_definition(self):
        description = base.part(2, base.part(1, "llb.customname") + base.part(2, "lower"))
        metadata = base.part(2, base.part(1, base.digest(self.lower)) + base.part(2, description))
        for given in [{"old": self.old + metadata}, {"new": self.new + metadata}]:
            self.assertIn("\n1 file kept\tlower\n", self.impact(**given).stdout.decode())

    def test_a_dockerfile_with_another_last_line_is_new_there(self):
        old = (STORED / "dockerfile" / "definition").read_bytes()
        *entries, last, _ = definition.entries_of(old)
        new = base.ending(*entries, last.replace(b"/all", b"/new"))
        lines = self.impact(old=old, new=new).stdout.decode().splitlines()
        self.assertEqual([line.split("\t")[0].split(" ")[2] for line in lines[1:6]], [*["kept"] * 4, "new"])
        self.assertIn("RUN mkdir -p out && concat out/all one two (Dockerfile:4)", lines[4])


class Trees(Pair):
    """Trees of sources, which the tool compares itself."""

    def setUp(self):
        super().setUp()
        self.at = pathlib.Path(os.fsdecode(self.folder))
        self.make(b"a/b", b"c")
        self.text = self.read(b"in", "--owner", "0:0").stdout
        self.file(b"text", self.text)
        self.file(b"in.tar", run("tar-of-tree", text=self.text).stdout)
        self.file(b"empty", EMPTY.encode())

    def check_compared(self, before, after, word):
        """Checks the word of the source `left` with these trees."""
        words = ["--before", f"left={self.at / before}", "--after", f"left={self.at / after}"]
        done = self.impact(*words)
        self.assertEqual(done.returncode, 0, done.stderr)
        self.assertEqual(done.stdout.decode().splitlines()[1], f"0 source {word}")

    def test_one_tree_in_three_forms_is_one(self):
        for before, after in [("in", "text"), ("text", "in.tar"), ("in.tar", "in")]:
            self.check_compared(before, after, "kept")

    def test_a_digest_is_that_of_the_text(self):
        wanted = "sha256:5de211d85590268925259f8c7cd45d229b00372355255c350a38752ed1c86a47"
        self.assertEqual(tree_digest(str(self.at / "empty")), wanted)

    def test_other_trees_are_changed(self):
        for before, after in [("in", "empty"), ("empty", "text"), ("in.tar", "empty")]:
            self.check_compared(before, after, "fed by left")

    def test_a_tree_on_one_side_only_is_changed(self):
        for option in ["--before", "--after"]:
            self.assertEqual(self.words_of(option, f"left={self.at / 'empty'}")[0], "fed by left")

    def test_of_several_trees_the_last_one_counts(self):
        words = ["--before", f"left={self.at / 'text'}", f"left={self.at / 'empty'}"]
        words = self.words_of(*words, "--after", f"left={self.at / 'empty'}")
        self.assertEqual(words[0], "kept")

    def test_faulty_trees_are_refused(self):
        self.file(b"faulty", b"d 0755 0 0 /\nx\n")
        place, none, empty = self.at / "faulty", self.at / "none", self.at / "empty"
        for word, cause in [(place, f": {place}, line 2"), (none, f"there is no such file or directory: {none}")]:
            self.check_refused(cause, "--before", f"left={word}", "--after", f"left={empty}")
        archive = f"left={os.fsdecode(self.file(b'x.tar', b'no archive'))}"
        self.check_refused("not a header of an entry: byte 0: ", "--before", archive, "--after", f"left={empty}")
        self.check_refused("is not NAME=PLACE", "--before", "left")


class Copies(Pair):
    """A source of which file ops read only what they copy."""

    SERVICES = "d 0755 0 0 /\nd 0755 0 0 /a\nf 0644 0 0 61 /a/f\nd 0755 0 0 /b\nf 0644 0 0 62 /b/f\nf 0644 0 0 - /c\n"

    def trees(self, *pairs):
        """Returns the options for the source `left`, whose tree for NEW has these words replaced."""
        after = self.SERVICES
        for old, new in pairs:
            self.assertIn(old, after)
            after = after.replace(old, new)
        before, after = self.file(b"before", self.SERVICES.encode()), self.file(b"after", after.encode())
        return ["--before", f"left={before.decode()}", "--after", f"left={after.decode()}"]

    def op(self, *actions, on=None):
        """Returns a file op on the source, or on other inputs."""
        return base.file_op(*actions, on=on or [self.left])

    def words_after(self, *pairs, upper):
        """Returns the words of the vertices of a definition that has this vertex on the source."""
        data = base.ending(self.left, upper)
        return self.words_of(*self.trees(*pairs), old=data, new=data)

    def test_a_copy_reads_only_what_is_at_and_below_its_path(self):
        change = ("61 /a/f", "62 /a/f")
        for path, word in [("/b", "kept"), ("/a", "fed by left"), ("/a/f", "fed by left"), ("/", "fed by left"),
                           ("/c", "kept"), ("/none", "kept"), ("b/../a", "fed by left"), ("./b/", "kept")]:
            self.assertEqual(self.words_after(change, upper=self.op(copied(path))), ["fed by left", word], path)

    def test_names_modes_and_owners_count_as_contents_do(self):
        for change in [("0644 0 0 61", "0600 0 0 61"), ("0755 0 0 /a", "0755 1 0 /a"), ("/a/f", "/a/g")]:
            self.assertEqual(self.words_after(change, upper=self.op(copied("/a"))), ["fed by left"] * 2)
            self.assertEqual(self.words_after(change, upper=self.op(copied("/b"))), ["fed by left", "kept"])

    def test_of_a_pattern_the_paths_count_that_match_in_either_tree(self):
        change = ("61 /a/f", "62 /a/f")
        for path, word in [("/b/*", "kept"), ("/a/*", "fed by left"), ("/*/f", "fed by left"), ("/b?", "kept"),
                           ("/[b]", "kept"), ("/\\b", "kept"), ("/b", "kept"), ("/[ab]", "fed by left")]:
            words = self.words_after(change, upper=self.op(copied(path, pattern=True)))
            self.assertEqual(words, ["fed by left", word], path)
        self.assertEqual(self.words_after(change, upper=self.op(copied("/a*"))), ["fed by left", "kept"])

    def test_all_copies_of_an_op_count_and_so_does_its_base(self):
        change = ("61 /a/f", "62 /a/f")
        for second, word in [("/a", "fed by left"), ("/c", "kept")]:
            both = self.op(copied("/b", output=-1), copied(second, onto=1))
            self.assertEqual(self.words_after(change, upper=both), ["fed by left", word])
        for onto in [copied("/b", onto=0), base.mkdir("/d") + base.number(1, 0)]:
            self.assertEqual(self.words_after(change, upper=self.op(onto)), ["fed by left"] * 2)
        self.assertEqual(self.words_after(change, upper=self.op(base.mkdir("/d"))), ["fed by left", "kept"])

    def test_what_is_on_a_kept_copy_is_kept(self):
        first, second = self.op(copied("/a")), self.op(copied("/b"))
        above = base.file_op(base.mkdir("/d") + base.number(1, 0), on=[second])
        data = base.ending(self.left, first, second, above, base.merge(first, above))
        words = self.words_of(*self.trees(("61 /a/f", "62 /a/f")), old=data, new=data)
        self.assertEqual(words, ["fed by left", "fed by left", "kept", "kept", "fed by left"])

    def test_a_copy_of_what_is_fed_is_fed(self):
        lower = base.file_op(base.mkdir("/d") + base.number(1, 0), on=[self.left])
        data = base.ending(self.left, lower, base.file_op(copied("/b"), on=[lower]))
        words = self.words_of(*self.trees(("61 /a/f", "62 /a/f")), old=data, new=data)
        self.assertEqual(words, ["fed by left"] * 3)

    def test_without_both_trees_nothing_is_known(self):
        data = base.ending(self.left, self.op(copied("/b")))
        before, after = self.trees(("61", "62"))[:2], self.trees(("61", "62"))[2:]
        for words in [before, after, ["--changed", "left"], [*before, *after, "--changed", "left"]]:
            self.assertEqual(self.words_of(*words, old=data, new=data), ["fed by left"] * 2)


class Renames(Pair):
    """Sources with other names, whose trees the tool compares."""

    def setUp(self):
        super().setUp()
        self.trees = [self.file(b"first", EMPTY.encode()).decode(), self.file(b"second", SECOND.encode()).decode()]

    def words_with(self, before, after, old, new):
        """Returns the words for definitions on sources with these names and trees, by number."""
        words = ["--before", *(f"{name}={self.trees[place]}" for name, place in before.items())]
        words += ["--after", *(f"{name}={self.trees[place]}" for name, place in after.items())]
        return self.words_of(*words, old=self.on(*old), new=self.on(*new))

    def on(self, first, second):
        """Returns a definition with a file op on the first source, and a merge of it with the second."""
        left, right = base.source(f"local://{first}"), base.source(f"local://{second}")
        lower = base.file_op(base.mkdir("/a") + base.number(1, 0), on=[left])
        return base.ending(left, lower, right, base.merge(lower, right))

    def test_a_source_with_another_name_and_the_same_tree_is_kept(self):
        before, after = {"a": 0, "b": 1}, {"c": 0, "b": 1}
        self.assertEqual(self.words_with(before, after, ("a", "b"), ("c", "b")), ["kept"] * 4)

    def test_a_source_with_another_name_and_another_tree_is_new(self):
        before, after = {"a": 0, "b": 1}, {"c": 1, "b": 1}
        words = self.words_with(before, after, ("a", "b"), ("c", "b"))
        self.assertEqual(words, ["kept", "new", "kept", "new"])
        self.assertEqual(self.words_of(old=self.on("a", "b"), new=self.on("c", "b")), ["new", "new", "kept", "new"])

    def test_sources_that_exchange_their_names_are_kept(self):
        before, after = {"a": 0, "b": 1}, {"b": 0, "a": 1}
        self.assertEqual(self.words_with(before, after, ("a", "b"), ("b", "a")), ["kept"] * 4)
        self.assertEqual(self.words_with(before, after, ("a", "b"), ("a", "b"))[1], "fed by a")

    def test_an_input_of_another_output_does_not_match(self):
        mounts = base.part(2, base.number(1, 0) + base.part(3, "/"))
        mounts += base.part(2, base.number(1, -1) + base.part(3, "/b") + base.number(4, 1))
        lower = base.inputs(self.left) + base.part(2, base.part(1, base.part(1, "true")) + mounts)
        old, new = (
            base.ending(self.left, lower, base.file_op(base.mkdir("/c"), on=[(lower, output)])) for output in range(2)
        )
        self.assertEqual(self.words_of(old=old, new=new), ["kept", "kept", "new"])


class Refusals(Pair):
    """What is refused, and failing streams."""

    def test_unknown_names_are_refused(self):
        cause = "neither definition has this local source: none\n"
        self.check_refused(cause, "--changed", "left", "none")
        self.check_refused(cause, "--after", f"none={self.place(b'x').decode()}")

    def test_definitions_that_are_not_accepted_are_refused(self):
        image = base.ending(base.source("docker-image://a"))
        cause = f"fault 88 0 Source; {commands.shown('lint')} prints why"
        self.check_refused(f"new: {cause}", new=image)
        self.check_refused(f"old: {cause}", old=image)
        self.check_refused("not a definition: the bytes end inside a record: ", new=b"\x0a")

    def test_a_definition_can_come_from_standard_input(self):
        place = self.file(b"old", self.old)
        done = run("impact", place, "-", text=self.new)
        self.check_success(done, self.impact().stdout)
        self.check_run(run("impact", "-", "-"), 2, b"", b"only one input can come from standard input\n")

    def test_missing_files_and_failing_streams_are_reported(self):
        old, none = self.file(b"old", self.old), self.place(b"none")
        self.check_run(run("impact", old, none), 2, b"", b"there is no such file or directory: " + none + b"\n")
        with open("/dev/full", "wb") as output:
            done = run_into(output, "impact", old, old)
        cause = b"the output could not be written: No space left on device\n"
        self.assertEqual((done.returncode, done.stderr), (3, cause))
        self.assertEqual(run_closed(0, "impact", old, "-").returncode, 3)
        self.assertEqual(run("impact", old).returncode, 2)


class Forms(Pair):
    """The object, and the picture."""

    def object(self, *words):
        """Returns the object that the tool prints."""
        done = self.impact("--json", *words)
        self.assertEqual((done.returncode, done.stderr), (0, b""))
        return json.loads(done.stdout)

    def test_the_object_has_all_members(self):
        found = self.object("--changed", "left")
        self.assertEqual(list(found), ["result", "vertices", "counts", "gone", "changed", "laws"])
        upper = base.file_op(base.mkdir("/c"), on=[self.right])
        self.assertEqual(found["vertices"][1:4:2], [
            {"number": 1, "kind": "file", "digest": base.digest(self.lower), "name": "", "impact": "fed", "old": 1,
             "changed": ["left"], "cached": False},
            {"number": 3, "kind": "file", "digest": base.digest(upper), "name": "", "impact": "new", "old": None,
             "changed": [], "cached": False},
        ])
        self.assertEqual(found["counts"], {"kept": 1, "new": 2, "fed": 2, "cached": 0})
        self.assertEqual((found["gone"], found["changed"]), ([3, 4], ["left"]))

    def picture(self, text):
        """Runs the tool that makes a picture of the newer definition's graph, with this object."""
        lines = ["0 source steps 1 outputs 1 inputs -", "1 file steps 1 outputs 1 inputs 0.0"]
        lines += ["2 source steps 1 outputs 1 inputs -", "3 file steps 1 outputs 1 inputs 2.0"]
        lines += ["4 merge steps 2 outputs 1 inputs 1.0 3.0", "result 4.0", ""]
        return run("graph-of-show", "--impact", self.file(b"object", text), text="\n".join(lines).encode())

    def test_a_picture_has_a_color_for_each_word(self):
        done = self.picture(self.impact("--json", "--changed", "left").stdout)
        self.assertEqual((done.returncode, done.stderr), (0, b""))
        colors = re.findall(r"fillcolor=(\w+)", done.stdout.decode())
        self.assertEqual(colors, ["gold", "gold", "palegreen", "lightblue", "lightblue"])

    def test_other_objects_are_refused(self):
        of_another = self.impact("--json", new=base.ending(self.left)).stdout
        self.check_run(self.picture(of_another), 2, b"", b"the impact is that of another graph\n")
        for text in [b"", b"[]", b"{}", b'{"vertices": [{"kind": "file", "impact": "other"}]}']:
            cause = b"the impact is not an object that impact --json prints\n"
            self.check_run(self.picture(text), 2, b"", cause)


class Ran:
    """A whole run of a definition in a session: the state of each vertex, and the trees of its outputs."""

    def __init__(self, data, trees, folder, workers):
        self.folder = folder
        (folder / "definition").write_bytes(data)
        shown = subprocess.run([base.llbm, "show"], input=data, capture_output=True, timeout=base.GUARD).stdout
        outputs = [vertex.outputs for vertex in show_of(shown.decode()).vertices]
        places = [f"{name}={self.file(number, text)}" for number, (name, text) in enumerate(sorted(trees.items()))]
        commands = ["go", "status"]
        commands += [f"tree {vertex} {index}" for vertex, count in enumerate(outputs) for index in range(count)]
        words = ["step", str(folder / "definition"), "--workers", str(workers), *places]
        given = "".join(f"{line}\n" for line in commands).encode()
        done = subprocess.run([base.llbm, *words], input=given, capture_output=True, timeout=base.GUARD)
        assert (done.returncode, done.stderr) == (0, b""), (words, done.stderr)
        _, _, text = done.stdout.decode().partition("end\n")
        lines = text.splitlines(keepends=True)[: len(outputs)]
        self.states = [STATUS.fullmatch(line.rstrip("\n"))[2] for line in lines]
        found = TREE.findall(text[sum(map(len, lines)) :])
        assert len(found) == sum(outputs), "a tree is missing"
        self.trees = [[found.pop(0) for _ in range(count)] for count in outputs]

    def file(self, number, text):
        """Stores the text of a tree."""
        place = self.folder / f"{number}.tree"
        place.write_bytes(text)
        return place

    def of(self, vertex):
        """Returns how a vertex has ended, with its trees."""
        return self.states[vertex], self.trees[vertex]


def renamed(entry):
    """Returns an entry in which a local source has another name."""
    op = op_reading.read_op(entry)
    if op.source is None:
        return entry
    inputs = b"".join(record.text for record in wire.records(entry) if record.field == 1)
    return inputs + base.source(f"{op.source.identifier}-2")


class Machine(base.WithProgram):
    """What is called kept has ended alike in two runs of the program."""

    def setUp(self):
        super().setUp()
        self.at = pathlib.Path(os.fsdecode(self.folder))
        self.kept, self.failed, self.fed_apart = 0, 0, 0

    def compare(self, dice, old, new, pool):
        """Runs both definitions, some sources on other trees, and compares the vertices that are kept."""
        comparison = Comparison(old, new, base.llbm)
        before = {name: dice.choice(pool) for name in sorted(comparison.sources())}
        after = {name: dice.choice([text, *dice.choices(pool, k=2)]) for name, text in before.items()}
        changed = frozenset(name for name, text in before.items() if after[name] != text)
        first = Ran(old, before, self.at, dice.choice([1, 2, 3]))
        second = Ran(new, after, self.at, dice.choice([1, 2, 3]))
        for number, impact in enumerate(comparison.impacts(changed)):
            if impact.word == "kept":
                self.assertEqual(first.of(impact.old), second.of(number), (number, old, new, before, after))
                self.kept += 1
                self.failed += first.states[impact.old].startswith("failed")
            elif impact.word == "fed":
                self.fed_apart += first.of(impact.old) != second.of(number)

    def compare_renamed(self, dice, old, pool):
        """Runs a definition, and the same with renamed sources, and compares all vertices without caches."""
        entries = definition.entries_of(old)
        new = messages.definition_of(messages.with_new_digests(entries, [renamed(entry) for entry in entries]))
        before = {name: dice.choice(pool) for name in sorted(Comparison(old, old, base.llbm).sources())}
        after = {f"{name}-2": text for name, text in before.items()}
        digests = [{name: hashlib.sha256(text).hexdigest() for name, text in one.items()} for one in (before, after)]
        first, second = Ran(old, before, self.at, 1), Ran(new, after, self.at, 2)
        for number, impact in enumerate(Comparison(old, new, base.llbm).impacts(frozenset(), *digests)):
            self.assertEqual(impact.word, "cached" if impact.cached else "kept")
            if not impact.cached:
                self.assertEqual(first.of(impact.old), second.of(number), (number, old, new, before))
                self.kept += 1

    def made(self, dice):
        """Returns a random definition that the program accepts."""
        while True:
            data = messages.definition_of([messages.encoded(op) for op in fuzz_made.ops(dice)])
            if not findings_of(data, base.llbm):
                return data

    def changed(self, dice, data):
        """Returns a changed definition that the program accepts."""
        while True:
            new = fuzz_changed.changed_definition(dice, data)
            if not findings_of(new, base.llbm):
                return new

    def test_definitions_with_renamed_sources(self):
        dice = random.Random("renamed")
        pool = [EMPTY.encode(), *(fuzz_made.tree(dice) for _ in range(5))]
        for _ in range(base.cases(50)):
            self.compare_renamed(dice, self.made(dice), pool)
        self.assertGreater(self.kept, base.cases(100))

    def test_stored_definitions_and_changed_ones(self):
        dice = random.Random("stored")
        places = [*EXAMPLES.glob("*.definition"), *STORED.glob("*/definition")]
        stored = [data for place in sorted(places) if not findings_of(data := place.read_bytes(), base.llbm)]
        trees = [*EXAMPLES.glob("*.tree"), *EXAMPLES.glob("*/*.tree"), *STORED.glob("*/*.tree")]
        pool = [place.read_bytes() for place in sorted(trees)]
        self.assertEqual(len(stored), 7)
        for data in stored:
            for new in [data, self.changed(dice, data), self.changed(dice, data)]:
                self.compare(dice, data, new, pool)
        self.assertGreater(self.kept, 20)

    def test_random_definitions_and_changed_ones(self):
        dice = random.Random("random")
        pool = [EMPTY.encode(), *(fuzz_made.tree(dice) for _ in range(5))]
        for _ in range(base.cases(100)):
            old = self.made(dice)
            self.compare(dice, old, self.changed(dice, old), pool)
        self.assertGreater(self.kept, base.cases(100))
        self.assertGreater(self.failed, base.cases(10))
        self.assertGreater(self.fed_apart, base.cases(5))
