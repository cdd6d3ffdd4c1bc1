"""Tests of the tools that use BuildKit's rules: the options of `lint` and `adopt`, `as-buildkit`, and `explain-run`."""

import json
import os
import unittest

from llbm_tools.debugging import last_event, launching, variables
from llbm_tools.llb import messages
from llbm_tools.llb.messages import made
from llbm_tools.rules.examples import examples
from llbm_tools.trees import tree_maps
from tests import base
from tests.base import Folder, run

FILTERS = {"local.followpaths": '["a"]', "local.includepattern": '["b"]', "local.excludepatterns": '["c"]'}


def example(shows):
    """Returns the example that shows something."""
    return next(one for one in examples() if one.shows == shows)


def definition(*ops):
    """Returns the definition of ops without inputs, of which the last one is the result."""
    entries = [messages.encoded(op) for op in ops]
    return base.ending(*entries)


def source(**attributes):
    """Returns a local source with attributes."""
    given = tuple(made("AttributeEntry", key=key, value=value) for key, value in attributes.items())
    return made("Op", source=made("SourceOp", identifier="local://p", attrs=given))


class WithRules(Folder):
    """A test that needs the program with BuildKit's rules."""

    def setUp(self):
        super().setUp()
        base.skip_without_rules(self)


class Without(Folder):
    """The tools where the program with BuildKit's rules is not there."""

    def setUp(self):
        super().setUp()
        self.env = {**os.environ, "LLBM_RULES": "/none"}
        self.missing = "LLBM_RULES names no program: /none; dev/dev daemon of the repository builds it\n"

    def test_lint_prints_its_findings(self):
        data = definition(made("Op", source=made("SourceOp", identifier="git://x")))
        done = run("lint", "--like-buildkit", text=data, env=self.env)
        self.check_run(done, 1, b"fault 88 0 Source\n", f"notes are left out: {self.missing}".encode())

    def test_adopt_adopts_the_rest(self):
        data = definition(made("Op", source=made("SourceOp", identifier="git://x/y")))
        done = run("adopt", "--like-buildkit", text=data, env=self.env)
        self.assertEqual((done.returncode, bool(done.stdout)), (0, True))
        self.assertIn(f"not rewritten for BuildKit: {self.missing}".encode(), done.stderr)

    def test_explain_explains_other_lines(self):
        done = run("explain", text=b"note 0 Mode\nfault 181\n", env=self.env)
        self.assertEqual((done.returncode, done.stdout.splitlines()[:2]), (2, [b"note 0 Mode", b"fault 181"]))
        self.assertTrue(done.stdout.splitlines()[2].startswith(b"  "))
        self.assertEqual(done.stderr.decode(), f"{self.missing[:-1]}: line 1\n")

    def test_runs_are_explained_and_comparisons_refused(self):
        if base.llbm is None:
            raise unittest.SkipTest("the program llbm is needed (--llbm PROGRAM)")
        data = base.ending(base.exec_op("write", "/a", "1"))
        done = run("explain-run", "--llbm", base.llbm, "-", text=data, env=self.env)
        self.assertEqual((done.returncode, b"  done\n" in done.stdout), (0, True))
        self.assertEqual(done.stderr.decode(), f"what ends otherwise in BuildKit is left out: {self.missing}")
        done = run("as-buildkit", "--llbm", base.llbm, "-", text=data, env=self.env)
        self.check_run(done, 2, b"", self.missing.encode())


class Fields(WithRules):
    """The notes of `lint` for fields that have no effect."""

    def notes(self, data, *options, status=0):
        """Returns the lines that `lint` prints for a definition that the program accepts."""
        done = run("lint", *options, text=data)
        self.assertEqual((done.returncode, done.stderr), (status, b""))
        return done.stdout.decode().splitlines()

    def test_filters_and_unknown_attributes_of_a_source_are_noted(self):
        names = {"local.followpaths": "FollowPaths", "local.includepattern": "IncludePatterns"}
        names |= {"local.excludepatterns": "ExcludePatterns", "local.session": "SessionID", "x": "Attribute x"}
        for key, name in names.items():
            self.assertEqual(self.notes(definition(source(**{key: '["a"]'}))), [f"note 0 {name}"])

    def test_empty_filters_and_what_only_names_a_transfer_are_not(self):
        given = {"local.followpaths": "[]", "local.unique": "u", "local.sharedkeyhint": "h", "local.differ": "none"}
        self.assertEqual(self.notes(definition(source(**given))), [])

    def test_times_and_followed_links_are_noted_by_action(self):
        actions = [
            {"mkdir": made("FileActionMkDir", path="/a", timestamp=-1)},
            {"mkfile": made("FileActionMkFile", path="/a/f", timestamp=7)},
            {"copy": made("FileActionCopy", src="/", dest="/b", followSymlink=1, timestamp=0)},
        ]
        given = [
            made("FileAction", input=number - 1, secondaryInput=-1, output=number - 2 if number == 2 else -1, **one)
            for number, one in enumerate(actions)
        ]
        data = definition(made("Op", file=made("FileOp", actions=tuple(given))))
        self.assertEqual(self.notes(data), ["note 0 FollowSymlink action 2", "note 0 Timestamp action 1"])

    def test_what_a_process_would_have_is_noted(self):
        meta = made("Meta", args=("true",), user="app") + [
            (5, [(1, b"p")]), (6, [(1, b"h")]), (7, b"host"), (9, [(1, b"nofile")]), (10, b"/group"),
        ]  # fmt: skip
        mount = made("Mount", input=-1, dest="/", output=0)
        tmpfs = made("Mount", input=-1, dest="/t", output=-1, mountType=4, TmpfsOpt=made("TmpfsOpt", size=9))
        execution = made("ExecOp", meta=meta, mounts=(mount, tmpfs), network=1, security=1)
        data = definition(made("Op", exec=execution) + [(10, [(1, b"arm64")]), (11, [(1, b"filter")])])
        names = ["Platform", "Constraints", "User", "Proxy", "Hosts", "Hostname", "Limits", "CgroupParent", "Network"]
        self.assertEqual(self.notes(data), [f"note 0 {name}" for name in [*names, "Security", "TmpfsSize mount 1"]])

    def test_ignore_cache_of_the_metadata_is_noted(self):
        data = definition(source())
        entry = messages.encoded(source())
        metadata = messages.encoded([(2, [(1, base.digest(entry).encode()), (2, [(1, 1)])])])
        self.assertEqual(self.notes(data + metadata), ["note 0 IgnoreCache"])

    def test_strict_makes_findings_of_notes(self):
        data = definition(source(**FILTERS))
        self.assertEqual(len(self.notes(data)), 3)
        self.assertEqual(len(self.notes(data, "--strict", status=1)), 3)
        self.assertEqual(self.notes(definition(source()), "--strict"), [])

    def test_notes_come_after_faults(self):
        data = definition(made("Op", source=made("SourceOp", identifier="git://x"), platform=0) + [(10, [(1, b"arm")])])
        self.assertEqual(self.notes(data, status=1), ["fault 88 0 Source", "note 0 Platform"])


class Deaths(WithRules):
    """What BuildKit's daemon dies of."""

    def notes(self, data):
        """Returns the words of the notes of `lint --like-buildkit`, without those of owners."""
        lines = run("lint", "--like-buildkit", text=data).stdout.decode().splitlines()
        return [line.removeprefix("note ") for line in lines if not line.endswith("LocalOwner")]

    def setUp(self):
        super().setUp()
        self.one = messages.encoded(source())
        self.edge = messages.edge(self.one)

    def test_a_source_with_an_input(self):
        two = messages.encoded(made("Op", inputs=(self.edge,), source=made("SourceOp", identifier="local://q")))
        data = base.ending(self.one, two)
        self.assertEqual(self.notes(data), ["1 SourceInputs"])
        done = run("adopt", "--like-buildkit", text=data)
        self.assertIn(b"entry 1: the inputs of a source are dropped\n", done.stderr)
        self.assertEqual(self.notes(done.stdout), [])

    def test_a_merge_that_lists_less_than_its_op_has(self):
        merge = made("MergeOp", inputs=(made("MergeInput", input=1),))
        data = base.ending(self.one, messages.encoded(made("Op", inputs=(self.edge, self.edge), merge=merge)))
        self.assertEqual(self.notes(data), ["1 ShortMerge", "1 MergeInputs"])
        self.assertEqual(self.notes(run("adopt", "--like-buildkit", text=data).stdout), [])

    def test_an_input_of_no_entry_that_is_not_reached(self):
        none = made("Input", digest="sha256:none")
        lost = messages.encoded(made("Op", inputs=(none,), merge=made("MergeOp")))
        data = messages.definition_of([lost, self.one, messages.encoded(made("Op", inputs=(self.edge, none)))])
        self.assertEqual(self.notes(data), ["0 UnknownInput input 0", "2 UnknownInput input 1"])
        adopted = run("adopt", "--like-buildkit", text=data).stdout
        self.assertEqual(self.notes(adopted), ["0 UnknownInput input 0"])

    def test_adopting_leaves_no_input_without_its_entry(self):
        member = made("FileActionMkDir", path="/a", mode=-1)
        mkdir = made("FileAction", input=-1, secondaryInput=-1, output=0, mkdir=member)
        changed = messages.encoded(made("Op", file=made("FileOp", actions=(mkdir,))))
        lost = messages.encoded(made("Op", inputs=(messages.edge(changed),), merge=made("MergeOp")))
        last = messages.encoded(made("Op", inputs=(messages.edge(changed),)))
        data = messages.definition_of([changed, lost, last])
        done = run("adopt", "--like-buildkit", text=data)
        self.assertIn(b"entry 0: action 0: mode 7777 is 0777\n", done.stderr)
        self.assertIn(b"entry 1: its inputs have new digests\n", done.stderr)
        self.assertEqual(self.notes(done.stdout), [])

    def test_an_rm_above_the_root(self):
        for path, expected in [("..", True), ("a/../..", True), ("/..", False), ("../a", False)]:
            rm = made("FileAction", input=0, secondaryInput=-1, output=0, rm=made("FileActionRm", path=path))
            op = made("Op", inputs=(self.edge,), file=made("FileOp", actions=(rm,)))
            data = base.ending(self.one, messages.encoded(op))
            self.assertEqual("1 RmAboveRoot action 0" in self.notes(data), expected, path)


class WithProgram(WithRules):
    """A test that runs tools with the program."""

    def setUp(self):
        super().setUp()
        if base.llbm is None:
            raise unittest.SkipTest("the program llbm is needed (--llbm PROGRAM)")

    def lines(self, tool, data, *words, status=0):
        """Returns the lines that a tool prints of a definition, with options before the sources."""
        sources = [word for word in words if "=" in word]
        done = run(tool, "--llbm", base.llbm, *words[: len(words) - len(sources)], "-", *sources, text=data)
        self.assertEqual((done.returncode, done.stderr), (status, b""))
        return done.stdout.decode().splitlines()

    def explained(self, data, *words, status=0):
        """Returns the lines `BuildKit: ..` of `explain-run`, each with the last line before that is none."""
        found, before = [], ""
        for line in self.lines("explain-run", data, *words, status=status):
            if line.lstrip().startswith("BuildKit: "):
                found.append((before, line.lstrip().removeprefix("BuildKit: ")))
            else:
                before = line.strip()
        return found


class Objects(WithProgram):
    """The objects of `as-buildkit` and `explain-run`."""

    def members(self, tool, data, *words, status=0):
        """Returns the object that a tool prints."""
        return json.loads("\n".join(self.lines(tool, data, "--json", *words, status=status)))

    def test_a_comparison_has_differences_and_the_verdict(self):
        text = "fails: the second input depends on the action: SecondInput"
        one = {"vertex": 0, "action": 0, "text": text}
        end = "BuildKit fails, here is a result"
        wanted = {"notes": [], "differences": [one], "agree": False, "end": end}
        data = base.ending(base.file_op(base.mkdir("/a")))
        self.assertEqual(self.members("as-buildkit", data, status=1), wanted)
        self.assertEqual(self.lines("as-buildkit", data, status=1), [f"vertex 0 action 0: {text}", end])
        data = base.ending(base.file_op(base.mkdir("/a") + base.number(2, -1)))
        found = self.members("as-buildkit", data)
        self.assertEqual((found["differences"], found["agree"]), ([], True))

    def test_a_run_has_its_vertices_in_order(self):
        first = base.file_op(base.mkdir("/a"))
        found = self.members("explain-run", base.ending(first, base.merge(first, first)))
        self.assertEqual([one["vertex"] for one in found["vertices"]], [0, 1])
        self.assertEqual([one["lines"][-1] for one in found["vertices"]], ["done", "done"])
        self.assertEqual((found["complete"], found["result"], found["outside"]), (True, "1.0", []))
        self.assertEqual(found["vertices"][0]["lines"][0], "action 0: mkdir /a")
        fails = base.file_op(base.rm("/none") + base.number(1, -1))
        found = self.members("explain-run", base.ending(fails, base.merge(fails, fails)), status=1)
        self.assertEqual([one["lines"][-1] for one in found["vertices"]][:1], ["failed"])
        self.assertFalse(found["complete"])


class Breaking(WithProgram):
    """What breaks BuildKit's daemon, in `as-buildkit` and `explain-run`."""

    DIES = "its daemon dies (here takes it)"
    SHORT = "its daemon dies (here lays what is listed): ShortMerge"
    ABOVE = "removes the directory of its snapshots (here fails (25)): RmAboveRoot"
    RESULT = "the results differ: BuildKit's daemon breaks, here is a result"
    NONE = "the results differ: BuildKit's daemon breaks, here is none"

    def setUp(self):
        super().setUp()
        self.one = messages.encoded(source())
        self.edge = messages.edge(self.one)
        self.tree = self.file(b"p", b"d 0755 0 0 /\n").decode()
        self.given = f"p={self.tree}"

    def check(self, data, line, step, verdict=RESULT, place=""):
        """Checks what both tools print of a definition of which one step breaks BuildKit's daemon."""
        words = [self.given] if self.one in data else []
        self.assertEqual(self.compared(data, *words), [f"{place}{line}", verdict])
        done = run("as-buildkit", "--tree", "--llbm", base.llbm, "-", *words, text=data)
        self.check_run(done, 1, b"", f"{place}{line}\n".encode())
        status = 1 if verdict == self.NONE else 0
        self.assertEqual(self.explained(data, *words, status=status), [(step, line)])
        summary = self.lines("explain-run", data, "--summary", *words, status=status)
        self.assertNotIn("BuildKit", "".join(summary))

    def compared(self, data, *words, status=1):
        """Returns the lines of `as-buildkit`."""
        return self.lines("as-buildkit", data, *words, status=status)

    def file_op(self, *actions, inputs=()):
        """Returns an op of actions in a row, of which the last one is the output."""
        given = []
        for number, one in enumerate(actions):
            output = 0 if number == len(actions) - 1 else -1
            start = len(inputs) + number - 1 if inputs or number else -1
            given.append(made("FileAction", input=start, secondaryInput=-1, output=output, **one))
        return messages.encoded(made("Op", inputs=tuple(inputs), file=made("FileOp", actions=tuple(given))))

    def merge(self, *inputs, count=2):
        """Returns a merge that lists inputs of an op with so many."""
        listed = tuple(made("MergeInput", input=number) for number in inputs)
        return messages.encoded(made("Op", inputs=(self.edge,) * count, merge=made("MergeOp", inputs=listed)))

    def test_a_source_with_an_input(self):
        two = messages.encoded(made("Op", inputs=(self.edge,), source=made("SourceOp", identifier="local://p")))
        step, line = "vertex 1 source: local://p", f"{self.DIES}: SourceInputs"
        self.check(base.ending(self.one, two), line, step, place="vertex 1: ")

    def test_a_merge_that_lists_less_than_its_op_has(self):
        for merge in (self.merge(1), self.merge(-1)):
            self.check(base.ending(self.one, merge), self.SHORT, "vertex 1 merge", place="vertex 1: ")

    def test_what_needs_it_is_not_compared(self):
        mkfile = {"mkfile": made("FileActionMkFile", path="/f", mode=0o1644, timestamp=-1)}
        short = self.merge(1)
        data = base.ending(self.one, short, self.file_op(mkfile, inputs=[messages.edge(short)]))
        lines = self.compared(data, self.given)
        self.assertEqual(lines, [f"vertex 1: {self.SHORT}", self.RESULT])

    def test_an_input_of_no_entry_that_is_not_reached(self):
        none = made("Input", digest="sha256:none")
        lost = messages.encoded(made("Op", inputs=(none,), merge=made("MergeOp")))
        last = messages.encoded(made("Op", inputs=(self.edge, none)))
        line = f"{self.DIES}: UnknownInput"
        data = messages.definition_of([lost, self.one, messages.encoded(made("Op", inputs=(self.edge,)))])
        self.check(data, f"entry 0 input 0: {line}", "")
        self.check(messages.definition_of([self.one, last]), f"entry 1 input 1: {line}", "")
        lines = self.compared(messages.definition_of([lost, self.one, last]), self.given)
        self.assertEqual(lines, [f"entry 0 input 0: {line}", f"entry 2 input 1: {line}", self.RESULT])

    def test_an_rm_above_the_root(self):
        mkdir = {"mkdir": made("FileActionMkDir", path="/a", timestamp=-1, mode=0o755)}
        rm = {"rm": made("FileActionRm", path="a/../..")}
        step = "action 1 (rm a/../..) failed: this cannot be done at the root"
        data = base.ending(self.file_op(mkdir, rm))
        self.check(data, self.ABOVE, step, self.NONE, "vertex 0 action 1: ")

    def test_an_rm_that_is_not_done_breaks_nothing(self):
        rm = {"rm": made("FileActionRm", path="..")}
        lines = self.compared(base.ending(self.file_op({"rm": made("FileActionRm", path="/none")}, rm)), status=0)
        self.assertEqual(lines, ["both fail"])
        member = made("FileActionMkDir", path="/a", timestamp=-1)
        mkdir = made("FileAction", input=-1, secondaryInput=-1, output=0, mkdir=member)
        unused = made("FileAction", input=-1, secondaryInput=-1, output=-1, **rm)
        data = definition(made("Op", file=made("FileOp", actions=(mkdir, unused))))
        self.assertEqual(self.compared(data), [
            "vertex 0 action 1: is not done (here it fails): UnusedAction", "BuildKit has a result, here is none",
        ])

    def test_an_editor_shows_it_at_its_step(self):
        place = self.file(b"definition", base.ending(self.one, self.merge(1))).decode()
        given = {"definition": place, "sources": {"p": self.tree}, "workers": 1, "llbm": str(base.llbm)}
        launched = launching.launch(given, lambda _: None)
        self.addCleanup(launched.session.end)
        run_scopes, shown = variables.Views(launched).run_scopes, []
        while event := launched.session.event("next"):
            run_scopes.close()
            values = [one["value"] for one in run_scopes.changed() if one["name"] == "BuildKit"]
            shown += [(event.kind, event.vertex, value) for value in values]
        self.assertEqual(shown, [("claim", 1, self.SHORT)])


class NotedFields(WithProgram):
    """Fields without an effect, in `explain-run` and the debugger."""

    def test_those_of_an_action_are_below_it_and_others_below_the_vertex(self):
        actions = tuple(
            made("FileAction", input=number - 1, secondaryInput=-1, output=number - 1, mkdir=member)
            for number, member in enumerate([
                made("FileActionMkDir", path="/a", timestamp=-1), made("FileActionMkDir", path="/b", timestamp=7),
            ])
        )  # fmt: skip
        data = definition(made("Op", file=made("FileOp", actions=actions)) + [(10, [(1, b"arm64")])])
        found = self.lines("explain-run", data, "--paths", "0")
        self.assertEqual(found[:7], [
            "vertex 0 file: mkdir /a; mkdir /b", "    BuildKit: note 0 Platform",
            "  action 0: mkdir /a", "    result 0: and 1 more path",
            "  action 1: mkdir /b", "    result 1: and 1 more path", "    BuildKit: note 0 Timestamp action 1",
        ])
        self.assertEqual(self.lines("as-buildkit", data), [
            "note 0 Platform", "note 0 Timestamp action 1", "the results agree",
        ])

    def test_those_of_an_execution_and_of_a_source_are_below_them(self):
        meta = made("Meta", args=("true",))
        execution = made("Op", exec=made("ExecOp", meta=meta, mounts=(made("Mount", input=-1, dest="/"),), network=1))
        self.assertEqual(self.explained(definition(execution))[0], ("vertex 0 exec: true", "note 0 Network"))
        data = definition(source(**{"local.includepattern": '["a"]', "action 0": "b"}))
        place = self.file(b"p", b"d 0755 0 0 /\n").decode()
        title = "vertex 0 source: local://p"
        self.assertEqual(self.explained(data, f"p={place}"), [
            (title, "note 0 IncludePatterns"), (title, "note 0 Attribute action 0"),
        ])


class Executions(WithProgram):
    """Executions, which are processes in BuildKit, in `as-buildkit` and `explain-run`."""

    LINE = (
        "runs a process of the root mount (here runs applets, of which `rm`, `cp`, `envfile`, `listing` differ from"
        " programs): Execution"
    )

    def test_each_has_a_line_and_the_results_agree_but_for_them(self):
        data = base.ending(base.exec_op("write", "/a", "1"))
        lines = self.lines("as-buildkit", data)
        self.assertEqual(lines, [f"vertex 0: {self.LINE}", "the results agree, but for what executions do"])
        self.assertEqual(self.explained(data), [("vertex 0 exec: write /a 1", self.LINE)])

    def test_both_may_fail_but_for_them(self):
        lines = self.lines("as-buildkit", base.ending(base.exec_op("rm", "/none")))
        self.assertEqual(lines, [f"vertex 0: {self.LINE}", "both fail, but for what executions do"])


class AsBuildkit(WithProgram):
    """The tool `as-buildkit`."""

    def compare(self, one, *options):
        """Runs the tool on an example."""
        words = [f"{name}={self.tree(name, tree)}" for name, tree in one.sources.items()]
        return run("as-buildkit", *options, "--llbm", base.llbm, "-", *words, text=one.data)

    def tree(self, name, tree):
        """Writes the text of a tree, and returns its path."""
        return self.file(name.encode(), b"".join(tree_maps.lines_of(tree))).decode()

    def test_it_names_the_path_what_is_there_and_the_rule(self):
        for shows, lines in [
            ("mkfile over a file", ["vertex 1 action 0: /f has mode 0604 (here 0755): MkfileOver"]),
            ("copy to a dest that ends in `/.`", [
                "vertex 2 action 0: /n is a directory (here a file): DestDot",
                "vertex 2 action 0: /n/f is a file (here missing): DestDot",
            ]),
            ("merge of a tree and of one from which something was removed", [
                "vertex 2: /a is missing (here a file): MergeLayers",
            ]),
        ]:  # fmt: skip
            done = self.compare(example(shows))
            *found, last = done.stdout.decode().splitlines()
            self.assertEqual((done.returncode, found, done.stderr), (1, lines, b""), shows)
            self.assertRegex(last, "^the results differ at [12] paths?$")

    def test_it_counts_the_paths_that_are_not_shown(self):
        for shows, line in [
            ("mkfile over a file", "vertex 1 action 0: and 1 more path"),
            ("copy to a dest that ends in `/.`", "vertex 2 action 0: and 2 more paths"),
        ]:
            self.assertEqual(self.compare(example(shows), "--paths", "0").stdout.decode().splitlines()[0], line)

    def test_it_says_which_of_both_fails_and_why(self):
        for shows, line, last in [
            ("rm below a file with allowNotFound", "vertex 1 action 0: fails: /f/g is below a file: RmBelowFile",
             "BuildKit fails, here is a result"),
            ("mkdir without makeParents where a file is",
             "vertex 1 action 0: does not fail (here: /f is a file): MkdirOver", "BuildKit has a result, here is none"),
            ("mkfile whose second input is its own result",
             "vertex 0 action 0: fails: the second input depends on the action: SecondInput",
             "BuildKit fails, here is a result"),
            ("an action that fails and that no output needs",
             "vertex 1 action 0: is not done (here it fails): UnusedAction", "BuildKit has a result, here is none"),
            ("merge of the empty tree alone", "vertex 0: fails: there is nothing to merge: MergeNothing",
             "BuildKit fails, here is a result"),
        ]:  # fmt: skip
            done = self.compare(example(shows))
            self.assertEqual((done.returncode, done.stderr), (1, b""), shows)
            self.assertEqual(done.stdout.decode().splitlines(), [line, last], shows)

    def test_it_prints_buildkits_tree(self):
        for one in examples():
            done = self.compare(one, "--tree")
            if one.buildkit is None:
                self.assertEqual((done.returncode, done.stdout), (1, b""), one.shows)
            else:
                lines = done.stdout.decode().splitlines()[1:]
                self.assertEqual((done.returncode, lines, done.stderr), (0, one.buildkit, b""), one.shows)

    def test_fields_without_an_effect_are_noted_and_results_agree(self):
        place = self.file(b"p", b"d 0755 0 0 /\n").decode()
        done = run("as-buildkit", "--llbm", base.llbm, "-", f"p={place}", text=definition(source(**FILTERS)))
        names = ["FollowPaths", "IncludePatterns", "ExcludePatterns"]
        lines = [*(f"note 0 {name}" for name in names), "the results agree"]
        self.check_run(done, 0, "".join(f"{line}\n" for line in lines).encode())

    def test_an_execution_is_run_on_the_trees_of_buildkit(self):
        copies = messages.encoded(made("Op", file=made("FileOp", actions=(
            made("FileAction", input=-1, secondaryInput=-1, output=0,
                 mkfile=made("FileActionMkFile", path="/f", mode=0o1644, data=b"x", timestamp=-1)),
        ))))  # fmt: skip
        meta = made("Meta", args=("cp", "/f", "/g"))
        mount = made("Mount", input=0, dest="/", output=0)
        op = made("Op", inputs=(messages.edge(copies),), exec=made("ExecOp", meta=meta, mounts=(mount,)))
        done = run("as-buildkit", "--tree", "--llbm", base.llbm, "-", text=base.ending(copies, messages.encoded(op)))
        self.check_run(done, 0, b"d 0755 0 0 /\nf 0644 0 0 78 /f\nf 0644 0 0 78 /g\n")

    def test_explain_run_has_the_same_lines_at_their_step(self):
        for shows in ["mkfile over a file", "mkdir without makeParents where a file is", "a local source with owners"]:
            one = example(shows)
            words = [f"{name}={self.tree(name, tree)}" for name, tree in one.sources.items()]
            lines = run("explain-run", "--llbm", base.llbm, "-", *words, text=one.data).stdout.decode().splitlines()
            there = [line.removeprefix("    BuildKit: ") for line in lines if line.startswith("    BuildKit: ")]
            *found, _ = self.compare(one).stdout.decode().splitlines()
            self.assertEqual(there, [line.partition(": ")[2] for line in found][: len(there)], shows)
            self.assertTrue(there, shows)
            step = "settle" if shows.startswith("a local") else "action 0"
            before = lines[lines.index(f"    BuildKit: {there[0]}") - 1]
            self.assertTrue(step == "settle" or "action 0" in before or "result 0" in before, before)

    def test_a_session_that_goes_back_and_on_has_the_same_lines(self):
        one = example("merge of a tree and of one from which something was removed")
        launched = self.launched(one)
        watch = last_event.Watch(launched.session, launched.graph, one.data, launched.sources)
        seen = []
        for _ in range(2):
            while launched.session.event("next"):
                seen.append(watch.last().otherwise)
            while launched.session.record:
                launched.session.back()
            watch.last()
        half = len(seen) // 2
        self.assertEqual(seen[:half], seen[half:])
        lines = [line for lines in seen[:half] for line in lines]
        self.assertEqual(lines, ["/a is missing (here a file): MergeLayers"])

    def test_executions_that_end_out_of_order_are_compared_when_they_end(self):
        first, second = base.exec_op("write", "/a", "1"), base.exec_op("write", "/b", "1")
        copy = {"copy": made("FileActionCopy", src="/b", dest="/n/.", mode=-1, timestamp=-1)}
        action = made("FileAction", input=-1, secondaryInput=0, output=0, **copy)
        file = made("Op", inputs=(messages.edge(second),), file=made("FileOp", actions=(action,)))
        entry = messages.encoded(file)
        merge = made("MergeOp", inputs=(made("MergeInput", input=0), made("MergeInput", input=1)))
        last = messages.encoded(made("Op", inputs=(messages.edge(first), messages.edge(entry)), merge=merge))
        place = self.file(b"definition", base.ending(first, second, entry, last)).decode()
        given = {"definition": place, "sources": {}, "workers": 2, "llbm": str(base.llbm)}
        launched = launching.launch(given, lambda _: None)
        self.addCleanup(launched.session.end)
        watch = last_event.Watch(launched.session, launched.graph, launched.entries.data, launched.sources)
        for command in ("claim 0 1", "step 0", "settle 0", "claim 0 2", "step 0"):
            launched.session.event(command)
            otherwise = watch.last().otherwise
        self.assertEqual([line.rpartition(": ")[2] for line in otherwise], ["DestDot", "DestDot"])

    def launched(self, one):
        """Starts a session of an example."""
        trees = {name: self.tree(name, tree) for name, tree in one.sources.items()}
        place = self.file(b"definition", one.data).decode()
        given = {"definition": place, "sources": trees, "workers": 1, "llbm": str(base.llbm)}
        launched = launching.launch(given, lambda _: None)
        self.addCleanup(launched.session.end)
        return launched

    def test_definitions_and_words_are_refused(self):
        for words, data in [
            (["-"], b"\x0a"), (["-", "p"], b""), (["-"], definition(source())), (["--paths", "x", "-"], b""),
        ]:  # fmt: skip
            done = run("as-buildkit", "--llbm", base.llbm, *words, text=data)
            self.assertEqual((done.returncode, done.stdout), (2, b""), words)
