"""Tests of `explain`, and of the parsing of definitions."""

import json
import os
import random
import re
import shutil
import subprocess
import sys
import unittest

from llbm_tools.definitions import faults
from llbm_tools.llb import definition, messages, op_reading, wire
from llbm_tools.llb.messages import made
from llbm_tools.llb.ops import Input
from llbm_tools.llb.wire import Unreadable
from llbm_tools.page.assets import FIELDS
from llbm_tools.rules import explaining, rules_program
from llbm_tools.rules.examples import examples
from llbm_tools.trees import tree_maps
from tests import base
from tests.base import ROOT, TOOLS, Folder, run, run_closed, run_into

ORDINARY = {"k": "3", "i": "1", "N": "12", "V": "7", "C": "0", "P": "5", "WORD": "a b", "NAME": "src", "ID": "my  id"}


class Definitions(unittest.TestCase):
    """Parsing of definitions."""

    def check_unreadable(self, cause, call, *given):
        """Checks that the call is refused for this cause."""
        with self.assertRaises(Unreadable) as caught:
            call(*given)
        self.assertEqual(str(caught.exception), cause)

    def test_bytes_are_parsed_into_records(self):
        data = base.number(1, -1) + base.part(2, "ab") + b"\x1d1234" + b"\x2112345678"
        wanted = [(1, 0, (1 << 64) - 1), (2, 2, b"ab"), (3, 5, b"1234"), (4, 1, b"12345678")]
        self.assertEqual([one[:3] for one in wire.records(data)], wanted)
        self.assertEqual([one[:3] for one in wire.records(b"\x88\x80\x00\x81\x00")], [(1, 0, 1)])

    def test_malformed_records_are_refused(self):
        ends, long = "the bytes end inside a record", "a number has more than 64 bits"
        for data, cause in [
            (b"\x08", ends), (b"\x88", ends), (b"\x12\x02a", ends), (b"\x0d123", ends), (b"\x091234567", ends),
            (b"\x08" + b"\xff" * 9 + b"\x02", long), (b"\x08" + b"\x80" * 10, long), (b"\x08" + b"\x80" * 9, ends),
            (b"\x00\x00", "a record has the field 0"), (base.varint(1 << 32), "a record has the field 536870912"),
            (b"\x0b", "a record has the wire type 3"), (b"\x0f", "a record has the wire type 7"),
        ]:
            self.check_unreadable(cause, list, wire.records(data))

    def test_the_last_member_of_a_oneof_is_used(self):
        first, second = base.source("local://a"), base.file_op(base.rm("/a"))
        self.assertEqual(definition.texts_of(op_reading.read_op(first + second)), ["rm /a"])
        self.assertEqual(definition.texts_of(op_reading.read_op(second + first)), ["local://a"])
        again = op_reading.read_op(second + first + base.file_op(base.rm("/b")))
        self.assertEqual(definition.texts_of(again), ["rm /b"])

    def test_the_parts_of_a_singular_message_are_joined(self):
        one, two = base.file_op(base.rm("/a")), base.file_op(base.rm("/b"))
        self.assertEqual(definition.texts_of(op_reading.read_op(one + two)), ["rm /a", "rm /b"])
        self.assertEqual(op_reading.read(Input, base.number(2, 5) + base.number(2, -1)), Input(index=-1))

    def test_malformed_fields_are_refused(self):
        self.check_unreadable("digest has the wire type 0", op_reading.read, Input, base.number(1, 5))
        self.check_unreadable("digest is not UTF-8", op_reading.read, Input, base.part(1, b"\xff"))
        self.check_unreadable("def has the wire type 0", definition.entries_of, base.number(1, 5))
        self.assertEqual(definition.entries_of(base.number(9, 5) + base.part(2, "x") + base.part(1, "ab")), [b"ab"])

    def test_a_script_is_split_into_commands(self):
        text = "a  && b c &&d && e&& ; f || g; || h"
        op = op_reading.read_op(base.exec_op("/bin/sh", "-c", text))
        self.assertEqual(definition.script_of(op), text)
        self.assertEqual(definition.commands_of(op), ["a", "b c &&d", "e&&", "f", "g;", "h"])
        for words, script in [(["write", "/a b"], "write '/a b'"), (["/bin/sh", "-c"], "/bin/sh -c"), ([], "")]:
            op = op_reading.read_op(base.exec_op(*words))
            self.assertEqual((definition.script_of(op), definition.commands_of(op)), (script, [script]))

    def test_a_repeated_entry_is_one_row(self):
        one, two = base.source("local://a"), base.source("local://b")
        both = base.merge(one, two, one)
        graph = definition.graph_of([two, one, two, both, one, base.inputs(both)])
        self.assertEqual(graph, definition.Graph([0, 1, 3], [[], [], [(1, 0), (0, 0), (1, 0)]], (2, 0)))

    def test_the_terminal_is_not_a_vertex_even_if_repeated(self):
        one = base.source("local://a")
        terminal = base.inputs((one, 2))
        graph = definition.graph_of([terminal, one, base.merge(terminal), terminal])
        self.assertEqual(graph, definition.Graph([1], [[]], (0, 2)))

    def numbered(self, links, start):
        """Returns the rows in vertex order, computed directly from the rule."""
        reached = {start}
        while any(not set(links[row]) <= reached for row in reached):
            reached |= {named for row in reached for named in links[row]}
        order = []
        while len(order) < len(reached):
            order.append(min(row for row in reached - set(order) if set(links[row]) <= set(order)))
        return order

    def test_the_numbering_follows_the_rule(self):
        chance = random.Random(1)
        for _ in range(200):
            count = chance.randint(1, 12)
            made = [base.source(f"local://{place}") for place in range(count)]
            above = {0: []}
            for place in range(1, count):
                above[place] = chance.choices(range(place), k=chance.randint(0, 3))
            for place, named in above.items():
                made[place] += base.inputs(*(made[one] for one in named))
            order = chance.sample(range(count), count)
            start = chance.randrange(count)
            entries = [made[place] for place in order] + [base.inputs(made[start])]
            links = {row: [order.index(one) for one in above[place]] for row, place in enumerate(order)}
            graph = definition.graph_of(entries)
            self.assertEqual(graph.rows, self.numbered(links, order.index(start)))
            self.assertEqual(graph.result, (graph.rows.index(order.index(start)), 0))
            for row, edges in zip(graph.rows, graph.inputs):
                self.assertEqual([graph.rows[vertex] for vertex, _ in edges], links[row])

    def test_a_long_chain_is_numbered(self):
        entries = [base.source("local://a")]
        for _ in range(5000):
            entries.append(base.merge(entries[-1]))
        graph = definition.graph_of([*reversed(entries), base.inputs(entries[-1])])
        self.assertEqual(graph.rows, list(range(5000, -1, -1)))


class Explain(Folder):
    """Explanations of lines."""

    def setUp(self):
        super().setUp()
        self.page = faults.read_page()

    def explained(self, line, *words):
        """Returns the explanation of a line that is given as words."""
        done = run("explain", *words, "--", *line.split(" "))
        self.assertEqual((done.returncode, done.stderr), (0, b""), line)
        return done.stdout.decode().splitlines()

    def sentences(self, number):
        """Returns what the page says about a number that the program prints."""
        return [f"{cause.sentence} {cause.advice}" for cause in self.page.causes_of(number)]

    def arguments_of(self, number):
        """Returns typical arguments of a fault."""
        found = []
        for argument in self.page.causes[number][0].arguments:
            if argument == "FAULT":
                found.append("21" if number == 51 else "1")
            elif argument in faults.NAMES:
                found.append(next(iter(self.page.names[number])))
            else:
                found.append(ORDINARY[argument.strip("[]")])
        return found

    def test_each_fault_has_its_sentence(self):
        lines = [" ".join(["fault", str(number), *self.arguments_of(number)]) for number in self.page.causes]
        done = run("explain", text="\n".join(lines).encode())
        self.assertEqual((done.returncode, done.stderr), (0, b""))
        explained = done.stdout.decode().splitlines()
        for number, line in zip(self.page.causes, lines):
            place = explained.index(line)
            first, *others = self.sentences(number)
            self.assertRegex(explained[place + 1], rf"^  {number}( \(.*\))?: {re.escape(first)}$")
            self.assertEqual(explained[place + 2 :][: len(others)], [f"  or {number}: {text}" for text in others])

    def test_each_name_has_its_sentence(self):
        for number, prefix in [(88, "fault 88 0 "), (89, "fault 89 0 "), (161, "fault 161 3 ")]:
            rows = self.page.names[number].items()
            lines = [prefix + name + " 71 apk" * len(row.arguments) for name, row in rows]
            explained = run("explain", text="\n".join(lines).encode()).stdout.decode().splitlines()
            for line, (name, row) in zip(lines, rows):
                self.assertEqual(explained[explained.index(line) + 2], f"  {name}: {row.sentence} {row.advice}")

    def test_arguments_are_shown_by_their_letters(self):
        for line, prefix in [
            ("fault 83", "83: "), ("fault 82 3 12", "82 (k = 3): "), ("fault 86 3 1", "86 (k = 3, i = 1): "),
            ("fault 161 9 Order", "161 (N = 9, RULE = Order): "), ("fault 111 a\tb", r"111 (ID = a\tb): "),
            ("fault 183", "183: "), ("fault 183 a", "183 (WORD = a): "),
            ("fault 121 my  src", "121 (NAME = my  src): "), ("fault 121 ", "121 (NAME = ): "),
        ]:
            self.assertTrue(self.explained(line)[0].startswith(prefix), line)

    def test_nested_faults_are_explained_in_order(self):
        for line, numbers in [
            ("fault 82 3 12", ["82", "12"]), ("fault 81 13", ["81", "13"]), ("fault 171 135 a b", ["171", "135"]),
            ("fault 89 0 Script 71 apk", ["89", "Script", "71"]), ("fault 51 26", ["51", "26"]),
            ("failed 2 action 0 fault 21", ["failed", "21"]), ("failed 2 action 0 52", ["failed", "52"]),
        ]:
            self.assertEqual([text.split(" ")[0].strip(":") for text in self.explained(line)], numbers)

    def test_a_failure_is_explained(self):
        action, command = self.page.failure("failed V action"), self.page.failure("failed V command")
        wanted = f"failed (V = 2, A = 0, N = 21): {action.sentence} {action.advice}"
        self.assertEqual(self.explained("failed 2 action 0 fault 21")[0], wanted)
        self.assertEqual(self.explained("failed 2 action 0 21")[0], wanted)
        wanted = [f"failed (V = 1, C = 3, S = 1): {command.sentence} {command.advice}"]
        self.assertEqual(self.explained("failed 1 command 3 status 1"), wanted)
        self.assertEqual(self.explained("failed 1 command 3 1"), wanted)

    def test_other_lines_are_refused(self):
        for line, cause in [
            ("hello", "neither a fault, a failure nor a note"), ("failed 2", "neither a fault, a failure nor a note"),
            ("Fault 1", "neither a fault, a failure nor a note"),
            ("failed 1 action 0 fault", "neither a fault, a failure nor a note"),
            ("fault", "a number is missing"), ("fault 7", "there is no fault 7"), ("fault x", "'x' is not a number"),
            ("fault 01", "'01' is not a number"), ("fault 82 3", "a number is missing"),
            ("fault 83 1", "'1' is unexpected"),
            ("fault 89 0", "a name is missing after 89"), ("fault 89 0 DiffOp", "'DiffOp' is not a name after 89"),
            ("fault 89 0 NoRoot 71 x", "'71 x' is unexpected"), ("fault 89 0 Script", "a number is missing"),
            ("failed 1 action 0 fault 7", "there is no fault 7"),
            ("fault" + " 51" * 9, "too many faults inside one another"),
        ]:
            done = run("explain", *line.split(" "))
            self.check_run(done, 2, b"", cause.encode() + b"\n")

    def test_lines_on_standard_input_are_explained(self):
        done = run("explain", text=b"fault 1\n\nhello\r\nfault 2\xff\nfailed 1 command 0 status 1")
        self.assertEqual(done.returncode, 2)
        errors = b"neither a fault, a failure nor a note: line 3\n'2\\\\xff' is not a number: line 4\n"
        self.assertEqual(done.stderr, errors)
        lines = done.stdout.decode().splitlines()
        self.assertEqual(lines[:2], ["fault 1", f"  1: {self.sentences(1)[0]}"])
        self.assertEqual(lines[2:5], ["hello", r"fault 2\xff", "failed 1 command 0 status 1"])
        self.assertEqual(len(lines), 6)

    def test_the_tool_runs_from_any_folder_and_by_a_link(self):
        link = os.fsdecode(self.place(b"link"))
        os.symlink(ROOT / "llbm-tools", link)
        for words in [[ROOT / "llbm-tools", "explain"], [link, "explain"], [TOOLS / "explain"]]:
            done = subprocess.run([*words, "fault", "1"], cwd=self.folder, capture_output=True, timeout=base.GUARD)
            self.check_success(done, f"1: {self.sentences(1)[0]}\n".encode())

    def test_a_missing_page_is_reported(self):
        tools = os.path.join(os.fsdecode(self.folder), "tools")
        shutil.copytree(TOOLS / "llbm_tools", os.path.join(tools, "llbm_tools"))
        shutil.copy(ROOT / "llbm-tools", self.place(b"llbm-tools"))
        words = [sys.executable, "-S", self.place(b"llbm-tools"), "explain", "fault", "1"]
        done = subprocess.run(words, capture_output=True, timeout=base.GUARD)
        self.assertEqual((done.returncode, done.stdout), (2, b""))
        self.assertRegex(done.stderr, rb"\A.*/docs/FAULTS\.md: .*No such file.*\n\Z")
        self.assertEqual(sorted(os.listdir(tools)), ["llbm_tools"])

    def test_failing_standard_streams_are_reported(self):
        with open("/dev/full", "wb") as output:
            done = run_into(output, "explain", "fault", "1")
        self.assertEqual((done.returncode, done.stderr), (3, b"a read or a write failed: No space left on device\n"))
        self.check_run(run_closed(0, "explain"), 3, b"", b"standard input is closed\n")
        self.check_success(run_closed(0, "explain", "fault", "1"), f"1: {self.sentences(1)[0]}\n".encode())
        self.assertEqual(run_closed(1, "explain", "fault", "1").returncode, 3)
        self.check_run(run_closed(2, "explain", "fault", "7"), 2, b"")


class ExplainWithDefinition(base.WithProgram):
    """Explanations of lines with the definition that they come from."""

    def setUp(self):
        super().setUp()
        self.origin = base.source("local://src")
        self.files = base.file_op(base.copy("/a", "/b/"), base.mkfile("/c"), on=[self.origin])
        self.words = base.exec_op("/bin/sh", "-c", "true && cp /none /b", on=[self.files])
        self.entries = [self.words, self.origin, self.files, self.origin, base.inputs(self.words)]
        self.given = self.file(b"definition", base.definition(*self.entries))

    def explained(self, line, given=None, cause=""):
        """Returns the explanation of a line beyond the page's sentences; `cause` says why the definition is refused."""
        given = given or self.given
        done = run("explain", "--definition", given, text=line.encode())
        error = b"%b: %b\n" % (cause.encode(), os.fsencode(given)) if cause else b""
        self.assertEqual((done.returncode, done.stderr), (2 if cause else 0, error), line)
        lines = [text.strip() for text in done.stdout.decode().splitlines()]
        page = run("explain", text=line.encode()).stdout.decode().splitlines()
        return lines[len(page):]

    def test_the_entry_of_a_row_is_shown(self):
        script = "script: true && cp /none /b"
        self.assertEqual(self.explained("fault 89 0 NoRoot"), [f"row 0: {base.digest(self.words)}, exec", script])
        origin = [f"row 3: {base.digest(self.origin)}, source", "identifier: local://src"]
        self.assertEqual(self.explained("fault 88 3 Source"), origin)
        actions = ["action 0: copy /a -> /b/", "action 1: mkfile /c"]
        wanted = [f"row 2: {base.digest(self.files)}, file", *actions, "also refused: fault 89 2 ActionOutput"]
        self.assertEqual(self.explained("fault 89 2 ActionInput"), wanted)
        given = f"input 0: {base.digest(self.words)}, output 0"
        self.assertEqual(self.explained("fault 86 4 0"), [f"row 4: {base.digest(self.entries[4])}, no kind", given])
        self.assertEqual(self.explained("fault 90 4 1"), [f"row 4: {base.digest(self.entries[4])}, no kind"])
        self.assertEqual(self.explained("fault 83"), [])

    def test_vertices_are_numbered_by_the_rule(self):
        wanted = [f"vertex 1, row 2: {base.digest(self.files)}, file", "action 1: mkfile /c"]
        self.assertEqual(self.explained("failed 1 action 1 fault 23"), wanted)
        wanted = [f"vertex 2, row 0: {base.digest(self.words)}, exec", "command 1: cp /none /b"]
        self.assertEqual(self.explained("failed 2 command 1 status 1"), [*wanted, "script: true && cp /none /b"])

    def test_the_path_that_is_none_is_named(self):
        long, deep, odd = "/" + "n" * 256, "/d" * 128, "/a" * 129 + "/.."
        for action, found in [
            (base.copy(long, "/b"), f"not a path: {long!r}"), (base.copy("/a", long), f"not a path: {long!r}"),
            (base.mkfile(long), f"not a path: {long!r}"), (base.mkdir("/a\t/b"), "not a path: '/a\\t/b'"),
            (base.rm(odd), f"not a path: {odd!r}"),
            (base.copy("/a", deep), f"a path below {deep!r} would have more than 128 names"),
        ]:
            given = self.file(b"other", base.ending(base.file_op(base.mkfile("/c"), action)))
            *_, last = self.explained("failed 0 action 1 fault 26", given)
            self.assertEqual(last, found)
            *_, last = self.explained("failed 0 action 1 fault 25", given)
            self.assertTrue(last.startswith("action 1: "), last)

    def test_numbers_outside_the_definition_are_reported(self):
        self.assertEqual(self.explained("fault 84 5", cause="it has no row 5"), [])
        self.assertEqual(self.explained("failed 3 action 0 fault 21", cause="it has no vertex 3"), [])
        wanted = [f"vertex 1, row 2: {base.digest(self.files)}, file"]
        self.assertEqual(self.explained("failed 1 action 2 fault 21"), wanted)

    def test_a_definition_that_cannot_be_parsed_is_reported(self):
        given = self.file(b"other", b"\x0a")
        self.assertEqual(self.explained("fault 81 1", given, "the bytes end inside a record"), [])
        given = self.file(b"other", base.definition(self.origin, b"\x0a"))
        wanted = f"row 1: {base.digest(bytes([10]))}, not an op: the bytes end inside a record"
        self.assertEqual(self.explained("fault 82 1 1", given), [wanted])
        cause = "row 1 is not an op: the bytes end inside a record"
        self.assertEqual(self.explained("failed 0 action 0 fault 21", given, cause), [])
        done = run("explain", "--definition", self.place(b"none"), "fault", "1")
        self.check_run(done, 2, b"", b"there is no such file or directory: " + self.place(b"none") + b"\n")

    def test_at_most_sixteen_actions_are_shown(self):
        files = base.file_op(*(base.rm(f"/{place}") for place in range(18)))
        given = self.file(b"other", base.ending(files))
        explained = self.explained("fault 89 0 ActionInput", given)
        shown = [f"action {place}: rm /{place}" for place in range(16)]
        self.assertEqual(explained[1:], [*shown, "and 2 more", "also refused: fault 89 0 ActionOutput"])

    def test_characters_that_cannot_be_printed_are_escaped(self):
        given = self.file(b"other", base.ending(base.exec_op("write", "/a\n\x1b[1m", "\N{GREEK SMALL LETTER ALPHA}")))
        explained = self.explained("failed 0 command 0 status 1", given)
        words = "write '/a\\n\\x1b[1m' '\N{GREEK SMALL LETTER ALPHA}'"
        self.assertEqual(explained[1:], [f"command 0: {words}", f"script: {words}"])


class Notes(Folder):
    """Explanations of what has no effect, or ends otherwise in BuildKit."""

    def setUp(self):
        super().setUp()
        base.skip_without_rules(self)

    def explained(self, text, *words, status=0):
        """Returns what `explain` prints of lines on standard input."""
        done = run("explain", *words, text=text.encode())
        self.assertEqual(done.returncode, status, done.stderr)
        return done.stdout.decode().splitlines()

    def test_each_field_rule_and_other_note_is_explained(self):
        given = json.loads(FIELDS.read_text("utf-8"))
        for row in [*given["fields"], *given["metadata"], *given["attributes"], given["other_attribute"]]:
            found = explaining.explained(f"note 3 {row['name']}")
            text = "\n".join(found.texts)
            self.assertIn(row["effect"], text)
            self.assertIn(f"What to do: {row['advice']}", text)
            self.assertEqual(found.row, 3)
        for row in rules_program.answers("texts"):
            if row["kind"] not in ("rule", "other"):
                continue
            self.assertIn(f"{row['name']}: {row['where']}. In BuildKit: {row['buildkit']}.", row["words"])
            for line in (f"note 0 {row['name']} action 2", f"vertex 3 action 2: /f is missing: {row['name']}"):
                found = explaining.explained(line)
                self.assertEqual((found.texts, found.action), ([row["words"]], 2))

    def test_each_line_of_as_buildkit_is_explained(self):
        if base.llbm is None:
            raise unittest.SkipTest("the program llbm is needed (--llbm PROGRAM)")
        for one in examples():
            with self.subTest(one.shows):
                words = [self.file(b"definition", one.data)]
                for name, tree in one.sources.items():
                    place = self.file(name.encode(), b"".join(tree_maps.lines_of(tree)))
                    words.append(f"{name}={os.fsdecode(place)}")
                lines = run("as-buildkit", "--llbm", base.llbm, *words).stdout.decode().splitlines()
                texts = [text for line in lines for text in explaining.explained(line).texts]
                if one.buildkit != one.llbm:  # else both fail
                    self.assertTrue(any(text.startswith(f"{one.rule}: ") for text in texts), texts)

    def test_other_lines_about_buildkit_are_explained(self):
        known = explaining.notes()
        for line, texts in [
            ("vertex 1: and 1,234 more paths", ["more paths of this step differ; --paths N shows up to N"]),
            ("vertex 1 action 0: /a is missing: its inputs differ", [f"its inputs differ: {explaining.OF_INHERITED}"]),
            ("action 1: /a has mode 0604 (here 0755): Mode, Owner, and 29 more", known["Mode"] + known["Owner"]),
            ("Network has no effect: the network of the process", known["Network"]),
            ("Attribute local.x has no effect: what it does", [f"{known['Attribute'][0]} (KEY = local.x)"]),
            ("Timestamp of action 2 has no effect: the time of the file", known["Timestamp"]),
            ("note 0 Attribute local.x\tname (Dockerfile:1)", [f"{known['Attribute'][0]} (KEY = local.x)"]),
        ]:
            self.assertEqual(explaining.explained(line).texts, texts)

    def test_lines_are_explained_as_tools_and_clients_print_them(self):
        known = explaining.notes()
        runs = "runs a process of the root mount (here runs applets, of which `rm` differ from programs): Execution"
        for line, texts in [
            ("    BuildKit: /f has mode 0604 (here 0755): MkfileOver", known["MkfileOver"]),
            ("    BuildKit: and 1 more path", ["more paths of this step differ; --paths N shows up to N"]),
            ("    BuildKit: note 1 Network", known["Network"]),
            ("WARN: action 0: /f has mode 0604 (here 0755): MkfileOver", known["MkfileOver"]),
            ("#5 WARN: /f is missing (here a file): MergeLayers, and 2 more", known["MergeLayers"]),
            (" => => WARN: Network has no effect: the network of the process", known["Network"]),
            (" - TmpfsSize of mount 1 has no effect: the size of a tmpfs", known["TmpfsSize"]),
            ("/f is missing (here a file): MergeLayers", known["MergeLayers"]),
            ("/f is missing (here a file): its inputs differ", [f"its inputs differ: {explaining.OF_INHERITED}"]),
            (runs, known["Execution"]),
            (f"vertex 0: {runs}", known["Execution"]),
            ("its inputs differ, so what it makes in BuildKit is not known: Execution", known["Execution"]),
            ("entry 1 input 2: its daemon dies (here takes it): UnknownInput", known["UnknownInput"]),
            ("Mode: mkdir: a mode. In BuildKit: sets 9 bits. In llbm: sets 12.", known["Mode"]),
        ]:
            self.assertEqual(explaining.explained(line).texts, texts, line)
        for line in [
            *explaining.VERDICTS, "the results differ at 1 path", "    BuildKit: not compared: its text has 9 bytes",
            "WARN: not all was compared with what BuildKit would make: it takes more than 30s longer than the build",
            "the definition has a field that BuildKit's library does not know, so it runs by the rules of llbm alone",
            "local source a b: 3 entries are left out, as llbm has only directories, files and links",
        ]:
            self.assertEqual(len(explaining.explained(line).texts), 1, line)

    def test_the_warning_that_the_page_of_the_daemon_shows_is_explained(self):
        lines = (ROOT / "docs" / "DAEMON.md").read_text("utf-8").splitlines()
        shown = [line for line in lines if line.startswith("    WARN: ")]
        self.assertEqual(len(shown), 1)
        for line in (shown[0], shown[0].strip()):
            self.assertEqual(self.explained(line)[1:], [f"  {explaining.notes()['MkfileOver'][0]}"])

    def test_refusals_of_the_daemon_are_explained_as_the_lines_of_the_program(self):
        for line, printed in [
            ("llbm: fault 88 1 DiffOp (diff)", "fault 88 1 DiffOp"),
            ("error: failed to solve: llbm: fault 88 1 Source ([1/3] FROM a (Dockerfile:1))", "fault 88 1 Source"),
            ("llbm: fault 88 1 Source (docker-image://a): llbm has no registries; with more", "fault 88 1 Source"),
            ("llbm: fault 89 0 Script 71 make (RUN make)", "fault 89 0 Script 71 make"),
            ("rpc error: code = Unknown desc = llbm: fault 81 1 Definition", "fault 81 1"),
            ("llbm: fault 86 1 0 UnknownDigest (diff)", "fault 86 1 0"),
            ("llbm: fault 121 context MissingLocal", "fault 121 context"),
            ("llbm: fault 121 context (the client's session offers no local sources)", "fault 121 context"),
            ("llbm: fault 171 141 Board: memory was refused", "fault 171 141"),
            ("llbm: fault 185 TooLong: the text of local source context", "fault 185"),
            ("llbm: failed 0 action 0 fault 21 NotFound: /a/b: no such file", "failed 0 action 0 fault 21"),
            ("llbm: failed 0 command 1 status 1: mkdir a", "failed 0 command 1 status 1"),
            ("fault 89 1 Script 71 apk\t[2/3] RUN apk add git (Dockerfile:2)", "fault 89 1 Script 71 apk"),
        ]:
            self.assertEqual(self.explained(line)[1:], self.explained(printed)[1:], line)
        words = self.explained("llbm: fault 88 Source: a is an image, and llbm has no registries")[1:]
        self.assertEqual(words, self.explained("fault 88 0 Source")[2:])

    def test_an_input_of_an_entry_is_shown(self):
        none = messages.encoded(made("Op", inputs=(made("Input", digest="sha256:none"),), merge=made("MergeOp")))
        source = base.source("local://a")
        data = self.file(b"definition", base.definition(none, source, base.inputs(source)))
        for line in ("entry 0 input 0: its daemon dies (here takes it): UnknownInput", "note 0 UnknownInput input 0"):
            lines = self.explained(line, "--definition", data)
            self.assertTrue(lines[3].startswith("  input 0: "), lines)

    def test_a_note_names_its_entry(self):
        source = base.source("local://a")
        file = base.file_op(base.rm("/a")) + base.inputs(source)
        data = self.file(b"definition", base.definition(source, file, base.inputs(file)))
        lines = self.explained("note 1 RmNoMatch action 0\tmy name\n", "--definition", data)
        self.assertEqual(lines[2].split(", ")[-1:] + lines[3:], ["file", "  action 0: rm /a"])

    def test_what_is_no_note_is_refused(self):
        for line in (
            "note 3 Other", "note x Mode", "vertex 3: what: Other", "vertex 3: what", "the results", "WARN: what",
            "what: Other", "entry 1 input 0: what", "llbm: what", "llbm: fault 88 Other: what",
        ):  # fmt: skip
            self.assertEqual(self.explained(line, status=2), [line])
