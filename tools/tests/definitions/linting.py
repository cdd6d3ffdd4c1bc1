"""Tests of `lint`: of how the tools read ops, and of the faults that the program finds in definitions and scripts."""

import json
import os
import random
import re
import subprocess
import unittest
from unittest import mock

from llbm_tools.common import printable
from llbm_tools.llb import definition, op_reading, scripts, wire
from llbm_tools.llb.findings import ENTRY, FEATURE, RULE, findings_of
from llbm_tools.llb.ops import MESSAGES, CacheOpt, Definition, Mount, Op, UserOpt, fields_of
from llbm_tools.llb.wire import Faulty
from tests import base
from tests.base import ROOT, number, part, run, run_closed, run_into

EXAMPLES = ROOT / "examples"
RUNS = 60


def exec_of(*mounts, args=("true",), meta=b"", more=b"", on=()):
    """Returns an exec with these mounts, words, inputs, and further fields of its meta and of itself."""
    words = b"".join(part(1, arg) for arg in args)
    return base.inputs(*on) + part(2, part(1, words + meta) + b"".join(part(2, mount) for mount in mounts) + more)


def mount(dest="/", output=-1, kind=0, given=-1, more=b""):
    """Returns a mount at a destination."""
    return number(1, given) + part(3, dest) + number(4, output) + number(6, kind) + more


def action(member, given=-1, output=-1):
    """Returns an action with an encoded member."""
    return number(1, given) + number(2, given) + number(3, output) + member


ROOT_MOUNT = mount(output=0)
DIRECTORY = part(6, part(1, "/a"))
MADE = action(DIRECTORY, output=0)
COPY = part(1, "/a") + part(2, "/b")
BY_NAME = part(3, part(1, part(1, part(1, "root"))))


class Reading(base.WithProgram):
    """Parsing of ops, which refuses what the program refuses."""

    def check_faults(self, *cases):
        """Checks that entries are no ops, and that these are the numbers of their first faults."""
        for _, entry in cases:
            with self.assertRaises(Faulty, msg=entry):
                op_reading.read_op(entry)
        found = findings_of(base.definition(*(entry for _, entry in cases)), base.llbm)
        shown = {one.row: one.rest for one in found if one.number == ENTRY}
        self.assertEqual(shown, {row: str(fault) for row, (fault, _) in enumerate(cases)})

    def test_faults_of_records_have_their_numbers(self):
        ends = b"\x80" * 9
        self.check_faults(
            (1, b"\x0a"), (1, b"\x80"), (1, b"\x0a\x02a"), (1, b"\x9d\x06123"), (1, b"\x99\x061234567"), (1, ends),
            (2, ends + b"\x02"), (2, ends + b"\x80"), (2, b"\x98\x06" + ends + b"\x02"), (3, b"\x00"), (3, b"\x03"),
            (3, base.varint(1 << 32)), (4, b"\x0b"), (4, b"\x0c"), (4, b"\x0e"), (4, b"\x0f"),
        )

    def test_the_first_fault_of_an_entry_is_found(self):
        bad = part(1, b"\xff")
        self.check_faults(
            (11, number(1, 0) + b"\x0a"), (1, part(1, bad) + b"\x0a"), (11, part(1, bad) + number(2, 0)),
            (12, part(1, bad)), (12, part(1, bad) + part(2, number(1, 0))), (11, part(1, number(1, 0))),
            (12, part(3, bad)), (12, part(3, bad + part(1, "a"))), (11, part(3, number(2, 0) + bad)),
            (12, part(3, part(2, part(2, b"\xff")))), (13, part(1, b"") * 1_025), (12, part(1, bad) * 1_025),
            (13, part(3, part(2, b"") * 1_025)),
        )

    def test_a_member_that_was_replaced_is_not_parsed(self):
        op = op_reading.read_op(part(3, part(1, b"\xff")) + part(4, part(2, MADE)))
        self.assertEqual((op.kind, op.file.actions[0].kind), ("file", "mkdir"))
        again = op_reading.read_op(part(4, b"\xff") + part(3, part(1, "a")) + part(4, part(2, MADE)) * 2)
        self.assertEqual(len(again.file.actions), 2)

    def test_values_are_converted_to_their_kinds(self):
        shown = op_reading.read(Mount, number(1, -1) + number(6, (1 << 33) + 3) + number(5, 7) + part(21, "x"))
        self.assertEqual((shown.input, shown.mount_type, shown.readonly), (-1, 3, True))
        self.assertEqual((shown.dest, shown.output, shown.cache_opt), ("", 0, None))
        self.assertEqual(op_reading.read(UserOpt, number(2, -1)).by_id, (1 << 32) - 1)
        self.assertEqual(op_reading.read(CacheOpt, number(2, (1 << 32) - 1)).sharing, -1)

    def test_faults_of_definitions_have_their_numbers(self):
        large = b"\x7a\x80\x80\x80\x08" + bytes(1 << 24)
        for fault, data in [
            (1, b"\x0a"), (11, number(2, 0)), (11, number(3, 0)), (13, b"\x0a\x00" * 65_537), (13, part(1, large)),
        ]:
            with self.assertRaises(Faulty):
                op_reading.read_definition(data)
            self.assertEqual([one.words() for one in findings_of(data, base.llbm)], [f"81 {fault}"])
        self.assertEqual(len(op_reading.read_definition(b"\x0a\x00" * 65_536)), 65_536)


def numbers_in(text):
    """Returns the numbers of a cell, such as `2 to 4, 6`."""
    ends = [part.split(" to ") for part in text.split(", ")]
    return [number for end in ends for number in range(int(end[0]), int(end[-1]) + 1)]


def fields_on_the_page():
    """Returns message, number and name of each field that docs/FORMATS.md does not call extra."""
    page = (ROOT / "docs" / "FORMATS.md").read_text("utf-8")
    table = page.partition("| Message | Number | Field | Type |")[2].partition("\n\n")[0].splitlines()[2:]
    found, message = set(), ""
    for name, numbers, shown, kind, *_ in ([cell.strip() for cell in row.split("|")[1:]] for row in table):
        message = name or message
        if kind != "extra":
            fields = re.findall("`(.*?)`", re.sub(r"\(.*?\)", "", shown))
            found |= {(message, *pair) for pair in zip(numbers_in(numbers), fields, strict=True)}
    return found


class Table(unittest.TestCase):
    """The table of messages."""

    def test_the_fields_are_those_of_the_page(self):
        inner = {("AttributeEntry", 1, "key"), ("AttributeEntry", 2, "value")}
        known = set()
        for name, message in {**MESSAGES, "Definition": Definition}.items():
            known |= {(name, field.number, field.name) for field in fields_of(message).values()}
        self.assertEqual(known, fields_on_the_page() | inner)


class Scripts(base.WithProgram):
    """Words that are scripts, and words that are not."""

    def check_faults(self, wanted):
        """Checks the faults of some words, which are asked for at once."""
        wanted = [(tuple(words), fault) for words, fault in wanted]
        found = scripts.faults_of([words for words, _ in wanted], base.llbm)
        self.assertEqual(found, {words: fault for words, fault in wanted if fault is not None})

    def test_texts_have_their_faults(self):
        alpha = "\N{GREEK SMALL LETTER ALPHA}"
        self.check_faults((["/bin/sh", "-c", text], fault) for text, fault in [
            ("true", None), ("  true  ", None), ("true && false ; rm a || rm b", None), ("", "73 0"),
            ("  ", "73 2"), ("a; b", "73 1"), ("; true", "73 0"), ("true ;", "73 6"), ("true && ; true", "73 8"),
            ("true $x", "73 5"),
            (f"rm {alpha} !", "73 6"), (f"rm {alpha}", None), ("true\ttrue", "73 4"), ("rm 'a'", "73 3"),
            ("apk", "71 apk"), ("true && apk", "71 apk"), ("true && rm ; apk", "72 1"), ("rm ; apk", "72 0"),
            (f"{alpha} ; rm", f"71 {alpha}"), ("true true", "72 0"), ("true;", "73 4"), ("rm && rm &&& rm", "73 9"),
        ])

    def test_words_without_the_shell_have_their_faults(self):
        self.check_faults([
            (["true"], None), (["rm", "a b;"], None), (["true", "&&", "true"], "72 0"), (["/bin/sh"], "71 /bin/sh"),
            (["/bin/sh", "-c"], "71 /bin/sh"), (["/bin/sh", "-x", "true"], "71 /bin/sh"), ([""], "71 "),
            (["/bin/sh", "-c", "true", "a"], "71 /bin/sh"), (["sh", "-c", "true"], "71 sh"),
            (["a\nfault 88 0 Source\n"], "71 a\nfault 88 0 Source\n"), (["rm"] * 1_025, f"82 {5 + 5} 13"),
        ])

    def test_many_words_are_asked_for_in_few_definitions(self):
        with mock.patch.object(scripts, "MOST", 10):
            self.check_faults((["apk", str(number)], "71 apk") for number in range(21))
            self.check_faults([])

    def test_each_applet_has_its_form(self):
        self.check_faults((form.split(" "), None) for form in [
            "true", "false", "mkdir a", "mkdir -p", "mkdir -p a", "rm a", "write a b", "append a b", "cp a b",
            "concat a b", "concat a b c", "chmod 0 a", "chmod 7777 a", "test -e a", "test -f a", "test -d a",
            "listing a b", "envfile a", "sha256 a b",
        ])
        self.check_faults((form.split(" "), "72 0") for form in [
            "true a", "false a", "mkdir", "mkdir a b", "mkdir -p a b", "rm", "rm a b", "write a", "append a b c",
            "cp a", "concat", "concat a", "chmod 8 a", "chmod 07777 a", "chmod a", "chmod  a", "test a", "test -x a",
            "listing a", "envfile", "sha256 a",
        ])


class Ops(base.WithProgram):
    """Features and rules of one op."""

    def check(self, number, cases):
        """Checks that entries have exactly these names after this fault, beside a local source that they may be on."""
        wanted = {entry: names for names, *entries in cases for entry in entries}
        entries = list(dict.fromkeys([base.source("local://a"), *wanted]))
        found = findings_of(base.ending(*entries, base.merge(*entries)), base.llbm)
        for row, entry in enumerate(entries):
            names = [one.rest for one in found if (one.number, one.row) == (number, row)]
            self.assertEqual(names, wanted.get(entry, []), entry)

    def test_each_feature_is_found(self):
        self.check(FEATURE, [
            (["DiffOp"], part(7, b"")), (["BuildOp"], part(5, b"x")),
            (["Source"], base.source("docker-image://a"), base.source(""), base.source("local:/")),
            ([], base.source("local://"), base.source("local://a"), b"", base.exec_op("apk"), base.merge()),
            (["SecretMount"], exec_of(ROOT_MOUNT, mount("/s", kind=1))),
            (["SshMount"], exec_of(ROOT_MOUNT, mount("/s", kind=2))), (["SecretEnv"], exec_of(more=part(5, b""))),
            (["SecretMount", "SshMount", "SecretEnv"], exec_of(mount(kind=2), mount(kind=1), more=part(5, b"\xff"))),
            (["Action"], base.file_op(action(b"")), base.file_op(action(part(8, b"")))),
            (["Unpack"], base.file_op(action(part(4, COPY + number(7, 2))))),
            (["Patterns"], *(base.file_op(action(part(4, COPY + part(field, "")))) for field in (12, 13))),
            (["OwnerByName"], base.file_op(action(part(4, COPY + BY_NAME)))),
            (["OwnerByName"], *(base.file_op(action(part(field, part(4, BY_NAME[2:])))) for field in (5, 6))),
            (["CopyField"], base.file_op(action(part(4, COPY + number(14, 0))))),
            ([], base.file_op(action(part(4, COPY + part(3, part(1, part(1, "a") + number(2, 1))))))),
            (["Unpack", "Patterns", "OwnerByName", "CopyField"],
             base.file_op(action(part(4, part(12, "") + BY_NAME + number(7, 1) + part(15, ""))))),
        ])

    def test_each_rule_of_sources_file_ops_and_merges_is_found(self):
        one = base.source("local://a")
        self.check(RULE, [
            (["NoKind"], b"", base.inputs(one)), (["LocalName"], base.source("local://")),
            ([], base.source("local:///"), base.source("docker-image://"), part(5, b""), part(7, b"")),
            (["NoActions"], base.file_op(on=[one])), ([], base.file_op(MADE), base.file_op(MADE, on=[one])),
            (["ActionInput"], *(base.file_op(action(part(6, b""), given=given)) for given in (-2, 0, 1))),
            (["ActionInput"], base.file_op(number(1, -1) + number(3, -1) + part(4, COPY))),
            ([], base.file_op(number(1, -1) + number(3, -1) + DIRECTORY)),
            ([], base.file_op(MADE, action(part(4, COPY), 1, 1), on=[one])),
            (["ActionInput"], base.file_op(MADE, action(part(4, COPY), 2, 1), on=[one])),
            (["ActionOutput"], *(base.file_op(action(part(6, b""), output=output)) for output in (-2, 1, 1 << 40))),
            (["ActionOutput"], base.file_op(MADE, MADE)), (["NoActions"], part(4, part(1, "x"))),
            (["ActionInput", "ActionOutput"], base.file_op(action(part(6, b""), 5, 5))),
            ([], base.merge(one), part(6, b""), part(6, part(1, number(1, -1)))),
            (["MergeInput"], *(base.inputs(one) + part(6, part(1, number(1, given))) for given in (-2, 1))),
        ])

    def test_each_rule_of_execs_is_found(self):
        one = base.source("local://a")
        cache = part(20, part(1, "id"))
        shared = mount("/c", kind=3, more=cache)
        ways = [part(20, number(2, way)) for way in (-1, 3)]
        seeded = [mount(dest, kind=3, more=cache, given=given) for dest, given in [("/c", 0), ("/d", 1)]]
        self.check(RULE, [
            (["NoMeta", "NoMounts", "NoRoot"], part(2, b"")), (["NoMeta"], part(2, part(2, ROOT_MOUNT))),
            (["NoArgs"], exec_of(ROOT_MOUNT, args=())), (["NoMounts", "NoRoot"], exec_of()),
            (["NoRoot"], exec_of(mount("/a"))), ([], *(exec_of(mount(dest)) for dest in ("", "//", "/.", "/a/.."))),
            (["NoRoot", "BadPath"], exec_of(mount("/\x01"))),
            (["BadPath"], exec_of(ROOT_MOUNT, mount("/" + "a" * 256)), exec_of(ROOT_MOUNT, meta=part(3, "\n"))),
            (["BadPath"], exec_of(mount(more=part(2, "/\x7f/..")))),
            (["BadPath"], exec_of(mount(more=part(2, "/a" * 129)))), ([], exec_of(mount(more=part(2, "/a" * 128)))),
            (["SameDest"], exec_of(ROOT_MOUNT, mount("/a"), mount("//a/."))),
            (["SameDest", "MountOutput"], exec_of(ROOT_MOUNT, ROOT_MOUNT)),
            (["MountKind"], *(exec_of(ROOT_MOUNT, mount("/a", kind=kind)) for kind in (-1, 5))),
            (["MountInput"], *(exec_of(mount(given=given), on=[one]) for given in (-2, 1))),
            ([], exec_of(mount(given=0), on=[one]), exec_of(ROOT_MOUNT, mount("/t", kind=4, given=9))),
            (["MountOutput"], *(exec_of(ROOT_MOUNT, mount("/a", output=output)) for output in (0, 2, -2))),
            (["MountOutput"], exec_of(ROOT_MOUNT, mount("/t", output=1, kind=4))),
            (["MountOutput"], exec_of(ROOT_MOUNT, mount("/t", output=1, kind=3, more=cache))),
            (["NoCacheOpt"], exec_of(ROOT_MOUNT, mount("/c", kind=3))), ([], exec_of(ROOT_MOUNT, shared)),
            (["Sharing"], *(exec_of(ROOT_MOUNT, mount("/c", kind=3, more=options)) for options in ways)),
            (["CacheTwice"], exec_of(ROOT_MOUNT, shared, mount("/d", kind=3, more=cache))),
            ([], exec_of(ROOT_MOUNT, shared, mount("/d", kind=3, more=cache, given=0), on=[one])),
            ([], exec_of(ROOT_MOUNT, shared, mount("/d", kind=3, more=part(20, part(1, "id") + number(2, 1))))),
            (["CacheTwice"], exec_of(ROOT_MOUNT, *seeded, on=[one, one])),
            (["Script 71 apk"], exec_of(ROOT_MOUNT, args=["apk"])),
            (["Script 73 4"], exec_of(ROOT_MOUNT, args=["/bin/sh", "-c", "true;"])),
        ])


class Findings(base.WithProgram):
    """All findings of a definition, and their order."""

    def setUp(self):
        super().setUp()
        self.origin = base.source("local://src")

    def check_findings(self, data, *lines):
        """Checks the findings of a definition."""
        self.assertEqual([finding.words() for finding in findings_of(data, base.llbm)], list(lines))

    def test_accepted_definitions_have_no_findings(self):
        self.check_findings(base.ending(self.origin))
        self.check_findings(base.ending(self.origin, exec_of(ROOT_MOUNT)))
        unreached = [base.source("git://a"), base.source("local://")]
        self.check_findings(base.definition(self.origin, *unreached, base.inputs(self.origin)))

    def test_some_faults_leave_no_rows_to_check(self):
        self.check_findings(b"\x0a", "81 1")
        self.check_findings(number(1, 0), "81 11")
        self.check_findings(b"", "83")
        self.check_findings(base.definition(self.origin, self.origin), "83")
        self.check_findings(base.definition(b"\x0b"), "82 0 4", "83")

    def test_faults_of_the_terminal_are_found(self):
        wrong = base.source("git://a")
        self.check_findings(base.definition(self.origin, b""), "85")
        self.check_findings(base.definition(wrong, self.origin), "85")
        self.check_findings(base.definition(wrong, base.inputs(b"none")), "86 1 0")
        self.check_findings(base.definition(wrong, b"\x0b"), "82 1 4")
        terminal = base.inputs(self.origin)
        self.check_findings(base.definition(terminal, self.origin, base.merge(terminal), terminal))
        self.check_findings(base.definition(self.origin, base.inputs((self.origin, 1))), "90 1 0")
        self.check_findings(base.definition(self.origin, base.inputs((self.origin, -1), b"none")), "90 1 0")

    def test_each_entry_has_its_findings(self):
        run_it = exec_of(mount(given=4), mount("/s", kind=1, output=-1), args=["apk"], on=[self.origin])
        files = base.file_op(action(b""), on=[(run_it, 0), (self.origin, 1)])
        last = base.merge(files, b"none", run_it)
        self.check_findings(
            base.ending(self.origin, run_it, files, last),
            "86 3 1", "88 1 SecretMount", "89 1 MountInput", "89 1 Script 71 apk", "88 2 Action", "90 2 0", "90 2 1",
            "90 3 0", "90 3 2",
        )

    def test_the_programs_own_fault_comes_first(self):
        broken, remote = base.source("local://"), base.source("git://a")
        self.check_findings(base.ending(broken, remote, base.merge(broken, remote)), "88 1 Source", "89 0 LocalName")
        self.check_findings(base.ending(broken, base.merge((broken, 1), broken)), "89 0 LocalName", "90 1 0")
        user = base.merge((self.origin, 5))
        data = base.ending(self.origin, user, base.merge((user, 7), b"none"))
        self.check_findings(data, "86 2 1", "90 1 0", "90 2 0")

    def test_indexes_are_not_checked_if_outputs_cannot_be_numbered(self):
        twice = base.file_op(MADE, MADE)
        self.check_findings(base.ending(part(7, b""), base.merge((part(7, b""), 4))), "88 0 DiffOp")
        self.check_findings(base.ending(twice, base.merge((twice, 4))), "89 0 ActionOutput")

    def test_entries_that_are_not_ops_lead_nowhere(self):
        faulty, remote = b"\x0b", base.source("git://a")
        self.check_findings(base.definition(faulty, remote, self.origin, base.inputs(self.origin)), "82 0 4")
        reached = base.merge(faulty)
        self.check_findings(base.ending(remote, faulty, faulty, reached), "82 1 4", "82 2 4")
        unknown = base.merge(b"none")
        self.check_findings(base.ending(unknown, faulty, reached), "82 1 4")
        self.check_findings(base.ending(remote, unknown, faulty, base.merge(remote, faulty)), "82 2 4", "88 0 Source")

    def test_an_input_that_names_no_row_leads_nowhere(self):
        lost = base.merge(b"other")
        self.check_findings(base.ending(lost, self.origin, base.merge(b"none", self.origin)), "86 2 0")

    def test_a_program_that_lists_no_findings_is_named(self):
        fake = self.file(b"fake", base.FAKE_SHELL.encode() + b"echo fault 183 >&2\nexit 2\n")
        os.chmod(fake, 0o755)
        done = run("lint", "--llbm", fake, text=base.ending(self.origin))
        self.check_run(done, 3, b"", b"the program knows no show --findings\n")


class Lint(base.WithProgram):
    """The tool `lint`."""

    def named(self, entry, name):
        """Returns metadata that gives an entry a name."""
        return part(2, part(1, base.digest(entry)) + part(2, part(2, part(1, "llb.customname") + part(2, name))))

    def test_each_finding_is_a_line_with_the_name_of_its_entry(self):
        base.skip_without_rules(self)
        wrong = base.source("git://a\t\n")
        apk = exec_of(ROOT_MOUNT, args=["apk\nadd\t"], on=[wrong])
        data = base.ending(wrong, apk) + self.named(apk, "[2/2] RUN\tapk")
        lines = b"fault 88 0 Source\nfault 89 1 Script 71 apk\\nadd\\t\t[2/2] RUN\\tapk\n"
        self.check_run(run("lint", text=data), 1, lines)
        self.check_run(run("lint", self.file(b"definition", data)), 1, lines)
        errors = b"not a definition: the bytes end inside a record: standard input\n"
        self.check_run(run("lint", text=b"\x0a"), 1, b"fault 81 1\n", errors)
        self.check_success(run("lint", text=base.ending(base.source("local://a"))))

    def test_the_object_has_all_findings(self):
        data = base.ending(base.source("git://a")) + self.named(base.source("git://a"), "the é")
        found = {"kind": "fault", "words": "88 0 Source", "name": "the é"}
        done = run("lint", "--json", text=data)
        wanted = {"findings": [found], "faults": 1, "notes": 0}
        self.assertEqual((done.returncode, json.loads(done.stdout)), (1, wanted))
        done = run("lint", "--json", text=base.ending(base.source("local://a")))
        self.assertEqual((done.returncode, json.loads(done.stdout)), (0, {"findings": [], "faults": 0, "notes": 0}))

    def test_explain_reads_the_lines(self):
        data = base.ending(part(7, b""), base.merge(part(7, b"")), exec_of(args=["/bin/sh", "-c", ";"]))
        lines = run("lint", text=data).stdout.split(b"\n")
        done = run("explain", text=b"\n".join(line.split(b"\t")[0] for line in lines))
        self.assertEqual((done.returncode, done.stderr), (0, b""))

    def test_a_text_in_the_place_of_a_definition_is_named(self):
        place = self.file(b"Dockerfile", b"FROM alpine\nRUN \xc3\xa9\n")
        done = run("lint", place)
        line = b"not the bytes of a definition but a text: " + place + b"; "
        self.assertEqual((done.returncode, done.stderr.startswith(line)), (1, True), done.stderr)
        self.assertTrue(done.stdout.startswith(b"fault 81 "))
        line = b"not a definition: a record has the field 0: " + self.place(b"other") + b"\n"
        self.assertEqual(run("lint", self.file(b"other", b"\x00\xff")).stderr, line)
        for words in [
            ["dump"], ["adopt"], ["graph-of-show"], ["json-of-show"], ["graph-of-show", "--definition"],
            ["json-of-show", "--definition"], ["trace-of-record", "--definition"],
        ]:
            shown = b"0 merge steps 0 outputs 1 inputs -\nresult 0.0\n"
            self.check_run(run(*words, place, text=shown), 2, b"", done.stderr[:-1] + b" (fault 161 1 Syntax)\n")
            other = run(*words, self.place(b"other"), text=shown)
            self.check_run(other, 2, b"", line)

    def test_a_text_of_entries_is_taken_as_its_definition(self):
        place, text = EXAMPLES / "tour.definition", EXAMPLES / "tour.text"
        shown = subprocess.run([base.llbm, "show"], input=place.read_bytes(), capture_output=True).stdout
        for words in [
            ["lint"], ["dump"], ["adopt"], ["graph-of-show"], ["json-of-show"], ["graph-of-show", "--definition"],
            ["json-of-show", "--definition"], ["explain", "failed", "2", "command", "1", "status", "1", "--definition"],
        ]:
            done = run(*words, place, text=shown)
            self.assertEqual(done.returncode, 0, done.stderr)
            self.check_run(run(*words, text, text=shown), 0, done.stdout, done.stderr)

    def test_command_lines_and_closed_streams_are_refused(self):
        self.assertEqual(run("lint", "a", "b").returncode, 2)
        self.assertEqual(run("lint", "--none").returncode, 2)
        missing = self.place(b"none")
        self.check_run(run("lint", missing), 2, b"", b"there is no such file or directory: " + missing + b"\n")
        self.check_run(run_closed(0, "lint"), 3, b"", b"standard input is closed\n")
        with open("/dev/full", "wb") as output:
            done = run_into(output, "lint", self.file(b"definition", b"\x0a"))
        self.assertEqual(done.returncode, 3)
        self.assertTrue(done.stderr.endswith(b"\na read or a write failed: No space left on device\n"), done.stderr)


def ops_of_all_kinds(chance):
    """Returns a definition with random entries, many of which break a rule."""
    entries = [base.source(chance.choice(["local://a", "local://b", "git://a", "local://"]))]
    for _ in range(chance.randint(1, 4)):
        on = [(chance.choice([*entries, b"none", part(7, b"")]), chance.choice([0, 0, 0, 1])) for _ in range(2)]
        on = [one if chance.random() < 0.1 or one[0] in entries else (entries[0], 0) for one in on]
        mounts = [mount(output=chance.choice([0, 0, -1]), given=chance.choice([-1, 0, 2]))]
        for _ in range(chance.randint(0, 2)):
            more = chance.choice([b"", part(20, part(1, "id")), part(20, number(2, 3)), part(2, "\n"), part(21, "x")])
            dest = chance.choice(["/a", "/b", "", "/\x01"])
            mounts.append(mount(dest, chance.choice([-1, -1, 1]), chance.choice([0, 1, 2, 3, 4, 5]), 0, more))
        words = [["true"], ["apk"], [], ["/bin/sh", "-c", chance.choice(["true ; true", "rm", "true;"])]]
        members = [DIRECTORY, part(8, b""), b"", part(5, part(4, BY_NAME[2:])), part(7, COPY)]
        members += [part(4, COPY + more) for more in (b"", number(7, 1), part(12, ""), BY_NAME, number(14, 1))]
        actions = [action(chance.choice(members), chance.choice([-1, 0, 1]), place) for place in range(2)]
        made = [
            exec_of(*mounts, args=chance.choice(words), on=on), exec_of(ROOT_MOUNT, on=on), base.merge(*on),
            base.file_op(*actions, on=on), base.file_op(MADE, on=on), base.inputs(*on) + part(7, b""), base.inputs(*on),
        ]
        entries.append(chance.choice(made))
    return base.ending(*entries)


def with_bytes_changed(chance, data):
    """Returns the bytes with some of them changed, inserted or removed."""
    data = bytearray(data)
    for _ in range(chance.randint(1, 3)):
        place = chance.randrange(len(data) + 1)
        data[place : place + chance.randint(0, 2)] = chance.randbytes(chance.randint(0, 2))
    return bytes(data)


def with_field_changed(chance, data, message=Op):
    """Returns a message with a random record removed, doubled or changed, at any depth."""
    records = list(wire.records(data))
    if not records:
        return data + number(chance.randint(1, 8), 1)
    place = chance.randrange(len(records))
    field, form, held, text = records[place]
    named = fields_of(message).get(field)
    if named and isinstance(named.kind, type) and form == wire.LENGTH and chance.random() < 0.8:
        new = part(field, with_field_changed(chance, held, named.kind))
    elif chance.random() < 0.4:
        new = chance.choice([b"", text * 2])
    elif form == wire.LENGTH:
        new = part(field, chance.choice([b"", b"/", b"/a", b"local://", b"\xff", b"apk", b";", held + b"/", held[:-1]]))
    else:
        new = number(field, chance.choice([-2, -1, 0, 1, 2, 3, 5, 1 << 40]))
    return b"".join(record.text for record in records[:place]) + new + b"".join(
        record.text for record in records[place + 1 :]
    )


def with_entries_changed(chance, data, change=with_field_changed):
    """Returns a definition with one entry changed, and the digests in later entries updated."""
    entries = definition.entries_of(data)
    changed = chance.randrange(len(entries))
    digests: dict[bytes, bytes] = {}
    for place, entry in enumerate(entries):
        made = change(chance, entry) if place == changed and entry else entry
        for old, new in digests.items():
            made = made.replace(old, new)
        digests[base.digest(entry).encode()] = base.digest(made).encode()
        entries[place] = made
    return base.definition(*entries)


class BesideTheProgram(base.WithProgram):
    """The first finding is the program's fault, and there are none if the program accepts the definition."""

    def program(self, word, data):
        """Runs the program on these bytes."""
        return subprocess.run([base.llbm, word], input=data, capture_output=True, timeout=base.GUARD)

    def beside(self, data):
        """Returns whether the program accepts the definition, and checks that it prints the first finding if not."""
        done = self.program("show", data)
        found = findings_of(data, base.llbm)
        wanted = [f"fault {finding.words()}\n" for finding in found[:1]]
        self.assertEqual(done.stderr.decode(), "".join(wanted), data.hex())
        self.assertEqual(done.returncode, 2 if found else 0)
        return not found

    def examples(self):
        """Yields the definitions of the examples."""
        for place in sorted(EXAMPLES.glob("*.definition")):
            yield place.read_bytes()
        for place in sorted(EXAMPLES.glob("*/definition.text")):
            yield self.program("asm", place.read_bytes()).stdout

    def test_the_first_finding_of_changed_examples_is_the_programs(self):
        chance = random.Random(1)
        given = list(self.examples())
        self.assertTrue(all(self.beside(data) for data in given))
        for _ in range(RUNS // 2):
            self.beside(chance.choice([with_bytes_changed, with_entries_changed])(chance, chance.choice(given)))

    def test_the_first_finding_of_random_definitions_is_the_programs(self):
        chance = random.Random(2)
        taken = sum(self.beside(ops_of_all_kinds(chance)) for _ in range(RUNS // 2))
        self.assertGreater(taken, 0)

    def test_the_first_line_of_the_tool_is_the_programs(self):
        data = base.ending(base.source("git://a"), base.exec_op("apk\n", on=[base.source("git://a")]))
        fault_line = self.program("show", data).stderr.decode()
        done = run("lint", text=data)
        self.assertEqual(done.stdout.decode().split("\n")[0], printable(fault_line.rstrip("\n")))
