"""Tests of `adopt`."""

import json
import os
import pathlib
import random
import re
import shlex
import subprocess
import unittest

from llbm_tools import paths
from llbm_tools.definitions import adopted_ops, adoption_rules
from llbm_tools.llb import local_names
from llbm_tools.llb.findings import findings_of
from llbm_tools.streams import Refused
from tests import base
from tests.base import number, part, run, run_closed, run_into
from tests.definitions import linting
from tests.definitions.linting import EXAMPLES, ROOT_MOUNT, action, exec_of, mount

IMAGE = "docker-image://docker.io/library/alpine:3.19"
SHARED = paths.ROOT / "daemon" / "internal" / "standins" / "testdata" / "rules.json"
PLATFORM = part(10, part(1, "amd64") + part(2, "linux"))
NAMED = part(3, part(1, part(1, part(1, "root"))) + part(2, number(2, 7) + part(99, "x")))


def metadata(entry, name):
    """Returns metadata that gives an entry a name, with fields that no tool reads."""
    description = part(2, part(1, "llb.customname") + part(2, name)) + number(1, 1) + part(77, "x")
    return part(2, part(2, description) + number(9, 9) + part(1, base.digest(entry)))


def places(*entries):
    """Returns `Source` with a location for each entry, and a file."""
    held = [part(1, part(1, base.digest(entry)) + part(2, part(1, number(1, 0)))) for entry in entries]
    return part(3, part(2, part(1, "Dockerfile") + part(2, "FROM")) + b"".join(held) + part(99, "x"))


RUN = "RUN --mount=type=secret,id=token apk add git"
COPY = "COPY --chown=app text /srv/"


def foreign():
    """Returns what a client of BuildKit marshals for a Dockerfile of three lines: the example `foreign.llb`."""
    image = base.source(IMAGE) + PLATFORM
    meta = part(1, "/bin/sh") + part(1, "-c") + part(1, "apk add git") + part(2, "PATH=/bin") + part(3, "/")
    secret = number(1, -1) + part(3, "/run/secrets/token") + number(6, 1) + part(21, part(1, "token"))
    apk = base.inputs(image) + part(2, part(1, meta) + part(2, part(3, "/")) + part(2, secret)) + PLATFORM
    context = part(3, part(1, "local://context") + part(2, part(1, "local.unique") + part(2, "x")))
    user = part(3, part(1, part(1, part(1, "app"))))
    flags = b"".join(number(field, 1) for field in (5, 6, 8, 9, 10))
    copied = part(1, "/text") + part(2, "/srv/") + user + number(4, -1) + flags + number(11, -1)
    copy = base.inputs(apk, context) + part(4, part(2, number(2, 1) + part(4, copied))) + PLATFORM
    made = enumerate([image, apk, copy], 1)
    shown = [(image, f"[1/3] FROM {IMAGE[15:]}"), (apk, f"[2/3] {RUN}"), (context, "[internal] load build context")]
    shown.append((copy, f"[3/3] {COPY}"))
    described = [(entry, part(2, part(1, "llb.customname") + part(2, name))) for entry, name in shown]
    described = [part(2, part(1, base.digest(entry)) + part(2, held)) for entry, held in described]
    lines = [(entry, part(2, part(1, number(1, line)) + part(2, number(1, line)))) for line, entry in made]
    held = [part(1, part(1, base.digest(entry)) + part(2, part(1, at))) for entry, at in lines]
    file = part(1, "Dockerfile") + part(2, f"FROM alpine:3.19\n{RUN}\n{COPY}\n") + part(4, "Dockerfile")
    return base.ending(image, apk, context, copy) + b"".join(described) + part(3, b"".join(held) + part(2, file))


class LocalNames(unittest.TestCase):
    """Names of local sources, from the identifiers of others."""

    def test_an_identifier_has_a_short_name(self):
        for identifier, name in [
            (IMAGE, "alpine"), (IMAGE + "@sha256:" + "0" * 64, "alpine"), ("docker-image://localhost:5000/a/b", "b"),
            ("oci-layout://content/store@sha256:00", "store"), ("docker-image://x", "x"), ("docker-image://", "source"),
            ("git://github.com/moby/buildkit.git#v1:sub/dir", "buildkit"), ("git://git@host/a/b.git", "b"),
            ("https://host/a/file.tar.gz?x=/y#z", "file.tar.gz"), ("https://host/", "host"),
            ("http://h/a%20b/", "a-20b"),
            ("https://host/.", "source"), ("https://host/" + "a" * 40, "a" * 32), ("https://host/\u03b1=b", "b"),
        ]:
            self.assertEqual(local_names.short_name(identifier), name, identifier)

    def test_some_schemes_are_known(self):
        for identifier, known in [
            (IMAGE, True), ("docker-image+blob://a", True), ("oci-layout://a", True), ("git://a", True),
            ("http://a", True), ("https://a", True), ("local://a", False), ("docker-image:a", False),
            ("other://a", False), ("", False),
        ]:
            self.assertEqual(local_names.is_known(identifier), known, identifier)

    def test_no_name_is_given_twice(self):
        given = local_names.LocalNames(["local://alpine", "local://alpine-3", IMAGE])
        self.assertEqual([given.new_name(IMAGE) for _ in range(3)], ["alpine-2", "alpine-4", "alpine-5"])


class Rules(base.WithProgram):
    """Files of rules."""

    def test_rules_are_parsed(self):
        text = "# c\n\n digest sha256:0 => true\r\nname 'a b' => mkdir -p \"/a b\"\nwords x '=> y' => \nwords => rm a\n"
        rules = [
            (3, "digest", ("sha256:0",), ("true",)), (4, "name", ("a b",), ("mkdir", "-p", "/a b")),
            (5, "words", ("x", "=> y"), ()), (6, "words", (), ("rm", "a")),
        ]
        self.assertEqual(list(map(tuple, adoption_rules.rules_in(text.encode(), base.llbm))), rules)

    def test_lines_that_are_not_rules_are_refused(self):
        one = "exactly one word goes between name and =>"
        for line, cause in [
            ("word a => true", "a rule begins with digest, name, words or pattern"), ("name a true", "there is no =>"),
            ("name => true", one), ("name a b => true", one), ("name 'a => true", "no closing quotation"),
            ("name a=>true", "there is no =>"), ("name a => apk", "the new words are not a script, fault 71 apk"),
            ("words a => /bin/sh -c 'rm'", "the new words are not a script, fault 72 0"),
        ]:
            with self.assertRaises(Refused) as caught:
                adoption_rules.rules_in(f"\n{line}\n".encode(), base.llbm)
            self.assertEqual(str(caught.exception), f"{cause}: line 2")
        with self.assertRaises(Refused):
            adoption_rules.rules_in(b"\xff", base.llbm)


def definition_in(text, name):
    """Returns the definition that a constant of a source file has as hexadecimal digits."""
    literals = text.partition(f"const {name}: &str = concat!(")[2].partition(");")[0]
    return bytes.fromhex("".join(re.findall("[0-9a-f]{2,}", literals)))


class Adopt(base.WithProgram):
    """The tool `adopt`."""

    def setUp(self):
        super().setUp()
        self.image, self.local = base.source(IMAGE) + PLATFORM, base.source("local://alpine") + PLATFORM

    def check_adopted(self, given, wanted, changes, *words, sources=()):
        """Checks the adopted definition, and the printed changes and local sources."""
        done = run("adopt", *words, text=given)
        lines = "".join(f"{line}\n" for line in [*changes, *sources]).encode()
        self.assertEqual((done.returncode, done.stderr), (0, lines))
        self.assertEqual(done.stdout.hex(), wanted.hex())
        self.assertEqual(findings_of(done.stdout, base.llbm), [])

    def check_refused(self, given, messages, *words):
        """Checks that the definition is refused with these lines."""
        lines = "".join(f"{line}\n" for line in messages).encode()
        self.check_run(run("adopt", *words, text=given), 2, b"", lines)

    def entry(self, old, new, changes, *words):
        """Checks how an entry on an image source changes, and that what names the entry is updated."""
        given = base.ending(self.image, old) + metadata(old, "n") + places(self.image, old)
        wanted = base.ending(self.local, new) + metadata(new, "n") + places(self.local, new)
        lines = [f"entry 0: source {IMAGE} is local://alpine", *(f"entry 1: {text}" for text in changes)]
        lines += ["entry 1: its inputs have new digests", "entry 2: its inputs have new digests"]
        self.check_adopted(given, wanted, lines, *words, sources=[f"alpine\t{IMAGE}"])

    def test_an_accepted_definition_stays_as_it_is(self):
        one = base.source("local://a") + PLATFORM
        split = part(3, part(1, "git://")) + base.exec_op("true") + part(2, part(88, "x")) + part(11, "caps")
        given = b"\x7a\x01x" + base.ending(one, one, split, base.merge(split, one)) + metadata(one, "a") + places(split)
        for words in [[], ["--all"], ["--leave"]]:
            self.check_adopted(given, given, [], *words, sources=["a\tlocal://a"])

    def test_other_fields_stay_as_they_are(self):
        attribute = part(2, part(1, "image.resolvemode") + part(2, "pull"))
        old = part(12, "a") + part(3, attribute + part(1, IMAGE) + part(9, "b"))
        old += b"\x8a\x81\x00\x00" + part(3, part(8, "c"))
        new = part(12, "a") + part(3, attribute + part(1, "local://alpine") + part(9, "b") + part(8, "c"))
        new += b"\x8a\x81\x00\x00"
        user_old, user_new = (
            part(1, part(7, "x") + part(1, base.digest(one)) + b"\x10\x80\x00") + part(6, part(1, b"") + part(5, ""))
            for one in (old, new)
        )
        given = base.ending(old, user_old) + part(9, "z") + metadata(old, "a") + metadata(user_old, "b")
        wanted = base.ending(new, user_new) + part(9, "z") + metadata(new, "a") + metadata(user_new, "b")
        changes = [f"entry 0: source {IMAGE} is local://alpine"]
        changes += [f"entry {row}: its inputs have new digests" for row in (1, 2)]
        self.check_adopted(given, wanted, changes, sources=[f"alpine\t{IMAGE}"])

    def test_entries_can_be_in_any_order_and_repeated(self):
        def made(origin):
            lower = base.merge(origin)
            upper = base.merge(lower, origin)
            terminal = base.inputs(upper)
            return base.definition(terminal, upper, origin, lower, origin, b"\x0a\x00", terminal)

        changes = ["entry 0: its inputs have new digests", "entry 1: its inputs have new digests"]
        changes += [f"entry 2: source {IMAGE} is local://alpine", "entry 3: its inputs have new digests"]
        self.check_adopted(made(self.image), made(self.local), changes, sources=[f"alpine\t{IMAGE}"])

    def test_sources_become_local(self):
        identifiers = ["git://h/a.git", "local://a", "https://h/a", IMAGE, "oci-layout://a@sha256:00"]
        names = ["a-2", "a", "a-3", "alpine", "a-4"]
        old, new = list(map(base.source, identifiers)), [base.source(f"local://{name}") for name in names]
        changes = [f"entry {row}: source {identifiers[row]} is local://{names[row]}" for row in (0, 2, 3, 4)]
        changes += [f"entry {row}: its inputs have new digests" for row in (5, 6)]
        lines = [f"{name}\t{identifier}" for name, identifier in zip(names, identifiers)]
        given, wanted = base.ending(*old, base.merge(*old)), base.ending(*new, base.merge(*new))
        self.check_adopted(given, wanted, changes, sources=lines)
        place = self.place(b"sources")
        self.check_adopted(given, wanted, changes, "--sources", place)
        self.assertEqual(pathlib.Path(os.fsdecode(place)).read_text(), "".join(f"{line}\n" for line in lines))

    def test_secrets_and_agents_are_dropped(self):
        other = mount("/t", kind=4, more=part(33, "x"))
        secret, agent = mount("/s", kind=1, output=0, more=part(21, part(1, "k"))), mount("/a", kind=2, output=0)
        more = part(5, part(1, "id") + part(2, "TOKEN")) + part(5, part(1, "id")) + number(3, 2)
        changes = ["dropped: secret mount at /s", "dropped: secret environment TOKEN, id"]

        def given(origin, *mounts, more):
            return exec_of(*mounts, more=more, on=[origin]) + PLATFORM

        old = given(self.image, ROOT_MOUNT, secret, other, more=more)
        new = given(self.local, ROOT_MOUNT, other, more=number(3, 2))
        self.entry(old, new, changes, "--without-secrets")
        self.entry(old, new, changes, "--all")
        old = given(self.image, agent, ROOT_MOUNT, more=b"")
        self.entry(old, given(self.local, ROOT_MOUNT, more=b""), ["dropped: SSH mount at /a"], "--without-ssh")
        drops = "--without-secrets drops it"
        self.check_refused(base.ending(self.image, given(self.image, ROOT_MOUNT, secret, agent, more=more)), [
            f"entry 1: not adopted: SecretMount; {drops}", "entry 1: not adopted: SshMount; --without-ssh drops it",
            f"entry 1: not adopted: SecretEnv; {drops}", "entry 1: not adopted: MountOutput",
            "--without-secrets --without-ssh would adopt all of it", "nothing is written",
        ])

    def test_unpacking_and_owners_by_name_are_dropped(self):
        def copy(*more):
            return action(part(4, part(1, "/a") + part(2, "/b") + b"".join(more) + number(4, -1)), 0, 0)

        def on(origin, *actions):
            return base.file_op(*actions, on=[origin]) + part(11, "caps")

        unpack, group = number(7, 1), part(3, part(2, number(2, 7) + part(99, "x")))
        old, new = on(self.image, copy(unpack)), on(self.local, copy())
        self.entry(old, new, ["dropped: unpacking by action 0"], "--without-unpack")
        old, new = on(self.image, copy(NAMED)), on(self.local, copy(group))
        self.entry(old, new, ["dropped: user root of action 0"], "--without-owners")
        made = [action(part(field, part(1, "/c") + part(4, NAMED[2:])), 0, place) for place, field in enumerate((5, 6))]
        left = [action(part(field, part(1, "/c") + part(4, group[2:])), 0, place) for place, field in enumerate((5, 6))]
        changes = [f"dropped: user root of action {place}" for place in (0, 1)]
        self.entry(on(self.image, *made), on(self.local, *left), changes, "--all")
        self.check_refused(base.ending(self.local, on(self.local, copy(unpack, NAMED))), [
            "entry 1: not adopted: Unpack; --without-unpack drops it",
            "entry 1: not adopted: OwnerByName; --without-owners drops it",
            "--without-unpack --without-owners would adopt all of it", "nothing is written",
        ])

    def words(self, origin, *args):
        """Returns an execution of these words, with further fields in its meta."""
        meta = part(2, "A=b") + b"".join(part(1, arg) for arg in args) + part(3, "/") + part(55, "x")
        return base.inputs(origin) + part(2, part(1, meta) + part(2, ROOT_MOUNT))

    def test_executions_can_run_nothing(self):
        old = self.words(self.image, "/bin/sh", "-c", "apk add git")
        changes = ["runs true in place of /bin/sh -c 'apk add git'"]
        for words in [["--run-nothing"], ["--run-nothing=all"], ["--all"]]:
            self.entry(old, self.words(self.local, "true"), changes, *words)
        self.check_refused(base.ending(self.local, self.words(self.local, "apk")), [
            "entry 1: not adopted: Script 71 apk; --run-nothing or --rules replaces the words",
            "--run-nothing would adopt all of it", "nothing is written",
        ])
        bare = self.words(self.local)
        given, wanted = base.ending(self.local, bare), base.ending(self.local, self.words(self.local, "true"))
        lines = ["entry 1: runs true in place of ", "entry 2: its inputs have new digests"]
        self.assertEqual([one.rest for one in findings_of(given, base.llbm)], ["NoArgs"])
        done = run("adopt", "--run-nothing", text=given)
        self.assertEqual(findings_of(done.stdout, base.llbm), findings_of(wanted, base.llbm))
        self.assertEqual(done.stderr.decode().splitlines()[:2], lines)

    def test_scripts_run_unless_all_executions_run_nothing(self):
        for args in [["rm", "/a"], ["/bin/sh", "-c", "true && rm /a"]]:
            old = self.words(self.image, *args)
            for words in [["--run-nothing"], ["--all"]]:
                self.entry(old, self.words(self.local, *args), [], *words)
            changes = [f"runs true in place of {shlex.join(args)}"]
            for words in [["--run-nothing=all"], ["--all", "--run-nothing=all"]]:
                self.entry(old, self.words(self.local, "true"), changes, *words)

    def test_entries_that_are_not_reached_stay(self):
        aside = base.source("git://h/a.git")
        above = base.merge(aside, self.image)
        foreign_words = self.words(self.image, "apk")
        given = base.ending(aside, above, foreign_words, self.image) + metadata(aside, "a") + metadata(self.image, "i")
        wanted = base.definition(aside, above, foreign_words, self.local, base.inputs(self.local))
        wanted += metadata(aside, "a") + metadata(self.local, "i")
        changes = [f"entry 3: source {IMAGE} is local://alpine", "entry 4: its inputs have new digests"]
        for words in [[], ["--all"]]:
            self.check_adopted(given, wanted, changes, *words, sources=[f"alpine\t{IMAGE}"])
        given = base.ending(base.source("local://other"), self.image)
        wanted = base.ending(base.source("local://other"), self.local)
        changes = [f"entry 1: source {IMAGE} is local://alpine", "entry 2: its inputs have new digests"]
        self.check_adopted(given, wanted, changes, sources=[f"alpine\t{IMAGE}"])

    def test_local_names_that_no_word_can_have_are_changed(self):
        names = {"a=b": "a-b-2", "a-b": "a-b", "--x": "x", "=": "source"}
        old = [base.source(f"local://{name}") for name in names] + [base.source("local://a=b") + PLATFORM]
        new = [base.source(f"local://{name}") for name in names.values()] + [base.source("local://a-b-2") + PLATFORM]
        pairs = [*names.items(), ("a=b", "a-b-2")]
        changes = [f"entry {row}: source local://{one} is local://{two}" for row, (one, two) in enumerate(pairs)]
        del changes[1]
        changes += [f"entry {row}: its inputs have new digests" for row in (5, 6)]
        lines = list(dict.fromkeys(f"{two}\tlocal://{one}" for one, two in pairs))
        given, wanted = base.ending(*old, base.merge(*old)), base.ending(*new, base.merge(*new))
        self.check_adopted(given, wanted, changes, sources=lines)

    def test_a_renamed_source_is_that_of_the_stories(self):
        text = (paths.ROOT / "crates" / "llb_examples" / "src" / "two_definitions.rt").read_text("utf-8")
        given, wanted = (definition_in(text, name) for name in ("BEFORE_RENAMING", "RENAMED_BY_ADOPT"))
        changes = ["entry 0: source local://a=b is local://a-b"]
        changes += [f"entry {row}: its inputs have new digests" for row in (2, 3)]
        self.check_adopted(given, wanted, changes, sources=["a-b\tlocal://a=b", "b\tlocal://b"])

    def test_the_missing_options_are_listed(self):
        diff = base.inputs(self.local) + part(7, b"")
        words = self.words(self.local, "apk")
        secret = exec_of(ROOT_MOUNT, mount("/s", kind=1), on=[self.local])
        done = run("adopt", text=base.ending(self.local, diff, words, secret, base.merge(words, secret)))
        self.assertEqual(done.stderr.decode().splitlines()[-2:], [
            "--without-secrets --run-nothing would adopt all of it", "nothing is written",
        ])
        given = base.ending(self.local, diff, words, secret, base.merge(diff, words, secret))
        line = "--without-secrets would leave entry 1: DiffOp"
        for options in [["--run-nothing"], ["--run-nothing=all", "--leave"]]:
            lines = run("adopt", *options, text=given).stderr.decode().splitlines()
            self.assertIn(line, "; ".join(lines))
        lines = run("adopt", "--all", text=given).stderr.decode()
        self.assertNotIn("would", lines)

    def test_rules_are_those_of_the_daemon(self):
        shared = json.loads(SHARED.read_text("utf-8"))
        for text, want in shared["refused"].items():
            with self.assertRaises(Refused) as caught:
                adoption_rules.rules_in(text.encode(), base.llbm)
            self.assertEqual(str(caught.exception), want)
        for text, args, made in shared["fits"]:
            rule = adoption_rules.rule_for(adoption_rules.rules_in(text.encode(), base.llbm), "", "", args)
            self.assertEqual(None if rule is None else list(rule.words), made, text)

    def test_rules_replace_the_words_of_executions(self):
        new, changes = self.words(self.local, "write", "/a", "b c"), ["runs write /a 'b c' in place of apk add git"]
        old = self.words(self.image, "apk", "add", "git")
        for rule in [f"digest {base.digest(old)}", "name n", "words apk add git"]:
            rules = self.file(b"rules", f"{rule} => write /a 'b c'\nwords apk add git => true\n".encode())
            done = run("adopt", "--rules", rules, text=base.ending(self.image, old) + metadata(old, "n"))
            self.assertIn(b"rules: line 2 fits no execution\n", done.stderr)
            rules = self.file(b"rules", f"{rule} => write /a 'b c'\n".encode())
            self.entry(old, new, changes, "--rules", rules)
            self.entry(old, new, changes, "--all", "--rules", rules)
        rules = self.file(b"rules", b"words rm /a =>\n")
        old, new = self.words(self.image, "rm", "/a"), self.words(self.local, "rm", "/a")
        self.entry(old, new, [], "--all", "--rules", rules)
        rules = self.file(b"rules", b"name => true\n")
        cause = "exactly one word goes between name and =>: line 1: " + os.fsdecode(rules)
        self.check_refused(base.ending(self.image), [cause], "--rules", rules)

    def test_what_cannot_be_adopted_is_named(self):
        diff, link = base.inputs(self.image) + part(7, b""), base.file_op(action(part(8, b"")))
        copy = base.file_op(action(part(4, part(12, "") + part(15, ""))), on=[self.image])
        other = base.source("other://a")
        all_of_them = base.merge(diff, link, copy, other)
        messages = [f"entry {row}: not adopted: {name}" for row, name in [
            (1, "DiffOp"), (2, "Action"), (3, "Patterns"), (3, "CopyField"), (4, "Source")]]
        indexes = [f"not adopted: fault 90 5 {place}" for place in (1, 2)]
        given = base.ending(self.image, diff, link, copy, other, all_of_them)
        self.check_refused(given, [*messages, *indexes, "nothing is written"], "--all")
        done = run("adopt", "--leave", text=given)
        self.assertEqual(done.returncode, 0)
        self.assertEqual(done.stderr.decode().splitlines()[-8:], [*messages, *indexes, f"alpine\t{IMAGE}"])
        self.assertEqual([one.words() for one in findings_of(done.stdout, base.llbm)][0], "88 1 DiffOp")

    def test_faulty_definitions_are_refused(self):
        self.check_refused(b"\x0a", ["not a definition: the bytes end inside a record: standard input"])
        self.check_refused(b"", ["not a definition: there are no bytes: standard input"])
        self.check_refused(base.definition(self.local, b"\x0b"), ["not adopted: fault 82 1 4", "nothing is written"])
        unknown = base.definition(self.local, base.inputs(b"x"))
        self.check_refused(unknown, ["not adopted: fault 86 1 0", "nothing is written"])

    def test_output_files_are_written_completely_or_not_at_all(self):
        given = self.file(b"given", base.ending(self.image))
        place, sources = self.place(b"out"), self.place(b"list")
        done = run("adopt", given, "-o", place, "--sources", sources)
        self.assertEqual((done.returncode, done.stdout), (0, b""))
        self.assertEqual(pathlib.Path(os.fsdecode(place)).read_bytes(), base.ending(self.local))
        before = sorted(os.listdir(self.folder))
        none = self.place(b"none", b"out")
        for words, status in [(["-o", none], 2), (["--sources", none], 2), (["-o", "/dev/full"], 3)]:
            done = run("adopt", given, *words)
            self.assertEqual((done.returncode, done.stdout), (status, b""))
            self.assertEqual(sorted(os.listdir(self.folder)), before)
        cause = b"not a definition: the bytes end inside a record: standard input\n"
        self.check_run(run("adopt", "-o", place, text=b"\x0a"), 2, b"", cause)
        self.assertEqual(pathlib.Path(os.fsdecode(place)).read_bytes(), base.ending(self.local))
        done = run("adopt", given, "-o", "/dev/null")
        self.assertEqual((done.returncode, os.path.isfile("/dev/null")), (0, False))

    def test_command_lines_and_failing_streams_are_refused(self):
        self.assertEqual(run("adopt", "a", "b").returncode, 2)
        self.assertEqual(run("adopt", "--none").returncode, 2)
        missing = self.place(b"none")
        self.check_run(run("adopt", missing), 2, b"", b"there is no such file or directory: " + missing + b"\n")
        self.check_run(run_closed(0, "adopt"), 3, b"", b"standard input is closed\n")
        given = self.file(b"given", base.ending(self.local))
        with open("/dev/full", "wb") as output:
            done = run_into(output, "adopt", given, "--sources", self.place(b"s"))
        self.assertEqual((done.returncode, done.stderr), (3, b"a read or a write failed: No space left on device\n"))
        self.assertFalse(os.path.exists(self.place(b"s")))


class RandomDefinitions(base.WithProgram):
    """Random definitions, and the program."""

    def definitions(self):
        """Returns definitions, many of which have unsupported features."""
        chance = random.Random(3)
        return [linting.ops_of_all_kinds(chance) for _ in range(base.cases(300))]

    def test_what_is_left_is_exactly_what_is_found(self):
        settings = adopted_ops.Settings(frozenset(adopted_ops.DROPPED), (), adopted_ops.RunNothing.ALL)
        taken = 0
        for data in self.definitions():
            done = adopted_ops.adopt(data, settings, base.llbm)
            self.assertEqual(findings_of(done.data, base.llbm), done.left)
            again = adopted_ops.adopt(done.data, settings, base.llbm)
            self.assertEqual((again.data, again.changes), (done.data, []))
            taken += not done.left
            names = {finding.rest.split(" ")[0] for finding in done.left}
            self.assertFalse(names & {"SecretMount", "SshMount", "SecretEnv", "Unpack", "OwnerByName"})
        self.assertGreater(taken, base.cases(10))


class Examples(base.WithProgram):
    """Adopted definitions that run."""

    def test_the_stored_example_is_the_one_made_here(self):
        self.assertEqual((EXAMPLES / "foreign.llb").read_bytes().hex(), foreign().hex())

    def test_the_example_is_adopted_and_run(self):
        place = self.place(b"out")
        words = ["--all", "--rules", EXAMPLES / "foreign.rules", EXAMPLES / "foreign.llb", "-o", place]
        self.assertEqual(run("adopt", *words).returncode, 0)
        self.check_accepted(place)
        trees = [f"alpine={EXAMPLES / 'failure' / 'empty.tree'}", f"context={EXAMPLES / 'tour.tree'}"]
        with open(place, "rb") as data:
            done = subprocess.run([base.llbm, "run", *trees], stdin=data, capture_output=True, timeout=base.GUARD)
        text = [b"d 0755 0 0 /", b"d 0755 0 0 /etc", b"f 0644 0 0 6769740a /etc/packages", b"d 0755 0 0 /srv"]
        text += [b"f 0644 0 0 68656c6c6f2c0a /srv/head", b"f 0644 0 0 776f726c640a /srv/tail"]
        self.check_run(done, 0, b"".join(line + b"\n" for line in text))

    def test_an_adopted_definition_runs(self):
        image = base.source(IMAGE)
        mounts = mount(output=0, given=0), mount("/s", kind=1)
        run_it = exec_of(*mounts, args=["/bin/sh", "-c", "apk add git"], on=[image])
        given = self.file(b"given", base.ending(image, run_it) + metadata(run_it, "[1/1] RUN apk"))
        rules = self.file(b"rules", b"name '[1/1] RUN apk' => write /b c\n")
        place, tree = self.place(b"out"), self.file(b"tree", b"d 0755 0 0 /\nf 0644 0 0 61 /a\n")
        done = run("adopt", given, "--all", "--rules", rules, "-o", place)
        self.assertEqual(done.returncode, 0, done.stderr)
        self.check_accepted(place)
        words = [base.llbm, "run", f"alpine={os.fsdecode(tree)}"]
        with open(place, "rb") as data:
            done = subprocess.run(words, stdin=data, capture_output=True, timeout=base.GUARD)
        self.check_run(done, 0, b"d 0755 0 0 /\nf 0644 0 0 61 /a\nf 0644 0 0 630a /b\n")
