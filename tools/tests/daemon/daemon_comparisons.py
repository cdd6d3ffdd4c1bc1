"""Tests of `against-buildkit` with daemons that the test plays, and with real ones where an address is given."""

import argparse
import collections
import contextlib
import hashlib
import io
import json
import os
import pathlib
import re
import shutil
import subprocess
import tarfile
import tempfile
import unittest
from unittest import mock

from llbm_tools.daemon import (
    against_buildkit, compared_cases, daemon, fixed_comparisons, link_cases, project_dockerfiles, random_definitions,
    random_dockerfiles, runs, scripted_runc, started_daemon, stored_dockerfiles,
)  # fmt: skip
from llbm_tools.rules import examples
from llbm_tools.streams import Refused
from llbm_tools.trees import tree_maps
from tests import base

ADDRESS = "LLBM_BUILDKIT_ADDRESS"
COUNT = 3
FILE = {(): tree_maps.ROOT, (b"f",): tree_maps.Entry(0o644, 0, 0, b"78")}
OTHER = {(): tree_maps.ROOT, (b"f",): tree_maps.Entry(0o604, 0, 0, b"78")}


class Played:
    """A daemon whose results the test says: by a function of what is built, or one result for all."""

    command = ("buildctl",)

    def __init__(self, ran):
        self.run = ran if callable(ran) else lambda *_: ran
        self.run_dockerfile = self.run

    def answers(self):
        """Returns that it answers."""
        return True


def options(**others):
    """Returns the options of a command line."""
    words = {
        "address": "unix:///none", "start": False, "packages": pathlib.Path("none"), "buildctl": "buildctl",
        "llbmd": daemon.PROGRAM, "llbm": base.llbm, "count": COUNT, "seed": 3, "jobs": 2, "keep": None,
        "links": False, "dockerfiles": False, **others,
    }  # fmt: skip
    return argparse.Namespace(**words)


def called(function, *words):
    """Calls a function, and returns what it returns, and the lines that it printed."""
    output = io.StringIO()
    with contextlib.redirect_stdout(output):
        returned = function(*words)
    return returned, output.getvalue().splitlines()


def counts_in(lines):
    """Returns the counts that were printed."""
    return {name: int(count) for name, _, count in (line.rpartition(": ") for line in lines) if count.isdigit()}


class Verdicts(unittest.TestCase):
    """What is said of how a case ended."""

    def setUp(self):
        base.skip_without_rules(self)

    def verdict(self, there, here, is_dockerfile=False):
        """Returns what is said of an example, or of a Dockerfile, that the daemons end so."""
        one = against_buildkit.Comparison(Played(there), Played(here))
        case = next(against_buildkit.least_cases())
        return one.compare(case._replace(sources={"context": tree_maps.empty()}, is_dockerfile=is_dockerfile))

    def test_what_ends_alike_has_no_line(self):
        alike = ["Dockerfiles", against_buildkit.WELL]
        self.assertEqual(self.verdict(runs.Ran(FILE), runs.Ran(FILE), True), against_buildkit.Verdict(alike, []))
        counts, lines = self.verdict(runs.Ran(FILE), runs.Ran(FILE, "", frozenset({"MkfileOver", "Nothing"})), True)
        alike.insert(1, "Dockerfiles that end alike, with a warning")
        self.assertEqual((counts, lines), (alike, []))

    def test_what_fails_on_both_is_counted_by_its_reason(self):
        ref = "u1enl4q9gq8v2gf2sgr4i01bd::kme2mjw3k8v5lh2fpf1u5g8fh"
        for said in (f'checksum of ref {ref}: "/a": not found', f'checksum of ref {ref[::-1]}: "/b/c": not found'):
            counts, lines = self.verdict(runs.Ran(None, said), runs.Ran(None, "another reason"), True)
            reason = "Dockerfiles that fail on both: checksum of ref ..: ..: not found"
            self.assertEqual((counts, lines), (["Dockerfiles", reason], []))

    def test_a_difference_without_a_warning_has_a_line(self):
        for here, said in [(runs.Ran(OTHER), "another tree"), (runs.Ran(None, "why"), "why")]:
            counts, lines = self.verdict(runs.Ran(FILE), here, True)
            self.assertEqual(counts[1:3], ["Dockerfiles otherwise", "Dockerfiles otherwise without a warning"])
            self.assertEqual(counts[3:], [against_buildkit.WELL] * (here.tree is not None))
            self.assertEqual(lines, [f"Mode: mkdir with mode 1777: ends otherwise without a warning: {said}"])

    def test_a_difference_with_a_warning_has_a_line_for_a_dockerfile_alone(self):
        warned = runs.Ran(OTHER, "", frozenset({"MkfileOver"}))
        self.assertEqual(
            self.verdict(runs.Ran(FILE), warned, True).lines,
            ["Mode: mkdir with mode 1777: ends otherwise: MkfileOver"],
        )
        there = next(iter(examples.examples())).buildkit
        tree = tree_maps.tree_of([b"d 0755 0 0 /\n", *(f"{line}\n".encode() for line in there or [])])
        counts, lines = self.verdict(runs.Ran(tree), warned)
        self.assertEqual((counts, lines), (["definitions", "definitions otherwise", "definitions of the model"], []))

    def test_what_ends_otherwise_than_the_model_has_a_line(self):
        counts, lines = self.verdict(runs.Ran(FILE), runs.Ran(FILE))
        self.assertEqual(counts[1:], ["definitions of the model", "definitions otherwise than the model"])
        self.assertEqual(lines, ["Mode: mkdir with mode 1777: ends otherwise than the model: another tree"])

    def test_a_run_that_takes_too_long_or_a_daemon_that_is_busy_is_left_out(self):
        for fault, said in [
            (subprocess.TimeoutExpired("buildctl", 120), "no answer in 600 seconds"),
            (runs.DaemonBusy("no active session"), "a daemon was too busy"),
        ]:
            played = mock.Mock(side_effect=fault)
            self.assertEqual(self.verdict(played, played), against_buildkit.Verdict([f"left out: {said}"], []))

    def test_what_is_refused_by_a_link_is_counted_by_itself(self):
        refused = runs.Ran(None, "error: llbm: /a leads through the link /a, which llbm does not follow; name the path")
        for is_dockerfile, what in [(True, "Dockerfiles"), (False, "definitions")]:
            one = against_buildkit.Comparison(Played(runs.Ran(FILE)), Played(refused))
            case = next(against_buildkit.least_cases())._replace(is_dockerfile=is_dockerfile, is_modelled=False)
            case = case._replace(sources={"context": tree_maps.empty()})
            counts = [what, f"{what} that are refused by a link"]
            self.assertEqual(one.compare(case), against_buildkit.Verdict(counts, []))


class Against(unittest.TestCase):
    """What the tool prints."""

    def setUp(self):
        base.skip_without_rules(self)

    def compared(self, there, here, **others):
        """Compares two daemons that are played, and returns the status and the lines."""

        @contextlib.contextmanager
        def start(_):
            started_daemon.check(there)
            yield started_daemon.Started(there, pathlib.Path(os.devnull), True)

        with (
            mock.patch.object(started_daemon, "started", start),
            mock.patch.object(against_buildkit, "ours", lambda *_: contextlib.nullcontext(here)),
        ):
            return called(against_buildkit.against, options(start=True, **others))

    def test_the_count_says_how_many_random_ones_are_built(self):
        ran = Played(runs.Ran(None, "it failed"))
        with mock.patch.object(started_daemon, "check", lambda _: None):
            few, many = (counts_in(self.compared(ran, ran, count=count)[1]) for count in (1, 1 + COUNT))
        # Beside the random ones there are the Dockerfiles of projects, the same ones each time.
        self.assertEqual(many["Dockerfiles"] - few["Dockerfiles"], COUNT)
        self.assertGreater(many["definitions"], few["definitions"])

    def test_dockerfiles_that_all_fail_on_both_are_a_failure(self):
        failed = Played(runs.Ran(None, "context: no access allowed to dir"))
        with mock.patch.object(started_daemon, "check", lambda _: None):
            status, lines = self.compared(failed, failed)
        count = COUNT + len(project_dockerfiles.PROJECTS)
        self.assertEqual(status, 1)
        self.assertIn(f"of {count} Dockerfiles 0 ended well on both: too few to show that the daemons agree", lines)
        self.assertIn(f"Dockerfiles that fail on both: context: no access allowed to dir: {count}", lines)

    def test_a_third_of_the_dockerfiles_has_to_end_well(self):
        for well, is_enough in [(2, False), (3, True), (9, True)]:
            counts = collections.Counter({"Dockerfiles": 9, against_buildkit.WELL: well})
            self.assertEqual(called(against_buildkit.has_too_few, counts)[0], not is_enough, well)
        self.assertFalse(called(against_buildkit.has_too_few, collections.Counter())[0])

    def test_those_with_a_finding_are_named_and_stored(self):
        with tempfile.TemporaryDirectory() as folder, mock.patch.object(started_daemon, "check", lambda _: None):
            status, lines = self.compared(Played(runs.Ran(FILE)), Played(runs.Ran(OTHER)), count=1, keep=folder)
            stored = sorted(os.listdir(pathlib.Path(folder, "dockerfile-3-0")))
        self.assertEqual((status, stored), (1, ["Dockerfile", "context.tree"]))
        self.assertIn("dockerfile 3 0: ends otherwise without a warning: another tree", lines)
        passed, failed = map(int, re.fullmatch("([0-9]+) passed, ([0-9]+) failed, 0 skipped", lines[-1]).groups())
        counts = counts_in(lines)
        self.assertEqual((passed, failed), (0, counts["definitions"] + counts["Dockerfiles"]))

    def test_all_is_skipped_where_the_daemon_does_not_build(self):
        played = Played(runs.Ran(None, "failed to mount: operation not permitted"))
        said = "skipped: buildkitd does not build here: failed to mount: operation not permitted"
        self.assertEqual(self.compared(played, played), (0, [said, "0 passed, 0 failed, 1 skipped"]))

    def test_all_is_skipped_without_packages(self):
        status, (reason, counts) = called(against_buildkit.against, options(start=True))
        self.assertEqual((status, counts), (0, "0 passed, 0 failed, 1 skipped"))
        missing = "buildkitd is not built: the packages are not there: none; "
        self.assertRegex(reason, f"^skipped: ({missing}|only root can run buildkitd)")

    def test_the_fixed_sets_are_built_if_they_are_asked_for(self):
        played = Played(runs.Ran(FILE))
        played.exported = lambda *_: "no exporter"
        with tempfile.TemporaryDirectory() as folder, mock.patch.object(started_daemon, "check", lambda _: None):
            started = started_daemon.Started(played, pathlib.Path(folder, "rules"), True)
            given = options(start=True, links=True, dockerfiles=True)
            found, lines = called(lambda: list(against_buildkit.fixed(started, played, given)))
        refused = [one for one in link_cases.cases() if one.is_refused]
        with_lines = [case.name for case, verdict in found if verdict.lines]
        exporters = [f"links: exported as {kind}" for kind in fixed_comparisons.EXPORTERS]
        self.assertEqual(with_lines, [*exporters, *(f"links: {one.name}" for one in refused)])
        medians = "^median of the builds of these: [0-9.]+ s by BuildKit's daemon, [0-9.]+ s by llbmd$"
        self.assertRegex(lines[-1], medians)
        with self.assertRaisesRegex(Refused, "^--dockerfiles needs --start"):
            against_buildkit.against(options(dockerfiles=True))

    def test_what_has_an_execution_is_left_out_where_the_daemon_runs_none(self):
        played = Played(runs.Ran(None, "error: process .. did not complete successfully: exit code: 1"))
        runs_scripts, said = called(started_daemon.runs_scripts, played)
        self.assertFalse(runs_scripts)
        self.assertRegex(said[0], "^executions are left out: buildkitd runs none here: error: process")
        started = started_daemon.Started(played, pathlib.Path("none"), False)
        with mock.patch.object(fixed_comparisons, "of_exporters", lambda *_: []):
            given = options(start=True, links=True, dockerfiles=True)
            found, lines = called(lambda: list(against_buildkit.fixed(started, played, given)))
        left_out = [case.name for case, verdict in found if verdict == ([compared_cases.NO_EXECUTION], [])]
        executions = [f"links: {one.name}" for one in link_cases.cases() if one.runs]
        self.assertEqual(left_out, [*executions, *(name for name, _ in stored_dockerfiles.stored())])
        self.assertEqual(lines, ["none of these Dockerfiles was built, for want of executions"])

    def test_what_is_left_out_counts_as_skipped(self):
        played = Played(runs.Ran(FILE))
        case = compared_cases.Case("a", b"", {})
        some = [(case, compared_cases.Verdict([name], lines)) for name, lines in
                [(compared_cases.NO_EXECUTION, []), ("links", []), ("links", ["wrong"]),
                 ("left out: busy", [])]]  # fmt: skip
        with (
            mock.patch.object(against_buildkit, "fixed", lambda *_: some),
            mock.patch.object(against_buildkit, "verdicts", lambda *_: []),
        ):
            started = started_daemon.Started(played, pathlib.Path("none"), False)
            counts, _ = called(against_buildkit.compare_all, started, played, options())
        self.assertEqual(counts, (1, 1, 1))

    def test_all_is_skipped_without_llbmd(self):
        with self.assertRaisesRegex(started_daemon.NoDaemon, "there is no program nowhere/llbmd: `dev/dev daemon"):
            with against_buildkit.ours(options(llbmd=pathlib.Path("nowhere/llbmd")), "buildctl"):
                pass

    def test_a_real_daemon_does_as_llbmd_and_the_rules_say(self):
        address = os.environ.get(ADDRESS)
        if not address or shutil.which("buildctl") is None:
            raise unittest.SkipTest(f"BuildKit's daemon is needed: its address in {ADDRESS}, and buildctl on the path")
        status, lines = called(against_buildkit.against, options(address=address, count=40))
        self.assertEqual(status, 0, lines)


class FixedSets(unittest.TestCase):
    """Definitions with links, and Dockerfiles with stand-ins for a daemon that runs processes."""

    def test_each_case_with_links_has_a_name(self):
        cases = link_cases.cases()
        self.assertEqual(len({one.name for one in cases}), len(cases))
        self.assertGreater(len(cases), 100)

    def test_a_case_is_refused_by_a_link_exactly_if_it_has_to_be(self):
        built, refused = runs.Ran(FILE), runs.Ran(None, "error: llbm: /a leads through /a, which llbm does not follow")
        for is_refused, here, count in [(False, built, 0), (True, refused, 0), (False, refused, 1), (True, built, 1)]:
            self.assertEqual(len(fixed_comparisons.fault_of("a", is_refused, built, here, frozenset())), count)

    def test_a_warning_that_something_runs_announces_no_difference(self):
        rules = frozenset({"Execution", "MkfileOver"})
        for name, count in [("Execution", 1), ("MkfileOver", 0)]:
            other = runs.Ran(OTHER, "", frozenset({name}))
            self.assertEqual(len(fixed_comparisons.fault_of("a", False, runs.Ran(FILE), other, rules)), count)

    def test_an_execution_of_buildkit_runs_its_stand_in(self):
        rules = "pattern '*go build*' => /bin/sh -c 'write /a x'\n\nwords true =>\n"
        place = scripted_runc.PLACE
        for args, given, words in [
            (["/bin/sh", "-c", "go build ."], rules, [place, "/bin/sh", "-c", "write /a x"]),
            (["true"], rules, [place, "true"]), (["apt-get"], rules, [place, "apt-get"]),
            (["apt-get"], scripted_runc.SKIP, [place, "-skip", "apt-get"]),
        ]:  # fmt: skip
            self.assertEqual(scripted_runc.words_of(args, given), words)

    def test_an_image_is_a_layout_for_two_platforms(self):
        parts = {"image a:latest x/f": "f", "config a:latest": '{"config": {"User": "1"}}', "Dockerfile": "FROM a"}
        with tempfile.TemporaryDirectory() as folder:
            words = stored_dockerfiles.image_words(parts, pathlib.Path(folder))
            blobs = {one.name: one.read_bytes() for one in pathlib.Path(folder, "image0/blobs/sha256").iterdir()}
        self.assertEqual(words[:3:2], ["--oci-layout", "--opt"])
        self.assertRegex(words[3], "^context:a=oci-layout://image0@sha256:[0-9a-f]{64}$")
        index = json.loads(blobs[words[3].rpartition(":")[2]])
        self.assertEqual([one["platform"]["architecture"] for one in index["manifests"]], ["amd64", "arm64"])
        for name, data in blobs.items():
            self.assertEqual(hashlib.sha256(data).hexdigest(), name)


class Runs(unittest.TestCase):
    """Runs of `buildctl`."""

    def test_a_daemon_that_is_busy_is_asked_again(self):
        one = runs.Daemon("buildctl", "unix:///none")
        busy = [runs.DaemonBusy("no active session")] * 4
        one.built = mock.Mock(side_effect=[*busy, runs.Ran(None, "failed")])
        self.assertEqual(one.run(b"", {}).said, "failed")
        one.built = mock.Mock(side_effect=runs.DaemonBusy("no active session"))
        self.assertRaises(runs.DaemonBusy, one.run, b"", {})

    def test_what_a_busy_daemon_says_is_no_result(self):
        for said, fault in [(b"failed: no active session for x: context deadline exceeded", True), (b"x", False)]:
            done = subprocess.CompletedProcess([], 1, b"", b"#1 x\n" + said + b"\n")
            with mock.patch.object(subprocess, "run", return_value=done):
                one = runs.Daemon("buildctl", "unix:///none")
                if fault:
                    self.assertRaises(runs.DaemonBusy, one.built, b"", [], "result")
                else:
                    self.assertEqual(one.built(b"", [], "result"), runs.Ran(None, "x"))

    def test_what_is_said_is_the_error_with_its_advice(self):
        for text, said in [
            ("#1 x\nDockerfile:3\nerror: failed: a link\nname the path\n", "error: failed: a link; name the path"),
            ("error: first\nerror: last", "error: last"), ("#1 x\nEOF", "EOF"), ("", ""),
        ]:  # fmt: skip
            self.assertEqual(runs.said_in(text), said)

    def test_warnings_have_names(self):
        text = (
            "#3 WARN: action 0: /a has mode 0755 (here 0700): ContentsTarget, ParentOwner, and 3 more\n"
            "#3 WARN: User has no effect: the user of the process\n#4 WARN: /a is missing (here a file): MergeLayers\n"
        )
        self.assertEqual(runs.names_in(text), {"ContentsTarget", "ParentOwner", "MergeLayers"})

    def test_a_dockerfile_has_the_directories_that_its_frontend_asks_for(self):
        one, seen = runs.Daemon("buildctl", "unix:///none"), []
        one.built = lambda data, words, archive: seen.append(words) or runs.Ran(None)
        for _ in range(2):
            one.run_dockerfile(b"FROM scratch\n", tree_maps.empty())
        given = []
        for words in seen:
            options = dict(word.split("=") for flag, word in zip(words, words[1:]) if flag == "--opt")
            local = dict(word.split("=") for flag, word in zip(words, words[1:]) if flag == "--local")
            # The frontend reads the context by this name alone, whatever its option `contextkey` says.
            self.assertEqual((set(options), set(local)), ({"dockerfilekey"}, {"context", options["dockerfilekey"]}))
            given.append(options["dockerfilekey"])
        self.assertNotEqual(*given)

    def test_no_two_trees_have_files_of_one_time(self):
        with tempfile.TemporaryDirectory() as folder:
            times = []
            for place in ("one", "two"):
                runs.write_tree(FILE, os.fsencode(f"{folder}/{place}"))
                found = {os.stat(f"{folder}/{place}{name}").st_mtime_ns for name in ("", "/f")}
                self.assertEqual(len(found), 1)
                times += found
        self.assertNotEqual(*times)
        self.assertTrue(all(time % 1_000_000_000 for time in times))

    def test_a_result_is_compared_without_its_root(self):
        file = tree_maps.Entry(0o4755, 0, 9, b"6162")
        tree = {(): tree_maps.ROOT, (b"d",): tree_maps.Entry(0o1750, 7, 8), (b"d", b"f"): file}
        self.assertEqual(against_buildkit.without_owners(tree)[b"d", b"f"], tree_maps.Entry(0o4755, 0, 0, b"6162"))
        self.assertEqual(against_buildkit.lines_of(tree), [b"d 1750 7 8 /d\n", b"f 4755 0 9 6162 /d/f\n"])


class Dockerfiles(unittest.TestCase):
    """Random Dockerfiles, and those of projects."""

    def test_a_link_is_written_and_read_as_it_is(self):
        tree = {(): tree_maps.ROOT, (b"a",): runs.link_to("b/c"), (b"f",): tree_maps.Entry(0o644, 0, 0, b"61")}
        with tempfile.TemporaryDirectory() as folder:
            runs.write_tree(tree, os.fsencode(f"{folder}/made"))
            self.assertEqual(os.readlink(f"{folder}/made/a"), "b/c")
            with tarfile.open(f"{folder}/made.tar", "w") as archive:
                archive.add(f"{folder}/made", "")
            read = runs.tree_in(f"{folder}/made.tar")
        self.assertEqual(read[b"a",].content, b"link-" + b"b/c".hex().encode())

    def test_each_project_has_a_link_and_directories_above_what_it_has(self):
        for name, made in project_dockerfiles.PROJECTS.items():
            self.assertTrue(any((one.content or b"").startswith(runs.LINK) for one in made.context.values()), name)
            parents = {path[:-1] for path in made.context if path}
            self.assertTrue(all(made.context[path].is_directory() for path in parents), name)

    def test_definitions_with_links_have_links_and_patterns(self):
        made = [random_definitions.make(f"test {number}", random_definitions.LINKS) for number in range(60)]
        self.assertEqual(made[0], random_definitions.make("test 0", random_definitions.LINKS))
        entries = [entry for one in made for tree in one.sources.values() for entry in tree.values()]
        self.assertGreater(sum((entry.content or b"").startswith(runs.LINK) for entry in entries), 60)
        patterns = re.compile(rb"[\x62\x6a][\x01-\x04][]!?*ab/c[]{1,4}")
        self.assertGreater(sum(bool(patterns.search(one.data)) for one in made), 9)

    def test_a_seed_makes_one_dockerfile_without_run(self):
        for number in range(200):
            made = random_dockerfiles.make(f"test {number}")
            self.assertEqual(made, random_dockerfiles.make(f"test {number}"))
            self.assertRegex(made.dockerfile, rb"^FROM scratch AS s0\n")
            self.assertNotIn(b"RUN", made.dockerfile)
            parents = {path[:-1] for path in made.context if path}
            self.assertTrue(all(made.context[path].is_directory() for path in parents))

    def test_some_random_dockerfiles_add_archives(self):
        name = random_dockerfiles.ARCHIVE.encode()
        all_of = [random_dockerfiles.make(f"test {number}") for number in range(200)]
        adding = [one for one in all_of if b" " + name + b" " in one.dockerfile and (name,) in one.context]
        self.assertGreater(len(adding), 15)
        kinds = set()
        for one in adding:
            data = bytes.fromhex((one.context[(name,)].content or b"").decode("ascii"))
            with tarfile.open(fileobj=io.BytesIO(data)) as archive:
                kinds.update(entry.type for entry in archive)
        self.assertEqual(kinds, {tarfile.REGTYPE, tarfile.DIRTYPE, tarfile.SYMTYPE, tarfile.LNKTYPE})
