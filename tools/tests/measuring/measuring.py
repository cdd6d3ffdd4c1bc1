"""Tests of `bigtree`, `bigdef` and `measure`."""

import os
import pathlib
import shutil
import subprocess

from llbm_tools.fuzzing.run_checks import tree_fault
from llbm_tools.llb import definition
from llbm_tools.measuring import go_show, largest_graphs
from tests import base
from tests.base import Folder, digest, number, part, run, run_closed, source


def definition_of(*entries):
    """Returns the definition with these entries, the last one as its result, without defaults."""
    terminal = part(1, part(1, digest(entries[-1])))
    return b"".join(part(1, entry) for entry in [*entries, terminal])


class Trees(Folder):
    """Texts of large trees."""

    def test_a_small_tree_has_these_lines(self):
        lines = ["d 0755 0 0 /", "d 0755 0 0 /d000", "d 0755 0 0 /d000/s00000"]
        last = "f 0644 0 0 00000000 /d000/s00000/f000000"
        self.check_success(run("bigtree", "1", "1", "4"), self.text([*lines, last]))
        self.check_success(run("bigtree", "0", "0"), b"d 0755 0 0 /\n")
        self.check_success(run("bigtree", "1", "1", "4", "d", "x"), self.text([*lines, f"{last}x"]))

    def test_the_numbers_of_files_and_directories_are_as_requested(self):
        for files, directories, size, prefix in [(100, 10, 16, "d"), (7, 9, 0, "q"), (5, 4, 3, "long")]:
            done = run("bigtree", str(files), str(directories), str(size), prefix)
            self.assertEqual((done.returncode, done.stderr), (0, b""))
            self.assertIsNone(tree_fault(done.stdout))
            lines = [line.split(b" ") for line in done.stdout.splitlines()]
            contents = [line[4] for line in lines if line[0] == b"f"]
            self.assertEqual(len(contents), files)
            self.assertEqual({len(content) for content in contents}, {2 * size or 1})
            lower = [line for line in lines if line[0] == b"d" and line[4].count(b"/") == 2]
            self.assertEqual(len(lower), directories)
            self.assertTrue(all(line[4].startswith(b"/" + prefix.encode()) for line in lower))

    def test_command_lines_are_refused(self):
        few = [(), ("1",), ("1", "0"), ("x", "1"), ("1", "1", "-4")]
        for words in [*few, ("1", "1", "4", "a/b"), ("1", "1", "4", "n" * 250)]:
            done = run("bigtree", *words)
            self.assertEqual((done.returncode, done.stdout), (2, b""), words)
        self.assertEqual(run_closed(1, "bigtree", "1", "1").returncode, 3)


class Definitions(Folder):
    """Large definitions."""

    def graph(self, kind, count):
        """Returns the ops and the graph of a large definition."""
        done = run("bigdef", kind, str(count))
        self.assertEqual((done.returncode, done.stderr), (0, b""), kind)
        entries = definition.entries_of(done.stdout)
        graph = definition.graph_of(entries)
        return [definition.op_of(row, entries[row]) for row in graph.rows], graph

    def test_small_definitions_have_these_bytes(self):
        self.check_success(run("bigdef", "source", "1"), definition_of(source("local://p")))
        sources = [source("local://p"), source("local://q")]
        lay = part(1, part(1, digest(sources[0]))), part(1, part(1, digest(sources[1])))
        merged = b"".join(lay) + part(6, part(1, b"") + part(1, number(1, 1)))
        self.check_success(run("bigdef", "lay", "1"), definition_of(*sources, merged))

    def test_each_kind_has_its_numbers_of_vertices_and_edges(self):
        for kind, count, vertices, edges in [
            ("chain", 9, 9, 8), ("pairs", 9, 9, 16), ("fan", 1500, 1503, 1502), ("files", 600, 2, 1),
            ("execs", 5, 5, 4), ("glob", 5, 2, 1), ("mounts", 5, 1, 0), ("routes", 5, 1, 0), ("lay", 1, 3, 2),
            ("graft", 1, 3, 2), ("layers", 4, 5, 4), ("builds", 4, 5, 4), ("reads", 4, 6, 8), ("hashes", 4, 6, 8),
            ("caches", 4, 5, 8), ("source", 9, 1, 0), ("rm", 9, 2, 1), ("copy", 9, 2, 1),
        ]:
            _, graph = self.graph(kind, count)
            self.assertEqual((len(graph.rows), sum(map(len, graph.inputs))), (vertices, edges), kind)

    def test_each_op_of_files_is_on_the_one_before(self):
        ops, graph = self.graph("files", 1100)
        self.assertEqual([len(op.file.actions) for op in ops], [512, 512, 76])
        self.assertEqual(graph.inputs, [[], [(0, 0)], [(1, 0)]])

    def test_the_files_of_two_ops_are_all_made(self):
        base.skip_if_slow(self)
        if base.llbm:
            given = run("bigdef", "files", "600").stdout
            done = subprocess.run([base.llbm], input=given, capture_output=True, timeout=base.GUARD)
            self.assertEqual(done.stdout.count(b"\nf "), 600)

    def test_one_pattern_removes_files_and_another_copies_directories(self):
        if base.llbm is None:
            self.skipTest("the program llbm is needed (--llbm PROGRAM)")
        tree = os.fsdecode(self.file(b"tree", run("bigtree", "4", "4", "4").stdout))
        places = ["", "d000", "d000/s00000", "d000/s00001", "d001", "d001/s00002", "d001/s00003"]
        upper = "".join(f"d 0755 0 0 /{place}\n" for place in places)
        lower = "".join(f"d 0755 0 0 /s0000{k}\nf 0644 0 0 0000000{k} /s0000{k}/f00000{k}\n" for k in range(4))
        for kind, text in [("rm", upper), ("copy", "d 0755 0 0 /\n" + lower)]:
            words = [base.llbm, "run", f"p={tree}"]
            done = subprocess.run(words, input=run("bigdef", kind, "1").stdout, capture_output=True, timeout=base.GUARD)
            self.check_run(done, 0, text.encode())

    def test_mounts_and_caches_have_their_commands(self):
        ops, _ = self.graph("mounts", 3)
        self.assertEqual(definition.commands_of(ops[0]), ["write /m1/f 1", "write /m2/f 2"])
        ops, _ = self.graph("routes", 2)
        self.assertEqual(definition.commands_of(ops[0]), ["write /m1023/f k"] * 2)
        ops, _ = self.graph("caches", 2)
        self.assertEqual(len(definition.commands_of(ops[2])), 8)

    def test_the_program_runs_all_kinds(self):
        if base.llbm is None:
            self.skipTest("the program llbm is needed (--llbm PROGRAM)")
        tree = os.fsdecode(self.file(b"tree", run("bigtree", "4", "2").stdout))
        kinds = run("bigdef", "nosuch", "1").stderr.decode().rsplit("choose from ", 1)[1].strip(")\n").split(", ")
        self.assertEqual(len(kinds), 26)
        for kind in [kind.strip("'") for kind in kinds]:
            given = run("bigdef", kind, "3").stdout
            words = [base.llbm, "run", f"p={tree}", f"q={tree}"]
            done = subprocess.run(words, input=given, capture_output=True, timeout=base.GUARD)
            self.assertEqual((done.returncode, done.stderr), (0, b""), kind)
            self.assertIsNone(tree_fault(done.stdout), kind)

    def test_command_lines_are_refused(self):
        for words in [(), ("chain",), ("nosuch", "1"), ("chain", "0"), ("chain", "65536"), ("chain", "x")]:
            done = run("bigdef", *words)
            self.assertEqual((done.returncode, done.stdout), (2, b""), words)
        self.assertEqual(run_closed(1, "bigdef", "chain", "1").returncode, 3)


class Measured(Folder):
    """What the tests of `measure` share."""

    def program(self, line):
        """Writes a shell program with this line."""
        place = self.file(b"program", f"{base.FAKE_SHELL}cat > /dev/null\n{line}\n".encode())
        os.chmod(place, 0o755)
        return os.fsdecode(place)


class Measure(Measured):
    """The table of measurements."""

    def test_the_table_has_a_row_for_each_pair(self):
        names = run("measure", "--list").stdout.decode().split()
        self.assertEqual(len(names), len(set(names)))
        self.assertLessEqual({"chain", "reads-workers", "layers"}, set(names))
        words = ["--llbm", self.program("exit 0"), "--runs", "2", "--part", "5000"]
        done = run("measure", *words, "chain", "reads-workers")
        self.assertEqual((done.returncode, done.stderr), (0, b"measuring chain\nmeasuring reads-workers\n"))
        rows = [[cell.strip() for cell in line.strip("|").split("|")] for line in done.stdout.decode().splitlines()]
        self.assertEqual({len(row) for row in rows}, {12})
        self.assertEqual([row[0] for row in rows], ["Name", "---", "chain", "reads-workers"])
        self.assertEqual((rows[2][1], rows[2][5]), ("`run` of `chain 13`", "`run` of `chain 6`"))
        self.assertEqual(rows[3][1], "`run --workers 2` of `reads 1` (p: 20 2)")
        for cell in (rows[2][9], rows[2][11]):
            self.assertRegex(cell, r"^[0-9]+\.[0-9]{2}$")

    def test_a_run_that_fails_ends_the_measurement(self):
        done = run("measure", "--llbm", self.program("exit 3"), "--runs", "1", "--part", "9000", "chain")
        self.assertEqual((done.returncode, done.stdout), (1, b""))
        self.assertRegex(done.stderr.decode(), r"\nended with status 3: .*/program run\n$")

    def test_command_lines_are_refused(self):
        for words in [("nosuch",), ("--llbm", "/none", "chain"), ("--runs", "0", "chain"), ("--part", "x", "chain")]:
            done = run("measure", *words)
            self.assertEqual((done.returncode, done.stdout), (2, b""), words)


class Scale(Measured):
    """The measurement of the largest definitions, with a small program in place of llbm."""

    def test_the_table_has_a_column_for_the_definition_and_a_row_for_each_command(self):
        program = self.program("cat > /dev/null")
        done = run("measure", "--scale", "--part", "64", "--runs", "1", "--llbm", program, "mounts")
        self.assertEqual((done.returncode, done.stderr), (0, b"measuring mounts\n"))
        head, rule, *rows = [line.split(" | ") for line in done.stdout.decode().splitlines()]
        self.assertEqual((head, rule), (["| Command", "`mounts 16` |"], ["|---|---|"]))
        size = len(run("bigdef", "mounts", "16").stdout)
        self.assertEqual(rows[0], ["| bytes of the definition", f"{size} |"])
        names = ["show", "dis", "asm", "step, `go`", *(f"run, {count}" for count in (1, 2, 4, 8, 16, 32, 64))]
        self.assertEqual([row[0] for row in rows[1:]], [f"| {name}" for name in names])
        for row in rows[1:]:
            self.assertRegex(row[1], r"^[0-9.]+ \([0-9.]+\) s, [0-9]+ MB \|$")

    def test_the_largest_definitions_are_near_a_limit(self):
        given = (words.split(" ") for words in largest_graphs.LARGEST)
        counts = {kind: int(count.strip("{}")) for kind, count in given}
        # One entry more is the terminal; merges of up to 1,024 inputs are needed for as many files and for the merges.
        merges = -(-counts["fan"] // 1_024)
        self.assertEqual({counts[kind] + 1 for kind in ("chain", "pairs", "versions")}, {65_536})
        self.assertEqual(counts["fan"] + merges + 1 + 1, 65_536)
        self.assertEqual(counts["mounts"], 1_024)
        size = len(run("bigdef", "files", "512").stdout)
        self.assertLess(0.999, counts["files"] / 512 * size / 67_108_864)


class Repeated(Measured):
    """The measurement of repeated builds, of a hundred files."""

    def test_the_table_has_builds_after_no_change_and_after_one(self):
        if base.llbm is None or not shutil.which("git"):
            self.skipTest("the program llbm and git are needed")
        done = run("measure", "--repeated", "--part", "1000", "--runs", "1", "--llbm", base.llbm)
        self.assertEqual(done.returncode, 0, done.stderr)
        said = [line for line in done.stderr.decode().splitlines() if not line.startswith(("making", "measuring"))]
        self.assertIn("nothing to do: ", said[0])
        self.assertIn("1 entry differs, in /d0000/f00", said[1])
        rows = [[cell.strip() for cell in line.strip("|").split("|")] for line in done.stdout.decode().splitlines()]
        self.assertEqual([row[0] for row in rows], ["What has changed", "---", "nothing", "the content of one file"])
        for row in rows[2:]:
            self.assertRegex(" ".join(row[1:]), r"^([0-9.]+ s [0-9.]+ s [0-9.]+ ?){2}$")


class Go(Measured):
    """The program in Go that is measured beside `show`."""

    def skip_without_go(self):
        """Skips a test where the program can't be built."""
        if go_show.missing():
            self.skipTest("Go and the generator of BuildKit's messages are needed")

    def measure(self, **settings):
        """Measures small runs of the pair, with a shell program in place of llbm."""
        words = ["--llbm", self.program("exit 0"), "--runs", "1", "--part", "9000"]
        return run("measure", *words, "chain-go", **settings)

    def test_without_go_the_pair_is_skipped_in_one_line(self):
        done = self.measure(env={**os.environ, "PATH": os.fsdecode(self.folder)})
        self.assertEqual(done.returncode, 0)
        self.assertEqual(done.stdout.count(b"\n"), 2)
        words = "chain-go is skipped, since there is no go, no protoc, no protoc-gen-gogofaster"
        self.assertRegex(done.stderr.decode(), f"^{words}(, no /[^ ]*)?\n$")

    def test_the_messages_are_those_that_are_read(self):
        lines = go_show.messages_text().splitlines()
        self.assertEqual(sum(line.startswith("message ") for line in lines), 19)
        self.assertIn("  repeated bytes def = 1;", lines)
        self.assertIn("  map<string, string> attrs = 2;", lines)
        at = lines.index("  oneof action {")
        members = ["FileActionCopy copy = 4", "FileActionMkFile mkfile = 5", "FileActionMkDir mkdir = 6"]
        self.assertEqual(lines[at + 1 : at + 6], [f"    {one};" for one in [*members, "FileActionRm rm = 7"]] + ["  }"])

    def test_the_program_prints_the_edges_of_each_row(self):
        self.skip_without_go()
        program = go_show.built(pathlib.Path(os.fsdecode(self.folder), "go"))
        for kind, count in [("chain", 9), ("pairs", 9), ("fan", 1500), ("caches", 4), ("files", 600)]:
            given = run("bigdef", kind, str(count)).stdout
            graph = definition.graph_of(definition.entries_of(given))
            edges = [*graph.inputs, [graph.result]]
            lines = [f"{row} inputs" + "".join(f" {v}.{i}" for v, i in named) for row, named in enumerate(edges)]
            done = subprocess.run([program], input=given, capture_output=True, timeout=base.GUARD)
            self.check_success(done, self.text(lines))
        given = part(1, part(1, part(1, digest(b""))))
        done = subprocess.run([program], input=given, capture_output=True, timeout=base.GUARD)
        self.check_run(done, 1, b"", b"row 0: an input names no row\n")

    def test_the_pair_has_its_row(self):
        self.skip_without_go()
        done = self.measure()
        self.assertEqual((done.returncode, done.stderr), (0, b"measuring chain-go\n"))
        cells = [cell.strip() for cell in done.stdout.decode().splitlines()[-1].strip("|").split("|")]
        self.assertEqual((cells[1], cells[5]), ("`show` of `chain 7`", "`show` in Go of `chain 7`"))

    def test_a_command_that_fails_ends_the_measurement(self):
        self.skip_without_go()
        os.chmod(self.file(b"protoc", b"#!/bin/sh\nexit 3\n"), 0o755)
        done = self.measure(env={**os.environ, "PATH": f"{os.fsdecode(self.folder)}:{os.environ['PATH']}"})
        self.assertEqual((done.returncode, done.stdout), (1, b""))
        self.assertRegex(done.stderr.decode(), r"^measuring chain-go\nended with status 3: protoc .* ops\.proto\n$")
