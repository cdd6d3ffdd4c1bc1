"""Tests of the names of entries, and of the tools that show them."""

import unittest

from llbm_tools.llb import names
from llbm_tools.llb.wire import Unreadable
from tests import base
from tests.base import Folder, number, part, run


def texts(field, **values):
    """Returns a map of texts; `_` in a key becomes `.`."""
    return b"".join(part(field, part(1, key.replace("_", ".")) + part(2, value)) for key, value in values.items())


def metadata(entry, held):
    """Returns the metadata of an entry."""
    return part(2, part(1, base.digest(entry)) + part(2, held))


def lines(*pairs):
    """Returns ranges of lines."""
    return b"".join(part(2, part(1, number(1, start)) + part(2, number(1, end))) for start, end in pairs)


def place(entry, *locations):
    """Returns the locations of an entry: for each the number of its file, and its ranges."""
    held = b"".join(part(1, number(1, file) + ranges) for file, ranges in locations)
    return part(1, part(1, base.digest(entry)) + part(2, held))


class Names(unittest.TestCase):
    """Names of entries."""

    def setUp(self):
        self.one, self.two = base.source("local://a"), base.source("local://b")
        self.both = base.merge(self.two, self.one)

    def shown(self, *held, entries=None):
        """Returns how the names of a definition with this metadata are shown."""
        data = base.definition(*(entries or [self.one, base.inputs(self.one)])) + b"".join(held)
        return [name.shown() for name in names.names_of(data)]

    def first(self, held):
        """Returns how the name of an entry with this metadata is shown."""
        return self.shown(metadata(self.one, held))[0]

    def source(self, *held):
        """Returns how the name of an entry is shown if its definition has this `Source`."""
        return self.shown(part(3, b"".join(held) + part(2, part(1, "a")) + part(2, part(1, "b") + part(2, "x"))))[0]

    def test_a_name_comes_from_the_metadata(self):
        for held, shown in [
            (b"", ""), (texts(2, llb_customname="a  b"), "a  b"), (texts(2, other="a"), ""),
            (texts(2, com_docker_dockerfile_v1_command="RUN x"), "RUN x"),
            (texts(2, llb_customname="a", com_docker_dockerfile_v1_command="b"), "a"),
            (texts(2, llb_customname="", com_docker_dockerfile_v1_command="b"), "b"),
            (texts(2, llb_customname="a", llb_customnamegroup="g"), "a [g]"),
            (part(6, part(1, "id") + part(2, "group")), "[group]"),
            (texts(2, llb_customname="a") + part(6, part(2, "a")), "a"),
            (part(6, part(2, "b")) + texts(2, llb_customnamegroup="a"), "[a]"),
            (texts(2, llb_customname="a") + texts(2, llb_customname="b"), "b"),
            (texts(2, llb_customname="a\n\x1b"), "a\\n\\x1b"),
            (number(1, 1) + texts(2, llb_customname="a") + texts(5, cap="x") + part(4, number(1, 1)), "a"),
        ]:
            self.assertEqual(self.first(held), shown, held)

    def test_a_place_is_the_first_location_of_the_entry(self):
        for held, shown in [
            (place(self.one), ""), (place(self.one, (0, lines((3, 3)))), "(a:3)"),
            (place(self.one, (1, lines((3, 5)))), "(b:3-5)"), (place(self.one, (0, b"")), "(a)"),
            (place(self.one, (0, lines((3, 3), (9, 9)))), "(a:3)"), (place(self.two, (0, lines((3, 3)))), ""),
            (place(self.one, (2, lines((3, 3))), (1, lines((4, 0)))), "(b:4)"),
            (place(self.one, (-1, lines((3, 3)))), ""),
        ]:
            self.assertEqual(self.source(held), shown, held)

    def test_what_cannot_be_parsed_is_skipped(self):
        for held in [b"\x0b", part(1, "x"), part(2, b"\x0a"), number(2, 7), part(2, number(1, 1))]:
            self.assertEqual(self.first(held), "", held)
        for held in [part(2, b"\x0a"), part(3, b"\x0b"), part(3, part(1, b"\x0a")), part(3, number(2, 1))]:
            self.assertEqual(self.shown(held), ["", ""], held)
        self.assertEqual(self.first(texts(2, llb_customname="a") + part(6, b"\x0b")), "a")
        with self.assertRaises(Unreadable):
            names.names_of(b"\x0a")

    def test_each_entry_has_a_name_and_the_first_of_equal_ones_the_vertex(self):
        entries = [self.both, self.one, self.two, self.one, base.source("local://c"), base.inputs(self.both)]
        found = names.names_of(base.definition(*entries) + metadata(self.one, texts(2, llb_customname="one")))
        self.assertEqual([name.row for name in found], list(range(6)))
        self.assertEqual([name.digest for name in found], list(map(base.digest, entries)))
        self.assertEqual([name.text for name in found], ["", "one", "", "one", "", ""])
        self.assertEqual([name.vertex for name in found], [2, 0, 1, None, None, None])
        self.assertEqual([name.row for name in names.names_of_vertices(found)], [1, 2, 0])
        no_graph = names.names_of(base.definition(self.one))
        self.assertEqual((no_graph[0].vertex, names.names_of_vertices(no_graph)), (None, []))


class ToolsWithNames(Folder):
    """The tools that show names."""

    def setUp(self):
        super().setUp()
        self.origin = base.source("local://src")
        self.apk = base.exec_op("apk", on=[self.origin])
        data = base.ending(self.origin, self.apk) + metadata(self.apk, texts(2, llb_customname="[1/1] RUN " + "x" * 60))
        data += part(3, place(self.apk, (0, lines((3, 4)))) + part(2, part(1, "Dockerfile")))
        self.given = self.file(b"definition", data)
        self.name = "[1/1] RUN " + "x" * 60 + " (Dockerfile:3-4)"

    def test_lint_prints_the_name_after_a_tab(self):
        base.skip_without_rules(self)
        self.check_run(run("lint", self.given), 1, f"fault 89 1 Script 71 apk\t{self.name}\n".encode())

    def test_explain_prints_the_name_of_the_entry(self):
        for line, prefix in [("failed 1 command 0 status 1", "vertex 1, row 1"), ("fault 88 1 Source", "row 1")]:
            done = run("explain", "--definition", self.given, *line.split(" "))
            explained = done.stdout.decode().split("\n")
            self.assertEqual((done.returncode, done.stderr), (0, b""))
            at = explained.index(f"{prefix}: {base.digest(self.apk)}, exec")
            self.assertEqual(explained[at + 1], f"named: {self.name}")
        self.assertNotIn(b"named: ", run("explain", "--definition", self.given, "fault", "88", "0", "Source").stdout)
        faulty = b"\x0b"
        data = base.definition(faulty, base.inputs(faulty)) + metadata(faulty, texts(2, llb_customname="a"))
        done = run("explain", "--definition", self.file(b"other", data), "fault", "82", "0", "4")
        self.assertTrue(done.stdout.endswith(b", not an op: a record has the wire type 3\nnamed: a\n"), done.stdout)

    def test_graph_of_show_puts_the_name_in_the_label(self):
        shown = b"0 source steps 1 outputs 1 inputs -\n1 exec steps 1 outputs 1 inputs 0.0\nresult 1.0\n"
        done = run("graph-of-show", "--definition", self.given, text=shown)
        self.assertEqual((done.returncode, done.stderr), (0, b""))
        self.assertIn(rb'label="0 source\nlocal://src"', done.stdout)
        self.assertIn(rb'label="1 exec\n[1/1] RUN ' + b"x" * 47 + rb'...\napk"', done.stdout)
