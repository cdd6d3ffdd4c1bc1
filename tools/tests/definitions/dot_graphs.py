"""Tests of `graph-of-show`."""

from tests import base
from tests.base import Folder, run, run_closed, run_into

NO_LINES = b"not the lines of llbm show: there are no bytes: standard input\n"


class GraphOfShow(Folder):
    """The digraph of a graph's lines."""

    lines = [
        b"0 source steps 1 outputs 1 inputs -",
        b"1 file steps 2 outputs 2 inputs 0.0",
        b"2 exec steps 1 outputs 1 inputs 0.0 1.1 1.1",
        b"result 2.0",
    ]

    def show(self, lines, end=b"\n"):
        """Runs the tool on these lines."""
        return run("graph-of-show", text=b"\n".join(lines) + end)

    def test_a_graph_becomes_a_digraph(self):
        digraph = r"""digraph llb {
  0 [shape=folder, label="0 source\nsteps 1\noutputs 1"];
  1 [shape=note, label="1 file\nsteps 2\noutputs 2"];
  0 -> 1 [label="0"];
  2 [shape=box, label="2 exec\nsteps 1\noutputs 1"];
  0 -> 2 [label="0"];
  1 -> 2 [label="1"];
  1 -> 2 [label="1"];
  result [shape=doublecircle];
  2 -> result [label="0"];
}
"""
        done = self.show(self.lines)
        self.assertEqual((done.returncode, done.stdout.decode(), done.stderr), (0, digraph, b""))

    def test_each_kind_has_its_own_shape(self):
        shapes = set()
        for kind in [b"source", b"file", b"merge", b"exec"]:
            done = self.show([b"0 %b steps 1 outputs 1 inputs -" % kind, b"result 0.0"])
            self.assertEqual(done.returncode, 0)
            shapes.add(done.stdout.splitlines()[1].partition(b"=")[2].partition(b",")[0])
        self.assertEqual(len(shapes), 4)

    def check_refused(self, lines, number, cause, end=b"\n"):
        """Checks that the lines are refused at this number for this cause, and that nothing is written."""
        with self.subTest(lines=lines):
            done = self.show(lines, end)
            errors = f"{cause}: line {number}\n"
            self.assertEqual((done.returncode, done.stdout, done.stderr.decode()), (2, b"", errors))

    def test_faulty_lines_are_refused(self):
        form = "neither V KIND steps S outputs O inputs LIST nor result V.I"
        faults = [
            b"", b"0", b"0 build steps 1 outputs 1 inputs -", b"0 file steps 1 outputs 1 inputs", b"result 0",
            b"00 file steps 1 outputs 1 inputs -", b"0 file steps 1 outputs 1 inputs - ", b"result 0.0 ",
            b"0 file steps 1  outputs 1 inputs -", b"0 file steps -1 outputs 1 inputs -", b"result 0.0\r",
            b"0 file steps 1 outputs 1 inputs 0", b"0 file steps 1 outputs 1 inputs 0.0  0.0", b"\xff",
            b"result \xc2\xb2.0",
        ]
        for line in faults:
            self.check_refused([line, b"result 0.0"], 1, form)
            self.check_refused([self.lines[0], line, b"result 0.0"], 2, form)

    def test_wrong_numbers_are_refused(self):
        self.check_refused([self.lines[1]], 1, "the number of the vertex is not 0")
        self.check_refused([self.lines[0]] * 2, 2, "the number of the vertex is not 1")
        for edge in ["0.1", "1.0", "2.0"]:
            line = f"1 merge steps 2 outputs 1 inputs 0.0 {edge}".encode()
            self.check_refused([self.lines[0], line, b"result 0.0"], 2, f"{edge} is not an output of a vertex above")
        self.check_refused(self.lines[:3] + [b"result 2.1"], 4, "2.1 is not an output of a vertex above")

    def test_texts_with_a_faulty_end_are_refused(self):
        self.check_refused(self.lines[:3], 4, "there is no result")
        self.check_refused(self.lines, 4, "the line does not end with a newline", b"")
        self.check_refused(self.lines + [b"rest"], 5, "the line does not end with a newline", b"")
        self.check_refused(self.lines + [b"result 2.0"], 5, "the result is not the last line")

    def test_an_input_without_lines_is_named(self):
        place = self.file(b"definition", b"")
        for words in ((), ("--definition", place)):
            self.check_run(run("graph-of-show", *words), 2, b"", NO_LINES)

    def test_command_lines_are_refused(self):
        self.assertEqual(run("graph-of-show", "word").returncode, 2)
        self.assertEqual(run("graph-of-show", "--definition").returncode, 2)

    def test_failing_standard_streams_are_reported(self):
        with open("/dev/full", "wb") as output:
            done = run_into(output, "graph-of-show", "--definition", self.file(b"definition", b""))
        self.assertEqual((done.returncode, done.stderr), (2, NO_LINES))
        done = run_closed(0, "graph-of-show")
        self.check_run(done, 3, b"", b"standard input is closed\n")


class Labels(Folder):
    """The digraph with labels from a definition."""

    def setUp(self):
        super().setUp()
        self.origin = base.source("local://src")
        actions = [base.copy("/a", "/b/"), base.rm("/c"), base.mkfile("/d"), base.mkdir("/e")]
        self.files = base.file_op(*actions, on=[self.origin])
        self.words = base.exec_op("/bin/sh", "-c", "true && " + "x" * 60, on=[(self.files, 1)])
        self.merged = base.merge(self.words, self.origin)

    def show(self, given, *lines):
        """Runs the tool on these lines with this definition."""
        text = "".join(line + "\n" for line in lines).encode()
        return run("graph-of-show", "--definition", self.file(b"definition", given), text=text)

    def test_each_kind_has_its_label(self):
        done = self.show(
            base.ending(self.origin, self.files, self.words, self.merged),
            "0 source steps 1 outputs 1 inputs -",
            "1 file steps 4 outputs 2 inputs 0.0",
            "2 exec steps 2 outputs 1 inputs 1.1",
            "3 merge steps 2 outputs 1 inputs 2.0 0.0",
            "result 3.0",
        )
        digraph = r"""digraph llb {
  0 [shape=folder, label="0 source\nlocal://src"];
  1 [shape=note, label="1 file\ncopy /a -> /b/\nrm /c\nmkfile /d\nmkdir /e"];
  0 -> 1 [label="0"];
  2 [shape=box, label="2 exec\ntrue && xxxxxxxxxxxxxxxxxxxxxxxxxxxxxxxxxxxxxxxxxxxxxxxxx..."];
  1 -> 2 [label="1"];
  3 [shape=trapezium, label="3 merge"];
  2 -> 3 [label="0"];
  0 -> 3 [label="0"];
  result [shape=doublecircle];
  3 -> result [label="0"];
}
"""
        self.check_success(done, digraph.encode())

    def label(self, entry, kind):
        """Returns the label of a definition's only vertex, as the digraph has it."""
        done = self.show(base.ending(entry), f"0 {kind} steps 1 outputs 1 inputs -", "result 0.0")
        self.assertEqual((done.returncode, done.stderr), (0, b""))
        return done.stdout.decode().splitlines()[1].partition('label="')[2].removesuffix('"];')

    def labels(self, entry, kind):
        """Returns the lines of that label."""
        return self.label(entry, kind).split(r"\n")

    def test_special_characters_of_graphviz_are_escaped(self):
        alpha = "/\N{GREEK SMALL LETTER ALPHA}"
        for path, written in [
            ('/a"b', r"/a\"b"), (r"/a\nb", r"/a\\nb"), ("/a\nb", r"/a\\nb"), ("/\x7f", r"/\\x7f"), ("/\\", r"/\\"),
            ("/&lt;", "/&amp;lt;"), ("/a&#65;", "/a&amp;#65;"), ("/a&&b", "/a&&b"), ("/<b>|{}", "/<b>|{}"),
            (alpha, alpha),
        ]:
            self.assertEqual(self.label(base.file_op(base.mkdir(path)), "file"), r"0 file\nmkdir " + written)

    def test_a_label_has_at_most_eight_actions(self):
        paths = [f"/{number}" for number in range(9)]
        lines_of_label = self.labels(base.file_op(*map(base.rm, paths[:8])), "file")
        self.assertEqual(lines_of_label, ["0 file", *(f"rm {path}" for path in paths[:8])])
        self.assertEqual(self.labels(base.file_op(*map(base.rm, paths)), "file")[8:], ["rm /7", "and 1 more"])

    def test_a_text_has_at_most_sixty_characters(self):
        for count, end in [(54, "x"), (55, "...")]:
            text = self.labels(base.file_op(base.mkdir("/" + "x" * (count - 1))), "file")[1]
            self.assertEqual((len(text), text[-len(end):]), (60, end))

    def test_words_without_a_shell_are_quoted(self):
        self.assertEqual(self.labels(base.exec_op("write", "/a b", "c"), "exec"), ["0 exec", "write '/a b' c"])

    def test_another_graph_is_refused(self):
        given = base.ending(self.origin, self.files)
        lines = ["0 source steps 1 outputs 1 inputs -", "1 file steps 4 outputs 2 inputs 0.0"]
        self.assertEqual(self.show(given, *lines, "result 1.0").returncode, 0)
        other = b"the definition has another graph than the lines\n"
        self.check_run(self.show(given, *lines, "result 1.1"), 2, b"", other)
        self.check_run(self.show(given, lines[0], "result 0.0"), 2, b"", other)
        vertex = b"vertex 1 is another one in the definition\n"
        for line in ["1 file steps 4 outputs 2 inputs -", "1 merge steps 4 outputs 2 inputs 0.0"]:
            self.check_run(self.show(given, lines[0], line, "result 1.0"), 2, b"", vertex)

    def test_faulty_definitions_are_refused(self):
        lines = ["0 source steps 1 outputs 1 inputs -", "result 0.0"]
        unknown = base.inputs(b"none")

        def line(cause):
            return f"not a definition: {cause}: ".encode() + self.place(b"definition") + b"\n"

        for given, cause in [
            (b"\x0a", "the bytes end inside a record"),
            (base.definition(self.origin), "there are fewer than two distinct rows"),
            (base.definition(self.origin, b"\x0b"), "row 1 is not an op: a record has the wire type 3"),
            (base.definition(self.origin, unknown), "input 0 of row 1 names no row"),
            (base.definition(self.origin, base.file_op()), "the terminal has no input"),
        ]:
            self.check_run(self.show(given, *lines), 2, b"", line(cause))
        done = run("graph-of-show", "--definition", self.place(b"none"), text=b"result 0.0\n")
        self.assertEqual(done.returncode, 2)
        text = "".join(line + "\n" for line in lines).encode()
        done = run("graph-of-show", "--definition", self.place(b"none"), text=text)
        self.check_run(done, 2, b"", b"there is no such file or directory: " + self.place(b"none") + b"\n")
