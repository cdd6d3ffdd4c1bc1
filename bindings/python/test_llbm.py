"""Tests of a frontend's definitions, in this process: LIBLLBM=libllbm.so python3 -m unittest test_llbm."""

import pathlib
import threading
import unittest

from llbm import Fault, Machine, version

EXAMPLES = pathlib.Path(__file__).resolve().parents[2] / "examples"
TREE = (EXAMPLES / "tour.tree").read_text()
TEXT = (EXAMPLES / "tour.text").read_text()


class Definitions(unittest.TestCase):
    def setUp(self) -> None:
        self.machine = Machine()
        self.addCleanup(self.machine.close)

    def test_a_result(self) -> None:
        with Machine() as machine:
            machine.add_local("source", TREE)
            definition = machine.assemble(TEXT)
            result = machine.run(definition)
            self.assertIn("f 0644 0 0 4c414e473d430a /out/env\n", result)
            machine.open(definition, workers=2)
            self.assertEqual("1 claim 0 0 -> source 1\n", machine.line("next"))
            self.assertIsNone(machine.line("quit"))
        with Machine() as machine, self.assertRaisesRegex(Fault, "fault 121 source"):
            machine.run(definition)

    def test_texts_and_definitions(self) -> None:
        definition = self.machine.assemble(TEXT)
        self.assertEqual((EXAMPLES / "tour.definition").read_bytes(), definition)
        self.assertEqual(TEXT, self.machine.disassemble(definition))
        self.assertEqual(TEXT, self.machine.ops(definition))
        self.assertEqual(
            "0 source steps 1 outputs 1 inputs -\n1 file steps 1 outputs 1 inputs -\n"
            "2 exec steps 6 outputs 1 inputs 1.0 0.0\nresult 2.0\n",
            self.machine.show(definition),
        )

    def test_a_clients_definition(self) -> None:
        folder = EXAMPLES / "from-buildkit" / "merge"
        definition = (folder / "definition").read_bytes()
        printed = self.machine.show(definition) + self.machine.run(definition)
        self.assertEqual((folder / "printed").read_text(), printed)

    def test_faults(self) -> None:
        with self.assertRaises(Fault) as refused:
            self.machine.run(b"\1")
        self.assertEqual((2, 81), (refused.exception.status, refused.exception.number))
        with self.assertRaises(Fault) as none:
            self.machine.line("status")
        self.assertEqual((4, 0), (none.exception.status, none.exception.number))

    def test_findings(self) -> None:
        self.assertEqual([], self.machine.findings((EXAMPLES / "tour.definition").read_bytes()))
        self.assertEqual(["fault 81 3"], self.machine.findings(b"\7"))

    def test_a_plan(self) -> None:
        lines = self.machine.plan((EXAMPLES / "tour.definition").read_bytes()).splitlines()
        self.assertEqual(["value", "value", "value"], [line.split(" ")[3] for line in lines[:-1]])
        self.assertEqual("marks no", lines[-1])

    def test_matches(self) -> None:
        definition = (EXAMPLES / "tour.definition").read_bytes()
        lines = self.machine.matches(definition, definition).splitlines()
        self.assertEqual([[0, 0], [1, 1], [2, 2]], [[int(line.split(" ")[place]) for place in (0, 3)] for line in lines])
        with self.assertRaisesRegex(Fault, "fault 81 3"):
            self.machine.matches(b"\7", definition)

    def test_scripts(self) -> None:
        for text, line in [("cp /a /b && true", ""), ("gzip /a", "fault 71 gzip"), ("cp /a", "fault 72 0"), ("", "fault 73 0")]:
            self.assertEqual(line, self.machine.script(text))

    def test_a_number_of_workers_that_is_too_large_or_negative(self) -> None:
        definition = (EXAMPLES / "tour.definition").read_bytes()
        self.machine.add_local("source", TREE)
        for workers in (0, 65, 2**32, 2**32 + 1, -1, -(2**32) + 1):
            with self.assertRaisesRegex(Fault, "fault 122"):
                self.machine.open(definition, workers)

    def test_a_library_that_is_missing(self) -> None:
        with self.assertRaisesRegex(OSError, "none.so.*LIBLLBM"):
            Machine("/none.so")

    def test_the_version_says_whether_there_is_a_proof(self) -> None:
        self.assertRegex(version(), r"^llbm 1\.\d+, (?:proved with|not proved, compiled with) ")

    def test_a_session_of_the_tour(self) -> None:
        self.machine.add_local("source", TREE)
        self.machine.open((EXAMPLES / "tour.definition").read_bytes())
        replies = map(self.machine.line, (EXAMPLES / "tour.commands").read_text().splitlines())
        self.assertEqual((EXAMPLES / "tour.answers").read_text(), "".join(reply for reply in replies if reply))

    def test_another_thread(self) -> None:
        raised: list[RuntimeError] = []

        def use() -> None:
            try:
                self.machine.show(b"")
            except RuntimeError as fault:
                raised.append(fault)

        thread = threading.Thread(target=use)
        thread.start()
        thread.join()
        self.assertEqual(1, len(raised))


if __name__ == "__main__":
    unittest.main()
