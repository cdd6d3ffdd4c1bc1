"""Tests that the page finds and adopts as `lint` and `adopt` do: the same findings, ops and words."""

import base64
import json
import pathlib
import random
import shutil
import subprocess
import unittest
from unittest import mock

from llbm_tools.definitions import adopted_ops
from llbm_tools.fuzzing import changed_inputs
from llbm_tools.llb import definition, wire
from llbm_tools.llb.findings import findings_of
from llbm_tools.llb.program_questions import ask
from llbm_tools.page import assets, foreign_cases
from tests import base
from tests.base import ROOT, Folder
from tests.definitions import adopting as adopt_tests
from tests.page import node_machine

PAGE = ROOT / "page"
CHANGED = 400
SEED = 7

SCRIPT = node_machine.MACHINE + """
const { entriesOf } = await from('definition.mjs');
const { findingsOf } = await from('findings.mjs');
const { adopted } = await from('adopting.mjs');
const { Rows } = await from('refused_rows.mjs');
for (const line of fs.readFileSync(0, 'utf8').split('\\n').filter(Boolean)) {
  const [given, lines, ops] = JSON.parse(line);
  const definition = new Uint8Array(Buffer.from(given, 'base64'));
  const machine = machineOf(lines, ops);
  const findings = findingsOf(machine, definition);
  let adoption = null;
  if (!findings.some(({ number }) => number === 81)) {
    const rows = new Rows(entriesOf(machine, definition).rows, findings);
    const { data, changes, sources } = adopted(machine, definition, rows, findings);
    const told = sources.map(({ name, identifier }) => [name, identifier]);
    adoption = [Buffer.from(data).toString('base64'), changes.map(({ row, words }) => [row, words]), told];
  }
  console.log(JSON.stringify([findings.map((one) => one.line), adoption]));
}
"""


def lines_of(found):
    """Returns the lines of findings."""
    return [f"fault {one.words()}" for one in found]


def adoption_of(data):
    """Returns what `adopt --all` makes of a definition, or None if it refuses to read it."""
    try:
        made = adopted_ops.adopt(data, foreign_cases.ALL, base.llbm)
    except wire.Unreadable:
        return None
    return [said_of(made.data), [list(one) for one in made.changes], [list(one) for one in made.sources]]


def said_of(data):
    """Returns the ops of a definition and its other records, in which entries are named by their rows: in the page the
    program writes the entries that are changed, as canonical bytes, so that they can have other digests."""
    records = list(wire.records(data))
    digests = [definition.digest_of(record.held).encode() for record in records if record.field == 1]
    ops = ask(base.llbm, "show", "--ops", given=data).text.encode()
    parts = [ops, *(record.text for record in records if record.field != 1)]
    for row, digest in reversed(list(enumerate(digests))):
        parts = [part.replace(digest, b"row %d" % row) for part in parts]
    return parts


def examples():
    """Returns the definitions of the examples, and the foreign one."""
    files = [*assets.EXAMPLES.glob("**/definition"), *assets.EXAMPLES.glob("*.definition")]
    return [file.read_bytes() for file in [*sorted(files), assets.EXAMPLES / "foreign.llb"]]


def changed_definitions():
    """Returns definitions that are examples with random changes."""
    dice = random.Random(SEED)
    found, made = examples(), []
    for _ in range(base.cases(CHANGED)):
        data = dice.choice(found)
        for _ in range(dice.randint(1, 4)):
            data = changed_inputs.changed_definition(dice, data)
        made.append(data)
    return made


class Recorder:
    """Runs a tool as the tests of `adopt` do, and keeps the definitions that they give to it."""

    def __init__(self, run):
        self.run = run
        self.given = []

    def __call__(self, tool, *words, text=b"", **settings):
        """Runs the tool."""
        if tool == "adopt":
            files = [pathlib.Path(word) for word in map(self.name, words) if not word.startswith("-")]
            self.given += [file.read_bytes() for file in files if file.is_file() and file.stat().st_size < 1 << 20]
            self.given += [text] if isinstance(text, bytes) and text else []
        return self.run(tool, *words, text=text, **settings)

    @staticmethod
    def name(word):
        """Returns a word as a text."""
        return word.decode("utf-8", "surrogateescape") if isinstance(word, bytes) else str(word)


@unittest.skipUnless(shutil.which("node"), "Node is not installed")
class LikeTheTools(Folder):
    """The page's rules beside those of the tools."""

    @staticmethod
    def line_of(data):
        """Returns a line with a definition, with what the program finds in it, and with its ops."""
        found, ops = (ask(base.llbm, "show", option, given=data).text for option in ("--findings", "--ops"))
        return json.dumps([base64.b64encode(data).decode(), found, ops]) + "\n"

    def check_all(self, definitions):
        """Compares findings and adoptions of definitions, and returns how many are refused."""
        tables = self.file(b"tables.json", assets.tables())
        given = "".join(map(self.line_of, filter(None, definitions)))
        words = ["node", "--input-type=module", "-e", SCRIPT, PAGE.as_uri(), tables, base.llbm]
        done = subprocess.run(words, input=given.encode(), capture_output=True, timeout=base.GUARD)
        self.assertEqual((done.returncode, done.stderr), (0, b""))
        refused = 0
        for data, line in zip(filter(None, definitions), done.stdout.splitlines(), strict=True):
            found, made = json.loads(line)
            self.assertEqual(found, lines_of(findings_of(data, base.llbm)))
            if made:
                made[0] = said_of(base64.b64decode(made[0]))
            self.assertEqual(made, adoption_of(data))
            refused += bool(found)
        return refused

    def test_the_examples(self):
        self.check_all(examples())

    def test_random_definitions(self):
        made = changed_definitions()
        self.assertGreater(self.check_all(made), len(made) // 2)

    def test_the_definitions_of_the_tests_of_adopt(self):
        recorder = Recorder(adopt_tests.run)
        with mock.patch.object(adopt_tests, "run", recorder):
            for case in (adopt_tests.Adopt, adopt_tests.Examples):
                unittest.defaultTestLoader.loadTestsFromTestCase(case).run(unittest.TestResult())
        self.assertGreater(len(recorder.given), 30)
        self.check_all(recorder.given)
