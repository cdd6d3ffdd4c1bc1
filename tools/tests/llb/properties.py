"""Properties of records and messages, tried by hypothesis, which makes a failing example small; else skipped."""

import functools
import subprocess
import unittest

from llbm_tools import commands
from llbm_tools.llb import messages, op_reading, rewriting, wire
from llbm_tools.llb.ops import Op
from tests import base

try:
    from hypothesis import HealthCheck, given, settings, strategies
except ImportError:
    HAS_HYPOTHESIS = False
else:
    HAS_HYPOTHESIS = True


PYTHON_OF_THE_SYSTEM = "/usr/bin/python3"


@functools.cache
def system_has_hypothesis():
    """Returns whether the Python of the system has hypothesis, for which Debian packs it."""
    try:
        words = [PYTHON_OF_THE_SYSTEM, "-c", "import hypothesis"]
        done = subprocess.run(words, capture_output=True, timeout=base.GUARD)
    except OSError:
        return False
    return done.returncode == 0


class Skipped(unittest.TestCase):
    """Where this Python has no hypothesis, that of the system tries the properties, or they are skipped."""

    def test_properties_are_tried(self):
        if HAS_HYPOTHESIS:
            return
        if not system_has_hypothesis():
            self.skipTest("hypothesis is needed (Debian: python3-hypothesis)")
        words = [PYTHON_OF_THE_SYSTEM, *commands.line_of("test", "properties")[1:]]
        done = subprocess.run(words, capture_output=True, text=True, timeout=base.GUARD)
        self.assertEqual(done.returncode, 0, done.stderr)
        self.assertRegex(done.stdout, "^.*\\n[0-9]+ passed, 0 failed, 1 skipped\\n$")


if HAS_HYPOTHESIS:
    # The same cases in each run, however long they take.
    FIXED = settings(deadline=None, derandomize=True, database=None, suppress_health_check=list(HealthCheck))
    NUMBERS = strategies.integers(0, (1 << 64) - 1)
    VALUES = strategies.one_of(NUMBERS, strategies.binary(max_size=20))
    RECORDS = strategies.lists(strategies.tuples(strategies.integers(1, wire.MOST_FIELDS), VALUES), max_size=8)

    class Records(unittest.TestCase):
        """Records come back as they were written, and any bytes are records or have a fault."""

        @FIXED
        @given(NUMBERS, strategies.binary(max_size=5))
        def test_a_varint_comes_back(self, number, after):
            text = wire.varint(number)
            self.assertEqual(wire.varint_at(text + after, 0), (number, len(text)))

        @FIXED
        @given(RECORDS)
        def test_records_come_back(self, records):
            text = messages.encoded(records)
            found = list(wire.records(text))
            self.assertEqual([(one.field, one.held) for one in found], records)
            self.assertEqual(b"".join(one.text for one in found), text)
            self.assertEqual(rewriting.changed(text, lambda same: same), text)

        @FIXED
        @given(strategies.binary(max_size=60))
        def test_bytes_are_an_op_or_have_a_fault(self, text):
            try:
                found = op_reading.read(Op, text)
            except wire.Faulty as fault:
                self.assertNotEqual(str(fault), "")
            else:
                members = [found.exec, found.source, found.file, found.merge, found.build, found.diff]
                self.assertEqual(sum(member is not None for member in members), int(found.kind is not None))

        @FIXED
        @given(strategies.binary(max_size=60))
        def test_a_message_that_is_parsed_has_the_same_bytes_if_they_are_the_shortest(self, text):
            try:
                records = messages.parsed("Op", text)
            except wire.Unreadable:
                return
            again = messages.encoded(records)
            self.assertEqual(messages.encoded(messages.parsed("Op", again)), again)
