"""Tests of the daemon beside BuildKit's rules: what it builds is BuildKit's result, or a warning names the rule."""

import os
import re

from llbm_tools.daemon import runs, random_definitions
from llbm_tools.llb.findings import findings_of
from llbm_tools.rules.examples import examples
from llbm_tools.trees import tree_maps
from tests import base
from tests.daemon.daemon_clients import WithDaemon
from tests.rules.rule_examples import compared, names_of_rules

KINDS = (random_definitions.PLAIN, random_definitions.WILD, random_definitions.LAYERS)
SEEDS = range(6)
WARNING = re.compile(r"^#\d+ WARN: (?:action \d+: )?.*: ([\w, ]+?)(?:, and \d+ more)?$", re.M)


class Warnings(WithDaemon):
    """The results of builds, and their warnings."""

    def setUp(self):
        super().setUp()
        base.skip_without_rules(self)

    def built(self, number, data, sources):
        """Builds a definition, and returns the lines of the result, None if there is none, and the rules that are
        warned of."""
        result = self.at / f"result-{number}"
        words = ["build", "--progress", "plain", "--output", f"type=tar,dest={result}"]
        for name, tree in sources.items():
            place = self.at / f"{number}-{name}"
            runs.write_tree(tree, os.fsencode(place))
            words += ["--local", f"{name}={place}"]
        done = self.client(*words, given=data)
        names = {name for names in WARNING.findall(done.stderr.decode()) for name in names.split(", ")}
        made = None
        if done.returncode == 0:
            made = [line.decode().rstrip("\n") for line in tree_maps.lines_of(runs.tree_in(os.fspath(result)))[1:]]
        return made, names & {*names_of_rules()}

    def check(self, given):
        """Checks that each result is BuildKit's, or that a warning names a rule; returns how many are the same."""
        count = 0
        with self.daemon():
            for number, (data, sources, there) in enumerate(given):
                made, names = self.built(number, data, sources)
                self.assertTrue(made == there or names, (data.hex(), made, there))
                count += made == there
        return count

    def test_least_examples_end_as_in_buildkit(self):
        all_of_them = examples()
        count = self.check((one.data, one.sources, one.buildkit) for one in all_of_them)
        self.assertGreaterEqual(count, len(all_of_them) - 1)

    def test_random_definitions_end_as_in_buildkit_or_with_a_warning(self):
        made = [random_definitions.make(f"warnings {kind} {seed}", kind) for kind in KINDS for seed in SEEDS]
        taken = [one for one in made if not findings_of(one.data, base.llbm)]
        self.check((one.data, one.sources, compared(one.data, one.sources)[1]) for one in taken)
