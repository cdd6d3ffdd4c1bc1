"""Tests of the lines `CACHED` of `build --keep`, and of results that are taken from the last build."""

import json
import os

from tests import base
from tests.building.rebuilding import SAME, Rebuilds


class Cached(Rebuilds):
    """The lines of vertices that the last build had, on the same sources."""

    def setUp(self):
        super().setUp()
        self.lower = base.file_op(base.mkdir("/x"))
        self.set_definition(self.on(self.lower))
        self.assertEqual(self.replace().returncode, 0)

    def on(self, *lower):
        """Returns a definition that merges a file op on the source with other vertices, of which the last is on top."""
        return base.ending(self.origin, self.files, *lower, base.merge(self.files, lower[-1]))

    def set_definition(self, data):
        """Sets the definition of the next build."""
        self.given = data
        self.file(b"definition", data)

    def cached(self, done):
        """Returns the lines of cached vertices of a build that succeeded."""
        self.assertEqual(done.returncode, 0, done.stderr)
        return [line for line in done.stderr.decode().splitlines() if line.startswith("CACHED")]

    def test_what_an_edit_of_the_definition_does_not_touch_is_cached(self):
        self.set_definition(self.on(base.file_op(base.mkdir("/y"))))
        done = self.replace()
        self.assertEqual(self.cached(done), ["CACHED vertex 0 source", "CACHED vertex 1 file"])
        self.check(done, "out stays as it is", runs=2)
        self.assertEqual(self.replace().stderr, SAME)

    def test_files_are_not_read_again_for_another_definition(self):
        self.set_definition(self.on(base.file_op(base.mkdir("/y"))))
        before = os.stat(self.at / "in/a/x").st_atime_ns
        self.assertEqual(self.replace().returncode, 0)
        self.assertEqual(os.stat(self.at / "in/a/x").st_atime_ns, before)

    def test_what_a_changed_source_does_not_feed_is_cached(self):
        self.make(b"a/x", b"new")
        done = self.replace()
        self.assertEqual(self.cached(done), ["CACHED vertex 2 file"])
        self.check(done, "writing out: 1 entry differs, in /a/x", "out is written", runs=1)
        self.make(b"a/new", b"new")
        done = self.replace()
        self.assertEqual(self.cached(done), ["CACHED vertex 2 file"])
        self.check(done, "writing out: 1 entry differs, in /a", "out is written", runs=2)

    def test_a_definition_with_the_same_result_is_not_run(self):
        for data in [self.on(base.file_op(base.mkdir("/none")), self.lower), self.given]:
            self.set_definition(data)
            done = self.replace()
            self.assertEqual(len(self.cached(done)), 4)
            self.check(done, "nothing to do: out is what this definition makes of these sources", runs=1)
            self.assertEqual(self.replace().stderr, SAME)
        # What is kept serves as before.
        self.make(b"a/x", b"new")
        self.check(self.replace(), "writing out: 1 entry differs, in /a/x", "out is written", runs=1)

    def test_a_definition_with_the_same_result_on_a_changed_source_is_run(self):
        self.set_definition(self.on(base.file_op(base.mkdir("/none")), self.lower))
        self.make(b"a/x", b"new")
        done = self.replace()
        self.assertEqual(self.cached(done), ["CACHED vertex 2 file"])
        self.check(done, "writing out: 1 entry differs, in /a/x", "out is written", runs=2)

    def test_another_output_of_a_cached_vertex_is_another_result(self):
        two = base.file_op(base.number(3, 0) + base.mkdir("/a"), base.number(3, 1) + base.mkdir("/b"))
        for output in range(2):
            self.set_definition(base.definition(two, base.inputs((two, output))))
            done = self.build("--replace", "--keep", "kept", "definition", "out", "src=in")
        self.assertEqual(self.cached(done), ["CACHED vertex 0 file"])
        self.assertEqual(self.runs(), 3)

    def test_nothing_is_cached_behind_a_cache_mount(self):
        cache = base.number(1, -1) + base.part(3, "/cache") + base.number(4, -1) + base.number(6, 3)
        mounts = base.part(2, base.number(1, 0) + base.part(3, "/"))
        mounts += base.part(2, cache + base.part(20, base.part(1, "k")))
        behind = base.inputs(self.lower) + base.part(2, base.part(1, base.part(1, "true")) + mounts)
        self.set_definition(self.on(self.lower, behind))
        self.assertEqual(self.replace().returncode, 0)
        self.set_definition(self.on(self.lower, behind, base.file_op(base.mkdir("/y"), on=[behind])))
        lines = ["CACHED vertex 0 source", "CACHED vertex 1 file", "CACHED vertex 2 file"]
        self.assertEqual(self.cached(self.replace()), lines)

    def test_names_are_printed(self):
        description = base.part(2, base.part(1, "llb.customname") + base.part(2, "the files"))
        metadata = base.part(2, base.part(1, base.digest(self.files)) + base.part(2, description))
        self.set_definition(self.on(base.file_op(base.mkdir("/y"))) + metadata)
        self.assertIn("CACHED vertex 1 file: the files", self.cached(self.replace()))

    def test_of_what_is_not_accepted_nothing_is_said(self):
        self.set_definition(base.ending(base.source("docker-image://a")))
        self.assertEqual(self.cached(self.replace()), [])
        self.assertEqual(self.runs(), 2)

    def test_the_object_has_what_was_cached_and_how_the_build_ended(self):
        place = str(self.at / "out")
        words = ["--json", "--replace", "--keep", "kept", "definition", "out", "src=in"]
        end = SAME.decode().rstrip("\n")
        found = json.loads(self.build(*words).stdout)
        self.assertEqual(found, {"result": "out", "status": 0, "end": end, "cached": []})
        self.set_definition(self.on(base.file_op(base.mkdir("/y"))))
        found = json.loads(self.build(*words).stdout)
        cached = [{"vertex": 0, "kind": "source", "name": ""}, {"vertex": 1, "kind": "file", "name": ""}]
        self.assertEqual(found, {"result": "out", "status": 0, "end": "out stays as it is", "cached": cached})
        self.set_behavior("sys.exit(1)")
        self.make(b"new", b"new")
        found = json.loads(self.build(*words[:2], "definition", place, "src=in").stdout)
        self.assertEqual(found, {"result": place, "status": 1, "end": "nothing is written", "cached": []})
        done = self.build("--json", "definition", "-", "src=in")
        self.assertEqual(done.stderr, b"--json needs a RESULT that is not standard output\n")
