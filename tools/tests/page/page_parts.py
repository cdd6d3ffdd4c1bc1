"""Tests of parts of the page in Node: long records, edges, and what is said of failures and idle workers."""

import json
import shutil
import subprocess
import unittest

from tests import base
from tests.base import ROOT

PAGE = ROOT / "page"


class Parts(unittest.TestCase):
    """Values of expressions over a module of the page, which is `m`."""

    def setUp(self):
        if not shutil.which("node"):
            self.skipTest("Node is needed")

    def node(self, module, text):
        """Returns the value of an expression."""
        script = f"import * as m from {json.dumps((PAGE / module).as_uri())};\n"
        script += f"Promise.resolve({text}).then(value => process.stdout.write(JSON.stringify(value)));"
        command = ["node", "--input-type=module", "-e", script]
        done = subprocess.run(command, capture_output=True, text=True, timeout=base.GUARD)
        self.assertEqual((done.returncode, done.stderr), (0, ""))
        return json.loads(done.stdout)


class LongRecords(Parts):
    """Records of 200,000 events: a walk over them for each event would not end."""

    EVENTS = """Array.from({ length: 200000 }, (_, n) => (
      { command: `step ${n}`, line: `${n}`, kind: 'step', worker: 0 }))"""

    def test_a_record_is_gone_along_and_back(self):
        text = f"""(() => {{
          const ways = new m.Ways();
          const lines = Array.from({{ length: 200000 }}, (_, n) => `${{n + 1}} step 0 -> ran ${{n}} 0\n`);
          let turns = 0;
          for (const laying = ways.laying(lines.join('')); !laying.next().done;) turns += 1;
          if (turns < 100) return turns;
          const end = ways.end();
          let count = 0;
          for (let place = ways.ahead(); place; place = ways.ahead()) {{ ways.add(place.event); count += 1; }}
          for (let n = count; n >= 0; n -= 1) {{ ways.back(n); if (ways.end() !== end) return 'another end'; }}
          return [count, ways.count, ways.at === ways.root];
        }})()"""
        self.assertEqual(self.node("event_tree.mjs", text), [200000, 1, True])

    def test_a_fork_keeps_both_ways(self):
        text = """(() => {
          const ways = new m.Ways();
          const add = (command) => ways.add({ command, line: command, kind: 'step', worker: 0 });
          ['a', 'b', 'c', 'd'].forEach(add);
          ways.back(2); ['x', 'y'].forEach(add);
          ways.back(3); ['z'].forEach(add);
          const names = (places) => places.map(({ event }) => event?.command ?? '').join('');
          const found = [names(ways.path(ways.end()))];
          ways.back(2); found.push(names([ways.ahead()]));
          ways.back(1); found.push(names([ways.ahead()]), names(ways.path(ways.end())));
          ['b', 'c'].forEach(add); found.push(names(ways.path(ways.end())));
          return [...found, ways.count];
        })()"""
        self.assertEqual(self.node("event_tree.mjs", text), ["abxz", "x", "b", "abxz", "abcd", 3])

    def test_a_place_has_what_workers_run(self):
        text = """(() => {
          const ways = new m.Ways();
          const add = (kind, worker, vertex) => ways.add(
            { command: `${kind} ${worker}`, line: '', kind, worker, vertex });
          add('claim', 0, 7); add('claim', 1, 8); add('step', 0, 7);
          const first = [...ways.at.claims];
          add('settle', 0, 7); const second = [...ways.at.claims];
          ways.back(1);
          return [first, second, [...ways.at.claims]];
        })()"""
        self.assertEqual(self.node("event_tree.mjs", text), [[[0, 7], [1, 8]], [[1, 8]], [[0, 7]]])

    def test_a_track_follows_by_the_events_that_are_new(self):
        text = f"""(async () => {{
          const {{ Ways }} = await import({json.dumps((PAGE / 'event_tree.mjs').as_uri())});
          const ways = new Ways();
          const track = new m.Track([]);
          let added = 0;
          const add = track.add.bind(track);
          track.add = (place) => {{ added += 1; add(place); }};
          const events = {self.EVENTS};
          for (let n = 0; n < 1000; n += 1) {{
            for (let i = 0; i < 100; i += 1) ways.add(events[n * 100 + i]);
            for (const turns = track.following(ways, ways.end()); !turns.next().done;);
          }}
          const again = new m.Track([]);
          const counts = [];
          for (const turns = again.following(ways, ways.end()); !turns.next().done;) counts.push(again.path.length);
          const most = counts.reduce((large, count, i) => Math.max(large, count - (counts[i - 1] ?? 0)), 0);
          return [added, track.path.length, again.path.length, most <= m.MOST_AT_ONCE, counts.length];
        }})()"""
        self.assertEqual(self.node("time_track.mjs", text), [100001, 100001, 100001, True, 50])


class Edges(Parts):
    """Edges of 50 random graphs: none passes through a box."""

    def test_no_edge_passes_behind_a_box(self):
        text = """(() => {
          let seed = 7;
          const dice = (n) => { seed = (seed * 1103515245 + 12345) % 2147483648; return seed % n; };
          const made = (count, most) => ({ vertices: Array.from({ length: count }, (_, number) => ({
            number, inputs: number ? Array.from({ length: dice(most) }, () => ({ vertex: dice(number) })) : [],
          })) });
          const wrong = [];
          let edges = 0;
          for (let n = 0; n < 50; n += 1) {
            const graph = n % 5 ? made(20 + dice(200), 4) : { vertices: [
              ...Array.from({ length: 30 + dice(400) }, (_, number) => ({ number, inputs: [] }))] };
            const last = graph.vertices.length;
            graph.vertices.push({ number: last, inputs: graph.vertices.map(({ number }) => ({ vertex: number })) });
            const placed = m.layout(graph, 1400, (vertex) => 100 + (vertex * 37) % 400);
            const inside = (x, y) => placed.boxes.some((box) => x > box.x && x < box.x + box.width
              && y > box.y && y < box.y + m.BOX.height);
            for (const { number, inputs } of graph.vertices) for (const { vertex } of inputs) {
              const way = m.edgeWay(placed, vertex, number, (edges % 5 - 2) * 3);
              edges += 1;
              for (let i = 1; i < way.length; i += 1) {
                const [a, b] = [way[i - 1], way[i]];
                // A bend stays between two rows, since its places are; the rest is straight down.
                const isBend = i % 2 === 1;
                if (b.y < a.y || (!isBend && a.x !== b.x)) wrong.push(['shape', n, vertex, number]);
                for (let part = 0; part <= 16; part += 1) {
                  const t = part / 16;
                  const s = isBend ? t * t * (3 - 2 * t) : t;
                  const bent = a.y * (1 - t) ** 3 + 1.5 * (a.y + b.y) * (1 - t) * t + b.y * t ** 3;
                  const y = isBend ? bent : a.y + (b.y - a.y) * t;
                  if (inside(a.x + (b.x - a.x) * s, y)) wrong.push(['box', n, vertex, number]);
                }
              }
            }
          }
          return [edges > 3000, wrong.slice(0, 5)];
        })()"""
        self.assertEqual(self.node("layout.mjs", text), [True, []])


class Boxes(Parts):
    """Where boxes are, and how wide."""

    def test_a_row_is_as_wide_as_its_labels_where_there_is_room(self):
        text = """(() => {
          const vertex = (number, inputs) => ({ number, inputs: inputs.map((one) => ({ vertex: one })) });
          const wide = Array.from({ length: 5 }, (_, i) => i + 1);
          const graph = { vertices: [vertex(0, []), ...wide.map((n) => vertex(n, [0])), vertex(6, wide)] };
          const wanted = (number) => (number === 6 ? 900 : 300);
          return [0, 1000].map((room) => m.layout(graph, room, wanted).widths);
        })()"""
        # Five boxes and their gaps take 936 pixels; a label wants 300, and boxes are 168 and multiples of 36 wide.
        self.assertEqual(self.node("layout.mjs", text), [[312, 168, 460], [312, 171, 460]])

    def test_a_large_graph_is_about_as_wide_as_it_is_high(self):
        text = """(() => {
          const placed = m.layout({ vertices: Array.from({ length: 65535 }, (_, number) => ({ number, inputs: [] })) });
          return placed.width / placed.height;
        })()"""
        ratio = self.node("layout.mjs", text)
        self.assertTrue(0.8 < ratio < 1.25, ratio)

    def test_the_vertex_at_a_place(self):
        text = """(() => {
          const placed = m.layout({ vertices: [0, 1, 2].map((number) => ({ number, inputs: [] })) });
          const { x, y, width } = placed.boxes[1];
          const places = [[x + 1, y + 1], [x + width + 2, y + 1], [x + 1, y - 5], [x + 1, y + 500]];
          return places.map(([left, top]) => m.vertexAt(placed, { x: left, y: top }));
        })()"""
        self.assertEqual(self.node("layout.mjs", text), [1, None, None, None])


class Words(Parts):
    """What is said of commands, failures and idle workers."""

    def test_an_event_names_its_command(self):
        entry = {"commands": ["true", "cp /none /b"], "actions": [{"line": "rm /a"}]}
        event = {"number": 4, "kind": "step", "worker": 0, "vertex": 1}
        for reply, words in [
            ("ran 1 1", "command 1: cp /none /b, status 1"), ("skipped 0", "command 0: true, skipped"),
            ("fault 0 21", "action 0 (rm /a) fails: fault 21"), ("acted 0", "action 0: rm /a"),
        ]:
            found = self.node("record.mjs", f"m.wordsOf({json.dumps({**event, 'reply': reply})}, {json.dumps(entry)})")
            self.assertEqual(found, f"event 4: worker 0, vertex 1: {words}")

    def test_an_event_names_the_lines_of_its_file(self):
        entry = {"commands": ["make"], "place": "Dockerfile:3: RUN make"}
        for kind, reply, words in [
            ("claim", "exec 1", "worker 0 takes vertex 1"),
            ("step", "ran 0 0", "worker 0, vertex 1: command 0: make, status 0"),
        ]:
            event = {"number": 4, "kind": kind, "worker": 0, "vertex": 1, "reply": reply}
            found = self.node("record.mjs", f"m.wordsOf({json.dumps(event)}, {json.dumps(entry)})")
            self.assertEqual(found, f"event 4: {words} (Dockerfile:3: RUN make)")

    def test_a_cause_has_its_path_in_the_tree_of_its_mount(self):
        mounts = [{"dest": "/", "selector": "", "input": 0}, {"dest": "/src/", "selector": "/sub", "input": 1}]
        text = f"""(() => {{
          const events = [['claim', ''], ['step', 'ran 0 0'], ['step', 'ran 1 1']];
          let before = {{ event: null }};
          events.forEach(([kind, reply], i) => {{
            before = {{ before, event: {{ kind, reply, worker: 0, vertex: 2, number: i + 1 }} }};
          }});
          const session = (words, at) => ({{
            ways: {{ at }}, entries: [null, null, {{ mounts: {json.dumps(mounts)} }}], to() {{}}, lines: () => [words],
          }});
          const found = ['there is no file /src/a', 'nothing is at /b/c', 'it always fails', 'none'].map((words) => (
            m.causeOf(session(words, before))));
          return [...found.map((one) => one && [one.words, one.path ?? null, one.tree?.mount.input ?? null]),
            m.causeOf(session('x', before.before))];
        }})()"""
        self.assertEqual(self.node("causes.mjs", text), [
            ["there is no file /src/a", "/sub/a", 1], ["nothing is at /b/c", "/b/c", 0],
            ["it always fails", None, None], None, None,
        ])

    def test_a_cause_of_an_action_has_the_tree_that_it_is_about(self):
        graph = {"vertices": [
            {"inputs": []},
            {"inputs": [{"vertex": 0, "output": 1}]},
            {"inputs": [{"vertex": 1, "output": 0}]},
        ]}
        first = {"mounts": [], "actions": [{"input": -1, "output": -1}, {"input": 0, "output": 1}, {"input": 0}]}
        second = {"mounts": [{"dest": "/", "input": 0, "output": 0}, {"dest": "/m", "input": 0}], "actions": []}
        last = {"mounts": [], "actions": [{"input": -1}, {"input": 1, "from": 0}]}
        text = f"""(() => {{
          const before = {{ before: {{ event: null }}, event: {{ kind: 'claim', worker: 0, vertex: 2, reply: '' }} }};
          const event = {{ kind: 'step', worker: 0, vertex: 2, reply: 'fault 1 21', number: 9 }};
          const session = (words) => ({{
            ways: {{ at: {{ before, event }} }}, entries: {json.dumps([first, second, last])},
            graph: {json.dumps(graph)}, to() {{}}, lines: () => [words],
          }});
          const steps = [[0, 'result 0'], [0, 'result 1'], [0, 'result 2'], [1, 'mount /'], [1, 'mount /m'],
            [2, 'result 0'], [2, 'result 1']];
          const paths = ['nothing is at /a', 'nothing is at /a in the tree that it copies from', '/a is a file'];
          return [...paths, 'nothing matches the text of src'].map((words) => {{
            const cause = m.causeOf(session(words));
            const isMaker = cause.path && m.makersOf(session(words), cause);
            return [cause.words === words, cause.path ?? null,
              steps.filter(([vertex, name]) => isMaker?.({{ vertex }}, name)).map((one) => one.join(' '))];
          }});
        }})()"""
        own = ["2 result 0"]
        before = ["0 result 0", "0 result 1", "1 mount /"]
        self.assertEqual(self.node("causes.mjs", text), [
            [True, "/a", own], [True, "/a", before], [True, "/a", own], [True, None, []],
        ])

    def test_a_failure_has_the_step_that_failed(self):
        text = """(() => {
          const events = [['claim', 0, ''], ['step', 0, 'ran 0 0'], ['step', 0, 'ran 1 1'], ['step', 1, 'ran 0 1'],
            ['settle', 0, '3 failed']];
          const places = events.map(([kind, worker, reply], number) => ({ event: { kind, worker, reply, number } }));
          places.forEach((place, i) => { place.before = places[i - 1] ?? { event: null }; });
          return [m.failedStep(places[4]).number, m.failedStep(places[1])];
        })()"""
        self.assertEqual(self.node("record.mjs", text), [2, None])

    def test_an_idle_worker_has_its_reason(self):
        made = """((text) => { const s = new S(text); return s; })"""
        cache = {"id": "k", "mode": "locked", "seed": "-", "isCache": True}
        entries = [{"mounts": [cache]}, {"mounts": [cache]}, {"mounts": []}]
        statuses = json.dumps((PAGE / "statuses.mjs").as_uri())
        texts = ["0 running 0\n1 ready\n2 blocked\n", "0 running 0\n1 waiting\n2 blocked\n", "0 done\n1 done\n2 done\n"]
        text = f"""(async () => {{
          const {{ Statuses: S }} = await import({statuses});
          return {json.dumps(texts)}.map((text) => m.whyIdle(1, {made}(text), {json.dumps(entries)}));
        }})()"""
        self.assertEqual(self.node("idle_workers.mjs", text), [
            "Worker 1 can do nothing now: vertex 1 waits for the locked cache k, which worker 0 holds for vertex 0.",
            "Worker 1 can do nothing now: no vertex is ready before vertex 0 (worker 0) is settled.",
            "Worker 1 can do nothing now: no vertex is left.",
        ])


class Orders(Parts):
    """Orders at random, and two orders side by side."""

    def test_a_seed_has_one_order(self):
        text = "[1, 1, 2].map((seed) => m.shuffled([0, 1, 2, 3, 4, 5, 6, 7, 8, 9], m.diceOf(seed)))"
        first, again, other = self.node("seeded_order.mjs", text)
        self.assertEqual((first, sorted(first)), (again, list(range(10))))
        self.assertNotEqual(first, other)

    def test_two_orders_in_words(self):
        claims = [{"worker": 0, "number": 1}, {"worker": 1, "number": 1}]
        rows = [
            {"claims": claims, "isSame": True, "isCached": False},
            {"claims": claims[:1] * 2, "isSame": False, "isCached": True},
        ]
        words = "1 of 2 vertices ended the same in both orders, with equal trees, and 1 were claimed by another worker "
        words += "or at another event. Of the 1 without a cache mount at or before them, all ended the same."
        self.assertEqual(self.node("orders.mjs", f"m.ordersInWords({json.dumps(rows)})"), words)


class Links(Parts):
    """Links that carry nothing that can be read."""

    def test_a_name_that_is_not_encoded_is_taken_as_it_is(self):
        found = self.node("build_link.mjs", "['#build=%', '#build=a%20b', '#s=x', ''].map(m.buildNamedBy)")
        self.assertEqual(found, ["%", "a b", None, None])

    def test_a_link_without_a_session_says_so(self):
        packed = "m.fragmentOf(null).then(m.givenBy).then(() => 'read', fault => fault.message)"
        self.assertEqual(self.node("share.mjs", packed), "what it carries is not a session")
