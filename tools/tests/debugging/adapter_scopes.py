"""Tests of what the debug adapter shows of running vertices, of caches and of the last step, with the program llbm."""

from llbm_tools.debugging import last_event, vertex_lines, worker_trees
from llbm_tools.sessions.session import Session, TooLarge
from tests import base
from tests.debugging.adapter_runs import EXAMPLES, WithRun

CHANGED = "Changed by the last step"
EMPTY = b"d 0755 0 0 /\n"


def cache_op(script, identity, sharing=0):
    """Returns an exec of a script over an empty root, with a cache at `/c`."""
    meta = base.part(1, "/bin/sh") + base.part(1, "-c") + base.part(1, script) + base.part(3, "/")
    root = base.number(1, -1) + base.part(3, "/")
    cache = base.number(1, -1) + base.part(3, "/c") + base.number(4, -1) + base.number(6, 3)
    cache += base.part(20, base.part(1, identity) + base.number(2, sharing))
    return base.part(2, base.part(1, meta) + base.part(2, root) + base.part(2, cache))


class Scopes(WithRun):
    """Scopes of trees and changes."""

    def shown(self, client, scope, frame=1):
        """Returns the variables of a scope by name, each with its value."""
        return {one["name"]: one["value"] for one in self.scope(client, frame, scope)}

    def command(self, client, *commands):
        """Does commands of the console that add an event."""
        for command in commands:
            client.ask("evaluate", expression=command, context="repl")
            client.stopped()

    def opened_at(self, client, scope, *names, frame=1):
        """Returns the variables below a path of names in a scope, by name."""
        found = {one["name"]: one for one in self.scope(client, frame, scope)}
        for name in names:
            reference = found[name]["variablesReference"]
            below = client.ask("variables", variablesReference=reference)["variables"]
            found = {one["name"]: one for one in below}
        return found


class Work(Scopes):
    """The trees of what a worker runs, of the example of copies, merges and caches."""

    def test_a_file_op_shows_the_result_of_each_action(self):
        second = base.number(1, 0) + base.part(6, base.part(1, "/a/b"))
        client = self.entered(self.made(base.ending(base.file_op(base.number(3, -1) + base.mkdir("/a"), second))))
        self.command(client, "claim 1 0")
        self.assertEqual(self.shown(client, "Work", 2), {"trees": "none"})
        self.command(client, "step 1")
        self.assertEqual(self.shown(client, "Work", 2), {"result 0": "0755 0:0, 1 name"})
        self.command(client, "step 1")
        self.assertEqual(list(self.shown(client, "Work", 2)), ["result 0", "result 1"])
        self.assertEqual(list(self.opened_at(client, "Work", "result 1", "a", frame=2)), ["b"])
        self.assertEqual(self.opened_at(client, "Work", "result 0", frame=2)["a"]["value"], "0000 0:0, 0 names")

    def test_a_merge_shows_its_inputs_and_what_is_laid(self):
        one, two = base.file_op(base.mkdir("/a")), base.file_op(base.mkdir("/b"))
        client = self.entered(self.made(base.ending(one, two, base.merge(one, two))))
        self.command(client, "claim 0 0", "step 0", "settle 0", "claim 0 1", "step 0", "settle 0", "claim 0 2")
        names = ["input 0", "input 1", "laid"]
        self.assertEqual(list(self.shown(client, "Work")), names)
        self.assertEqual(self.shown(client, "Work")["laid"], "0755 0:0, 0 names")
        self.command(client, "step 0")
        self.assertEqual(list(self.opened_at(client, "Work", "laid")), ["a"])
        self.assertEqual(self.shown(client, CHANGED)["laid: /a"], "added directory 0000 0:0")
        self.command(client, "step 0")
        self.assertEqual(list(self.opened_at(client, "Work", "laid")), ["a", "b"])

    def test_each_worker_has_its_own_trees(self):
        client = self.entered()
        self.command(client, "claim 1 0", "claim 0 1", "step 0")
        self.assertEqual(list(self.shown(client, "Work", 1)), ["result 0"])
        self.assertEqual(list(self.shown(client, "Work", 2)), ["local"])
        self.assertEqual(list(self.opened_at(client, "Work", "local", "text", frame=2)), ["head", "tail"])
        head = self.opened_at(client, "Work", "local", "text", frame=2)["head"]
        self.assertEqual(head["evaluateName"], "work 1 0:/text/head")
        answer = client.ask("evaluate", expression=head["evaluateName"])["result"]
        self.assertEqual(answer, "text of 7 bytes:\nhello,\n")

    def test_a_cache_is_shown_as_its_instance_is_now(self):
        one, two = cache_op("append /c/l a", "k"), cache_op("append /c/l b", "k")
        client = self.entered(self.made(base.ending(one, two, base.merge(one, two))))
        self.command(client, "claim 0 0", "claim 1 1", "step 0")
        self.assertEqual(list(self.opened_at(client, "Work", "mount /c", frame=2)), ["l"])
        self.assertEqual(self.shown(client, "Caches"), {"0 k": "shared, 1 instance, seed -"})
        instance = self.opened_at(client, "Caches", "0 k", "instance 0")["l"]
        self.assertEqual(instance["evaluateName"], "cache 0 0:/l")
        self.assertEqual(instance["value"], "0644 0:0, text of 2 bytes: a\\n")
        self.command(client, "step 1")
        first = self.opened_at(client, "Work", "mount /c")["l"]["value"]
        self.assertEqual(first, "0644 0:0, text of 4 bytes: a\\nb\\n")
        message = client.refused("evaluate", expression="cache 0 1:/")
        self.assertEqual(message, "there is no tree cache 0 1")
        self.assertEqual(client.refused("evaluate", expression="work 0 2"), "there is no tree work 0 2")

    def test_there_are_no_caches_at_first(self):
        client = self.entered()
        self.command(client, "claim 0 0")
        self.assertEqual(self.shown(client, "Caches"), {"caches": "none"})


class Changes(Scopes):
    """What the last event changed."""

    def test_each_kind_of_event_says_what_it_did(self):
        client = self.entered()
        self.command(client, "claim 0 0")
        shown = self.shown(client, CHANGED)
        self.assertEqual((shown["event"], shown["what"]), ("1 claim 0 0 -> source 1", "worker 0 takes vertex 0"))
        self.assertEqual(list(self.opened_at(client, CHANGED, "local", "text")), ["head", "tail"])
        self.command(client, "step 0")
        self.assertEqual(self.shown(client, CHANGED)["trees"], "nothing changed")
        self.command(client, "settle 0")
        self.assertEqual(list(self.opened_at(client, CHANGED, "output 0")), ["text"])
        self.command(client, "claim 0 1", "step 0")
        self.assertEqual(self.shown(client, CHANGED), {
            "event": "5 step 0 -> acted 0", "what": "action 0: mkdir /out", "result 0": "1 added",
            "result 0: /out": "added directory 0755 0:0",
        })

    def test_what_commands_add_change_and_remove_is_shown_with_both_contents(self):
        script = "mkdir /d && write /d/a 1 && append /d/a 2 && chmod 0600 /d/a && rm /d && test -e /"
        client = self.entered(self.made(base.ending(base.exec_op("/bin/sh", "-c", script))))
        self.command(client, "claim 0 0")
        for wanted in [
            {"mount /": "1 added", "mount /: /d": "added directory 0755 0:0"},
            {"mount /": "1 added", "mount /: /d/a": "added file 0644 0:0, text of 2 bytes: 1\\n"},
            {"mount /": "1 changed", "mount /: /d/a": "changed text of 2 bytes: 1\\n -> text of 4 bytes: 1\\n2\\n"},
            {"mount /": "1 changed", "mount /: /d/a": "changed mode 0644 -> 0600"},
            {"mount /": "2 removed", "mount /: /d": "removed directory 0755 0:0",
             "mount /: /d/a": "removed file 0600 0:0, text of 4 bytes: 1\\n2\\n"},
            {"trees": "nothing changed"},
        ]:
            self.command(client, "step 0")
            shown = self.shown(client, CHANGED)
            self.assertEqual({name: value for name, value in shown.items() if name not in ("event", "what")}, wanted)
            if "1 changed" in wanted.values():
                pair = self.opened_at(client, CHANGED, "mount /: /d/a")
                self.assertEqual(list(pair), ["before", "after"])

    def test_changes_of_a_cache_are_named_by_its_id(self):
        client = self.entered(self.made(base.ending(cache_op("write /c/l a && cp /c/l /seen", "k", 2))))
        self.command(client, "claim 0 0", "step 0")
        shown = self.shown(client, CHANGED)
        self.assertEqual(shown["mount /c (cache k): /l"], "added file 0644 0:0, text of 2 bytes: a\\n")
        self.assertNotIn("mount /", shown)
        self.command(client, "step 0")
        self.assertEqual(list(self.shown(client, CHANGED)), ["event", "what", "mount /", "mount /: /seen"])

    def test_a_look_changes_nothing(self):
        client = self.entered(self.example("cache"))
        self.command(client, "claim 0 0", "step 0", "step 0")
        lines, before = client.lines(), self.state(client, 3, 2)
        scopes = client.ask("scopes", frameId=1)["scopes"]
        first = [client.ask("variables", variablesReference=one["variablesReference"]) for one in scopes]
        self.assertEqual(len(first), 7)
        self.assertEqual((self.state(client, 3, 2), client.lines()), (before, lines))
        self.move(client, "stepBack")
        self.command(client, "step 0")
        self.assertEqual(self.state(client, 3, 2), before)

    def test_at_most_a_thousand_changes_are_shown(self):
        text = EMPTY + b"".join(b"f 0644 0 0 - /%04d\n" % number for number in range(1002))
        source = base.source("local://src")
        copy = base.number(1, -1) + base.part(4, base.part(1, "/") + base.part(2, "/to") + base.number(8, 1))
        client = self.entered(self.made(base.ending(source, base.file_op(copy, on=[source])), src=text))
        self.move(client, "next")
        self.command(client, "claim 0 1", "step 0")
        shown = self.scope(client, 1, CHANGED)
        self.assertEqual(shown[2]["value"], "1,003 added")
        limit = {"name": "result 0: more", "value": "3 more paths changed; the first 1,000 are shown"}
        self.assertEqual({name: shown[-1][name] for name in limit}, limit)
        self.assertEqual(len(shown), 3 + 1000 + 1)

    def test_a_large_tree_is_not_compared(self):
        data = base.ending(base.exec_op("/bin/sh", "-c", "write /a 1"))
        place = self.file(b"definition", data)
        text = self.llbm("dis", given=data).decode()
        entries = vertex_lines.definition.entries_of(data)
        session = Session([base.llbm, "step", "--looks", "--ends", place], 2)
        self.addCleanup(session.end)
        held = vertex_lines.Text(text, vertex_lines.lines_of(text))
        graph = vertex_lines.graph_of(session.graph(), session.digests(), held, entries, ["", ""])
        session.event("claim 0 0")
        session.event("step 0")
        most, worker_trees.MOST_COMPARED = worker_trees.MOST_COMPARED, 20
        try:
            one, = last_event.Watch(session, graph, data).last().compared
        finally:
            worker_trees.MOST_COMPARED = most
        self.assertEqual(one.summary(), "not compared: its text has more than 20 bytes")
        with self.assertRaises(TooLarge):
            session.tree_by("work 0 0", 20)
        self.assertEqual(session.tree_by("work 0 0"), [b"d 0755 0 0 /", b"f 0644 0 0 310a /a"])


class Failed(Scopes):
    """What a vertex that failed had made, and why it failed."""

    def test_what_was_made_is_shown_after_the_failure(self):
        client = self.launched(self.example("failure", "empty"))
        client.ask("setExceptionBreakpoints", filters=["failed"])
        client.ask("configurationDone")
        client.stopped()
        shown = self.shown(client, "Work when it failed")
        why = "command 1 (cp /none /b) failed: there is no file /none"
        self.assertEqual(shown, {"why": why, "mount /": "0755 0:0, 1 name"})
        self.assertEqual(list(self.opened_at(client, "Work when it failed", "mount /")), ["a"])
        self.assertEqual(self.shown(client, "Vertex")["why"], why)
        self.assertEqual(self.shown(client, CHANGED)["what"], f"vertex 1 failed: {why}")
        self.assertNotIn("Work", [one["name"] for one in client.ask("scopes", frameId=1)["scopes"]])
        frame = client.ask("stackTrace", threadId=1)["stackFrames"][0]
        line = (EXAMPLES / "failure" / "definition.text").read_text().splitlines()[frame["line"] - 1]
        self.assertEqual(line[frame["column"] - 1 : frame["endColumn"] - 1], "cp /none /b")

    def test_an_earlier_failure_is_looked_at_from_later_states(self):
        wrong = base.file_op(base.number(3, -1) + base.mkdir("/a"), base.rm("/none"))
        right = base.file_op(base.mkdir("/b"))
        client = self.entered(self.made(base.ending(wrong, right, base.merge(wrong, right))))
        self.command(client, "claim 1 0", "step 1", "step 1", "claim 0 1", "settle 1", "step 0", "settle 0")
        lines, before = client.lines(), self.state(client, 3, 2)
        found = self.opened_at(client, "All vertices", "0 file: mkdir /a; rm /none")
        self.assertEqual(found["why"]["value"], "action 1 (rm /none) failed: nothing is at /none")
        self.assertEqual(found["result 0"]["value"], "0755 0:0, 1 name")
        below = client.ask("variables", variablesReference=found["result 0"]["variablesReference"])["variables"]
        self.assertEqual([one["name"] for one in below], ["a"])
        self.assertEqual((self.state(client, 3, 2), client.lines()), (before, lines))
        self.assertEqual([one["value"] for one in self.scope(client, 1, "All vertices")][1:], ["done", "blocked"])

    def test_the_rule_of_a_failed_action_is_named(self):
        base_op = base.file_op(base.number(3, -1) + base.mkdir("/d"), base.part(5, base.part(1, "/f")))
        for action, why in [
            (base.part(5, base.part(1, "/x/a")), "action 0 (mkfile /x/a) failed: there is no directory /x"),
            (base.part(5, base.part(1, "/f/a")), "action 0 (mkfile /f/a) failed: /f is a file"),
            (base.part(5, base.part(1, "/d")), "action 0 (mkfile /d) failed: /d is a directory"),
            (base.part(6, base.part(1, "/f")), "action 0 (mkdir /f) failed: /f is a file"),
            (base.part(7, base.part(1, "/x")), "action 0 (rm /x) failed: nothing is at /x"),
            (base.part(7, base.part(1, "/")), "action 0 (rm /) failed: this cannot be done at the root"),
            (base.copy("/x", "/y"),
             "action 0 (copy /x -> /y) failed: nothing is at /x in the tree that it copies from"),
            (base.copy("/f", "/x/y"), "action 0 (copy /f -> /x/y) failed: there is no directory /x"),
        ]:
            entry = base.file_op(action, on=[base_op])
            client = self.entered(self.made(base.ending(base_op, entry)))
            self.move(client, "next")
            self.command(client, "claim 0 1", "step 0")
            self.assertEqual(self.shown(client, CHANGED)["what"], why)
            self.assertEqual(client.leave(), 0)
