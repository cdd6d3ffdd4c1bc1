"""Tests of where the debug adapter stops: at actions and commands, by conditions, and where a path changes; and of what
it completes and tries. They are skipped if the program llbm is not there.
"""

from llbm_tools.debugging import conditions
from llbm_tools.sessions import builds
from llbm_tools.sessions.session import Event, Run
from tests import base
from tests.base import ROOT
from tests.debugging.adapter_runs import WithRun

# Three actions, each on the result of the one before.
ACTIONS = """op {
  file {
    actions {
      input -1
      output -1
      mkdir {
        path "/a"
      }
    }
    actions {
      output -1
      mkdir {
        path "/b"
      }
    }
    actions {
      input 1
      mkdir {
        path "/c"
      }
    }
  }
}
op {
  inputs {
    digest %0
  }
}
"""
SCRIPT = "mkdir /a && write /a/b 1 && write /a/b 2 && test -f /none"


class Places(WithRun):
    """Breakpoints on the lines of actions and the columns of commands."""

    def text(self, client):
        """Returns the lines of the text of the entries."""
        return client.ask("source", sourceReference=1)["content"].split("\n")

    def begun(self, definition, **sources):
        """Returns a client at the beginning of a run of a definition with one worker."""
        return self.entered(self.made(definition, **sources), workers=1)

    def line_at_top(self, client):
        """Returns the first and the last line of the top frame."""
        frame = client.ask("stackTrace", threadId=1)["stackFrames"][0]
        return frame["line"], frame["endLine"]

    def test_a_breakpoint_on_an_action_stops_where_it_comes_next(self):
        client = self.begun(self.llbm("asm", given=ACTIONS.encode()))
        begins = [number for number, line in enumerate(self.text(client), 1) if line == "    actions {"]
        self.assertEqual(len(begins), 3)
        first, third = self.set_breakpoints(client, begins[0] + 1, begins[2] + 1)
        self.assertTrue(first["verified"] and third["verified"])
        self.assertEqual(self.move(client)["hitBreakpointIds"], [first["id"]])
        self.assertEqual(self.record(client), ["1 claim 0 0 -> file 3"])
        self.assertEqual(self.move(client)["hitBreakpointIds"], [third["id"]])
        self.assertEqual(self.record(client)[1:], ["2 step 0 -> acted 0", "3 step 0 -> acted 1"])
        self.assertEqual(self.line_at_top(client)[0], begins[2])
        self.assertEqual(self.move(client, "reverseContinue")["hitBreakpointIds"], [first["id"]])

    def test_a_breakpoint_on_a_command_stops_where_it_comes_next(self):
        client = self.begun(base.ending(base.exec_op("/bin/sh", "-c", SCRIPT)))
        line = next(number for number, one in enumerate(self.text(client), 1) if SCRIPT in one)
        places = client.ask("breakpointLocations", source={"sourceReference": 1}, line=line)["breakpoints"]
        self.assertEqual([place["line"] for place in places], [line] * 4)
        given = [{"line": line, "column": places[2]["column"]}]
        one = client.ask("setBreakpoints", source={"sourceReference": 1}, breakpoints=given)["breakpoints"][0]
        self.assertEqual(self.move(client)["hitBreakpointIds"], [one["id"]])
        self.assertEqual(self.record(client)[1:], ["2 step 0 -> ran 0 0", "3 step 0 -> ran 1 0"])
        frame = client.ask("stackTrace", threadId=1)["stackFrames"][0]
        self.assertEqual((frame["line"], frame["column"]), (line, places[2]["column"]))

    def test_a_line_without_an_entry_has_no_place(self):
        client = self.begun(base.ending(base.exec_op("/bin/sh", "-c", SCRIPT)))
        self.assertEqual(client.ask("breakpointLocations", source={"sourceReference": 1}, line=900)["breakpoints"], [])


class Conditions(WithRun):
    """Conditions over events."""

    def test_what_conditions_hold(self):
        before = Run(3, 2)
        failed = Event("9 step 1 -> ran 2 1", "step", 1, 3, "ran 2 1", before)
        for text, holds in [
            ("vertex == 3 && status != 0", True), ("status", True), ("!failed", True), ("kind == 'step'", True),
            ("steps == 3 && command == 2", True), ("action == 2 || event >= 9", True), ("action == 2", False),
            ("action != 2", False), ("worker == 0 || (vertex < 4 && !(status == 0))", True), ("kind == 3", False),
            ('kind == "claim"', False), ("event > 9", False),
        ]:
            self.assertEqual(conditions.condition_in(text)(failed, 9), holds, text)

    def test_what_is_no_condition(self):
        known = f"where a value should be; names are {', '.join(conditions.NAMES)}"
        for text, message in [
            ("vertex ==", f"the condition has its end {known}"),
            ("(vertex", "the condition lacks a )"), ("vertex 3", "the condition has '3' where it should end"),
            ("vertex = 3", "the condition can't be read at '= 3'"),
            ("color", f"the condition has the name color {known}"),
        ]:
            with self.assertRaises(conditions.NoCondition) as caught:
                conditions.condition_in(text)
            self.assertEqual(str(caught.exception), message)

    def test_a_condition_stops_at_the_events_for_which_it_holds(self):
        client = self.entered(self.made(base.ending(base.exec_op("/bin/sh", "-c", SCRIPT))), workers=1)
        given = [{"name": "0", "condition": "vertex == 0 && status != 0"}, {"name": "0", "condition": "status =! 0"}]
        good, bad = client.ask("setFunctionBreakpoints", breakpoints=given)["breakpoints"]
        self.assertEqual((good["verified"], bad["verified"]), (True, False))
        self.assertEqual(bad["message"], "the condition can't be read at '=! 0', or it is claim or settle")
        self.assertEqual(self.move(client)["hitBreakpointIds"], [good["id"]])
        self.assertEqual(self.record(client)[-1], "5 step 0 -> ran 3 1")


class Data(WithRun):
    """Data breakpoints, and what is tried at the console."""

    def begun(self):
        """Returns a client at the beginning of a run that makes a file and changes it."""
        return self.entered(self.made(base.ending(base.exec_op("/bin/sh", "-c", SCRIPT))), workers=1)

    def test_a_run_stops_where_a_path_changes(self):
        client = self.begun()
        self.assertIsNone(client.ask("dataBreakpointInfo", name="0")["dataId"])
        self.assertEqual(client.ask("dataBreakpointInfo", name="0.0:/a/b")["dataId"], "/a/b")
        given = [{"dataId": "/a/b"}, {"dataId": "nowhere"}]
        good, bad = client.ask("setDataBreakpoints", breakpoints=given)["breakpoints"]
        self.assertEqual((good["verified"], bad["message"]), (True, "the data breakpoint has no path of a tree"))
        for reply in ("ran 1 0", "ran 2 0"):
            stop = self.move(client)
            self.assertEqual((stop["reason"], stop["hitBreakpointIds"]), ("data breakpoint", [good["id"]]))
            self.assertTrue(self.record(client)[-1].endswith(reply))
        self.assertEqual(self.move(client, "reverseContinue")["reason"], "data breakpoint")
        self.assertEqual(len(self.record(client)), 3)

    def test_a_variable_has_its_path(self):
        client = self.begun()
        client.ask("setDataBreakpoints", breakpoints=[{"dataId": "/a/b", "hitCondition": "2"}])
        self.assertEqual(self.move(client)["reason"], "data breakpoint")
        self.assertEqual(len(self.record(client)), 4)
        root = self.scope(client, 1, "Work")[0]
        directory = client.ask("variables", variablesReference=root["variablesReference"])["variables"][0]
        info = client.ask("dataBreakpointInfo", name="a", variablesReference=root["variablesReference"])
        self.assertEqual((directory["name"], info["dataId"]), ("a", "/a"))

    def test_a_command_is_tried_and_the_run_stays_as_it_is(self):
        client = self.begun()
        client.ask("setDataBreakpoints", breakpoints=[{"dataId": "/a/b"}])
        self.move(client)
        before = self.record(client)
        told = client.ask("evaluate", expression="try rm /a/b", context="repl", frameId=1)["result"]
        self.assertIn("/a/b", told)
        self.assertEqual(self.record(client), before)
        self.assertIn("2 bytes", client.ask("evaluate", expression="work 0 0:/a/b")["result"])
        cause = client.refused("evaluate", expression="try", context="repl")
        self.assertEqual(cause, "try COMMAND: the command is missing")


class Completions(WithRun):
    """What can follow what is typed at the console."""

    def found(self, client, text):
        """Returns the labels and starts of what can follow a text."""
        targets = client.ask("completions", text=text, column=len(text) + 1)["targets"]
        return [(one["label"], one["start"]) for one in targets]

    def test_commands_numbers_and_paths_are_completed(self):
        client = self.entered()
        self.assertEqual(self.found(client, "cl"), [("claim", 0)])
        self.assertEqual(self.found(client, "claim "), [("0", 6), ("1", 6)])
        self.assertEqual(self.found(client, "claim 1 "), [("0", 8), ("1", 8)])
        self.assertEqual(self.found(client, "0.0:"), [])
        for _ in range(3):
            self.move(client, "stepIn")
        self.assertEqual(self.found(client, "tree "), [("0", 5)])
        self.assertEqual(self.found(client, "0.0:/t"), [("text/", 5)])
        self.assertEqual(self.found(client, "0.0:/text/"), [("head", 10), ("tail", 10)])
        self.assertEqual(self.found(client, "0.0:/none/x"), [])


class Builds(WithRun):
    """Builds that llbmd keeps, which a launch opens by their folder."""

    def kept(self, definitions):
        """Makes a folder of llbmd with one build of definitions, each with the tree of the tour; returns it."""
        folder = self.at / "kept"
        for number, data in enumerate(definitions, 1):
            place = folder / "ref" / str(number)
            place.mkdir(parents=True)
            (place / "definition").write_bytes(data)
            (place / "source.tree").write_bytes((ROOT / "examples" / "tour.tree").read_bytes())
        (folder / builds.KEPT).touch()
        return folder

    def test_the_last_definition_of_the_newest_build_is_opened(self):
        tour = (ROOT / "examples" / "tour.definition").read_bytes()
        folder = self.kept([base.ending(base.file_op(base.mkdir("/first"))), tour])
        for place, threads in ((folder, "source"), (folder / "ref" / "2", "source")):
            client = self.entered({"build": str(place)})
            self.assertIn("the build ref/2", client.lines("console"))
            self.move(client, "stepIn")
            self.assertIn(threads, client.ask("threads")["threads"][0]["name"])

    def test_a_build_and_a_definition_are_not_both_given(self):
        client = self.opened()
        cause = client.refused("launch", build=str(self.at), definition="x", llbm=base.llbm)
        self.assertEqual(cause, "build and definition can't be given together")
        cause = client.refused("launch", build=str(self.at / "none"), llbm=base.llbm)
        self.assertEqual(cause, f"there is no such directory: {self.at / 'none'}")
