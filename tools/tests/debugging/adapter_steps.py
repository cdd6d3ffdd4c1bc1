"""Tests of steps forwards and back, and of what is shown, in the debug adapter with the program llbm."""

import os
import pathlib
import random

from tests import base
from tests.debugging import protocol
from tests.debugging.adapter_runs import ENTRIES, WithRun, stored_record

PRINTED = "f 0644 0 0 %s /%s"
NONE = "is none of V.I:/path, V, %k, work W I:/path and cache K I:/path"


class Steps(WithRun):
    """Steps of workers."""

    def steps(self, client, *steps):
        """Does steps of these threads, and returns the lines that they add to the record."""
        lines = []
        for command, thread in steps:
            before = len(client.lines())
            stop = self.move(client, command, thread)
            self.assertEqual(stop["reason"], "step")
            lines += client.lines()[before:]
        return lines

    def test_workers_step_by_themselves(self):
        client = self.entered()
        lines = self.steps(
            client, ("stepIn", 2), ("stepIn", 1), ("stepIn", 1), ("next", 2), ("stepIn", 2), ("next", 1), ("next", 1)
        )
        self.assertEqual(lines, [
            "1 claim 1 0 -> source 1", "2 claim 0 1 -> file 1", "3 step 0 -> acted 0", "4 step 1 -> read",
            "5 settle 1 -> 0 done", "6 settle 0 -> 1 done", "7 claim 0 2 -> exec 6",
            *(f"{number + 8} step 0 -> ran {number} 0" for number in range(6)), "14 settle 0 -> 2 done",
        ])
        client.ask("stepIn", threadId=1)
        self.assertEqual(client.ended(), 0)

    def test_steps_go_over_into_and_out(self):
        client = self.entered()
        self.assertEqual(client.refused("stepOut", threadId=1), "worker 0 is idle: it has no vertex to step out of")
        self.assertEqual(self.steps(client, ("next", 1)), stored_record()[:3])
        self.assertEqual(self.steps(client, ("stepIn", 1)), stored_record()[3:4])
        self.assertEqual(self.steps(client, ("stepOut", 1)), stored_record()[4:6])
        self.assertEqual(self.steps(client, ("stepIn", 1), ("next", 1), ("next", 1)), stored_record()[6:9])
        self.assertEqual(self.steps(client, ("stepOut", 1)), stored_record()[9:])

    def test_a_worker_that_can_claim_nothing_lets_another_continue(self):
        client = self.entered()
        self.steps(client, ("next", 1), ("next", 1), ("stepIn", 1))
        stop = self.move(client, "next", 2)
        self.assertEqual((stop["reason"], stop["threadId"]), ("step", 1))
        self.assertEqual(self.record(client)[-1], "8 step 0 -> ran 0 0")

    def test_a_vertex_whose_locked_cache_is_held_is_not_claimed(self):
        client = self.entered(self.example("cache"))
        self.assertEqual(self.steps(client, ("stepIn", 1)), ["1 claim 0 0 -> exec 2"])
        self.assertEqual(self.steps(client, ("stepIn", 2)), ["2 step 0 -> ran 0 0"])
        message = client.refused("evaluate", expression="claim 1 1", context="repl")
        self.assertTrue(message.startswith("fault 171 135 objects "), message)
        self.assertEqual(self.steps(client, ("stepOut", 1), ("stepIn", 2)), [
            "3 step 0 -> ran 1 0", "4 settle 0 -> 0 done", "5 claim 1 1 -> exec 2",
        ])

    def test_a_breakpoint_ends_a_step(self):
        client = self.entered()
        self.set_breakpoints(client, 1)
        stop = self.move(client, "next")
        self.assertEqual((stop["reason"], self.record(client)), ("breakpoint", stored_record()[:1]))
        self.assertEqual(self.move(client, "stepOut")["reason"], "step")
        self.assertEqual(self.record(client), stored_record()[:3])

    def test_the_console_takes_commands(self):
        client = self.entered()

        def run_command(command, line):
            """Does a command that adds a line to the record."""
            body = client.ask("evaluate", expression=command, context="repl")
            self.assertEqual((body["result"], client.lines()[-1]), (line, line))
            self.assertEqual(client.stopped()["reason"], "step")

        run_command("claim 1 1", "1 claim 1 1 -> file 1")
        run_command("step 1", "2 step 1 -> acted 0")
        run_command("cancel 1", "3 cancel 1 -> 1 1")
        run_command(" claim 0 1 ", "4 claim 0 1 -> file 1")
        message = client.refused("evaluate", expression="settle 0", context="repl")
        self.assertTrue(message.startswith("fault 171 138 171: "), message)
        message = client.refused("evaluate", expression="claim 0 9", context="repl")
        self.assertTrue(message.startswith("fault 171 132 "), message)
        self.assertIn("is none of", client.refused("evaluate", expression="step 0", context="watch"))
        self.assertIn("is none of", client.refused("evaluate", expression="quit", context="repl"))
        for count in [3, 2, 1, 0]:
            self.move(client, "stepBack")
            self.assertEqual(len(self.record(client)), count)
        client.ask("continue", threadId=1)
        self.assertEqual(client.ended(), 0)
        self.assertEqual(self.record(client), stored_record())


class StepsBack(WithRun):
    """Steps back restore every state exactly."""

    def test_each_state_is_restored(self):
        client = self.entered()
        moves = [("stepIn", 1 + number % 2) for number in range(14)]
        states = [self.state(client, 3, 2)]
        for command, thread in moves:
            self.move(client, command, thread)
            states.append(self.state(client, 3, 2))
        whole = self.record(client)
        for number in reversed(range(14)):
            stop = self.move(client, "stepBack", 1 + number % 2)
            self.assertEqual(stop["reason"], "step")
            self.assertEqual(self.record(client), whole[:number])
            self.assertEqual(self.state(client, 3, 2), states[number])
        self.assertEqual(client.refused("stepBack", threadId=1), "the run is at its beginning")
        self.assertEqual(client.refused("reverseContinue", threadId=1), "the run is at its beginning")
        for number, (command, thread) in enumerate(moves, 1):
            self.move(client, command, thread)
            self.assertEqual(self.state(client, 3, 2), states[number])
        self.assertEqual(self.record(client), whole)

    def test_stops_are_the_same_both_ways(self):
        client = self.entered(stopAtEnd=True)
        self.set_breakpoints(client, 1, (7, "settle"), (20, "settle"), 21)
        stops, states, lengths = [], [], []
        while True:
            stop = self.move(client)
            if stop["reason"] == "end":
                break
            stops.append(stop)
            states.append(self.state(client, 3, 2))
            lengths.append(len(self.record(client)))
        self.assertEqual(lengths, [1, 6, 7, 14])
        for number in [2, 1, 0]:
            self.assertEqual(self.move(client, "reverseContinue"), stops[number])
            self.assertEqual(self.record(client), stored_record()[: lengths[number]])
            self.assertEqual(self.state(client, 3, 2), states[number])
        stop = self.move(client, "reverseContinue")
        self.assertEqual((stop["reason"], self.record(client)), ("entry", []))
        for stop in stops:
            self.assertEqual(self.move(client), stop)
        self.assertEqual(self.record(client), stored_record())

    def test_a_failure_stops_the_run_backwards_too(self):
        client = self.entered(self.example("failure", "empty"), stopAtEnd=True)
        client.ask("setExceptionBreakpoints", filters=["failed"])
        first = self.move(client)
        self.assertEqual(first["reason"], "exception")
        states = self.state(client, 2, 2)
        self.assertEqual(self.move(client, "reverseContinue")["reason"], "entry")
        self.assertEqual(self.move(client), first)
        self.assertEqual(self.state(client, 2, 2), states)

    def test_outputs_are_read_again_after_a_step_back(self):
        client = self.entered(self.example("cache"), workers=1)
        for _ in range(2):
            self.move(client, "next")
        self.assertIn("seen-by-second", client.ask("evaluate", expression="1.0:/")["result"])
        self.move(client, "reverseContinue")
        for command in ["claim 0 1", "step 0", "step 0", "settle 0"]:
            client.ask("evaluate", expression=command, context="repl")
        result = client.ask("evaluate", expression="1.0:/seen-by-second")["result"]
        self.assertEqual(result, "text of 7 bytes:\nsecond\n")


class Inspection(WithRun):
    """Frames, scopes, variables and expressions."""

    def test_a_worker_that_runs_has_a_frame(self):
        client = self.entered()
        self.assertEqual(client.ask("stackTrace", threadId=1), {"stackFrames": [], "totalFrames": 0})
        self.move(client, "stepIn", 2)
        self.assertEqual(client.ask("stackTrace", threadId=1)["stackFrames"], [])
        frame = client.ask("stackTrace", threadId=2)["stackFrames"][0]
        self.assertEqual((frame["line"], frame["endLine"]), ENTRIES[0])
        self.assertEqual(frame["name"], "0 source: local://source (0 of 1 steps)")
        self.assertEqual(client.ask("stackTrace", threadId=2, startFrame=1)["stackFrames"], [])
        self.assertEqual(client.ask("stackTrace", threadId=2, startFrame=0, levels=20)["stackFrames"], [frame])
        self.move(client, "stepOut", 2)
        self.assertIn("(done)", client.ask("stackTrace", threadId=2)["stackFrames"][0]["name"])
        self.move(client, "stepIn", 1)
        self.assertEqual(client.ask("stackTrace", threadId=2)["stackFrames"], [])
        names = [one["name"] for one in client.ask("threads")["threads"]]
        self.assertEqual(names, ["worker 0, 1 file: mkdir /out", "worker 1, idle"])

    def open(self, client, variable):
        """Returns the variables inside a variable, by name."""
        found = client.ask("variables", variablesReference=variable["variablesReference"])["variables"]
        self.assertEqual(len(found), variable["namedVariables"])
        return {one["name"]: one for one in found}

    def test_inputs_and_outputs_are_shown_directory_by_directory(self):
        client = self.entered()
        self.set_breakpoints(client, (20, "settle"))
        self.move(client)
        one, two = self.scope(client, 1, "Inputs")
        self.assertEqual((one["name"], one["value"]), ("input 0, 1.0", "0755 0:0, 1 name"))
        self.assertEqual(two["name"], "input 1, 0.0")
        text = self.open(client, self.open(client, two)["text"])
        self.assertEqual(text["head"]["value"], "0644 0:0, text of 7 bytes: hello,\\n")
        self.assertEqual((text["tail"]["evaluateName"], text["tail"]["variablesReference"]), ("0.0:/text/tail", 0))
        (output,) = self.scope(client, 1, "Outputs")
        out = self.open(client, self.open(client, output)["out"])
        self.assertEqual(list(out), ["bin", "env"])
        held = self.open(client, out["bin"])["all"]
        self.assertEqual(held["value"], "0444 0:0, text of 13 bytes: hello,\\nworld\\n")
        answer = client.ask("evaluate", expression=held["evaluateName"])
        self.assertEqual(answer["result"], "text of 13 bytes:\nhello,\nworld\n")
        for variable in [one, two, output]:
            self.assertNotIn("type", variable)

    def test_a_vertex_and_all_vertices_are_shown(self):
        client = self.entered()
        self.move(client, "next")
        self.move(client, "stepIn")
        facts = {one["name"]: one["value"] for one in self.scope(client, 1, "Vertex")}
        self.assertEqual(facts, {
            "vertex": "1", "kind": "file", "entry": "1", "progress": "0 of 1 steps", "action 0": "mkdir /out",
        })
        looks = self.scope(client, 1, "All vertices")
        self.assertEqual([one["value"] for one in looks], ["done", "running 0", "waiting"])
        self.assertEqual([bool(one["variablesReference"]) for one in looks], [True, False, False])
        opened = client.ask("variables", variablesReference=looks[0]["variablesReference"])["variables"]
        self.assertEqual([one["evaluateName"] for one in opened], ["0.0:/"])
        self.assertEqual(self.scope(client, 1, "Inputs"), [])
        self.assertEqual([one["value"] for one in self.scope(client, 1, "Outputs")], ["none"])

    def test_contents_are_shown_as_text_or_hexadecimal(self):
        wide = "\N{GREEK SMALL LETTER ALPHA} b"
        contents = {"a": b"", "b": bytes(range(256)), "c": b"x" * 5000, "d ": b"d", wide: b"a\nb"}
        lines = [PRINTED % (content.hex() or "-", name) for name, content in contents.items()]
        text = "".join(line + "\n" for line in ["d 0755 0 0 /", *lines]).encode()
        given = self.made(base.ending(base.source("local://src")), src=text)
        client = self.entered(given, {"supportsVariableType": True})
        self.move(client, "next")
        for name, result in [
            ("a", "0 bytes"), ("b", f"hexadecimal of 256 bytes:\n{bytes(range(256)).hex()}"),
            ("c", "text of 5,000 bytes, the first 4,096 shown:\n" + "x" * 4096), (wide, "text of 3 bytes:\na\nb"),
            ("d ", "text of 1 byte:\nd"),
        ]:
            answer = client.ask("evaluate", expression=f"0.0:/{name}")
            self.assertEqual((answer["result"], answer["type"]), (result, "file"))
        (output,) = self.scope(client, 1, "Outputs")
        self.assertEqual(list(self.open(client, output)), list(contents))
        reference = output["variablesReference"]
        part = client.ask("variables", variablesReference=reference, filter="named", start=1, count=2)["variables"]
        self.assertEqual([one["name"] for one in part], ["b", "c"])
        self.assertEqual(client.ask("variables", variablesReference=reference, filter="indexed"), {"variables": []})

    def test_expressions_are_evaluated(self):
        client = self.entered()
        self.move(client, "next")
        for expression, result in [
            ("0.0:/text", "2 names:\nhead\ntail"), (" 0.0 ", "1 name:\ntext/"), ("0.0:", "1 name:\ntext/"),
            ("0.0:/text/head", "text of 7 bytes:\nhello,\n"), ("0.0:text/./../text//tail", "text of 6 bytes:\nworld\n"),
            ("0", "0 done\nsource, steps 1, outputs 1, inputs -\nlocal://source"), ("%0", None),
            ("1", "1 ready\nfile, steps 1, outputs 1, inputs -\nmkdir /out"),
        ]:
            shown = client.ask("evaluate", expression=expression, context="hover")["result"]
            self.assertEqual(shown, result or client.ask("evaluate", expression="0")["result"])
        self.assertTrue(client.ask("evaluate", expression="2")["result"].startswith("2 waiting\nexec, steps 6, "))
        for expression, message in [
            ("", f"'' {NONE}"), ("a", f"'a' {NONE}"), ("1:/a", f"'1:/a' {NONE}"), ("3", "there is no vertex 3"),
            ("3.0:/", "there is no vertex 3"), ("0.1:/", "there is no output 0.1"),
            ("1.0:/", "there is no output 1.0: vertex 1 is ready"), ("0.0:/none", "0.0: nothing is at /none"),
            ("0.0:/text/head/x", "0.0: /text/head is a file"), ("%3", "entry 3 is not a vertex"),
            ("%9", "entry 9 is not a vertex"), ("9" * 5000, "'" + "9" * 57 + f"...' {NONE}"),
        ]:
            self.assertEqual(client.refused("evaluate", expression=expression), message)
        self.assertEqual(client.refused("evaluate"), "expression is missing")

    def test_unknown_threads_frames_and_references_are_refused(self):
        client = self.entered()
        steps = ["continue", "next", "stepIn", "stepOut", "stepBack", "reverseContinue"]
        for name in [*steps, "stackTrace", "exceptionInfo"]:
            self.assertEqual(client.refused(name), "threadId is missing")
            for thread in [0, 3, -1]:
                self.assertEqual(client.refused(name, threadId=thread), f"there is no thread {thread}")
        self.assertEqual(client.refused("scopes", frameId=3), "frameId 3 is not known")
        self.assertEqual(client.refused("scopes", frameId=1), "frameId 1 is not known: worker 0 is idle")
        self.assertEqual(client.refused("variables"), "variablesReference is missing")
        for reference in [0, 1, -1, 10**9]:
            message = client.refused("variables", variablesReference=reference)
            self.assertEqual(message, f"variablesReference {reference} is not known in this state")
        self.move(client, "stepIn")
        scope = client.ask("scopes", frameId=1)["scopes"][0]["variablesReference"]
        client.ask("variables", variablesReference=scope)
        self.move(client, "stepIn")
        client.ask("scopes", frameId=1)
        message = client.refused("variables", variablesReference=scope)
        self.assertEqual(message, f"variablesReference {scope} is not known in this state")
        self.assertEqual(client.refused("modules"), "the request modules is not known")
        self.assertEqual(client.refused("configurationDone"), "configurationDone: the run is stopped")


class RandomRequests(WithRun):
    """Requests with random arguments; each has one response in the protocol's form."""

    VALUES = [
        None, True, 0, 1, 2, -1, 1 << 70, 1.5, "", "0.0:/", "%1", "claim 0 0", "\ud800", "a\0b", [], {}, [None],
        [{"line": 7}], [{"line": 20, "condition": "settle"}], [{"name": "1", "hitCondition": "1"}],
        {"sourceReference": 1}, {"path": "a\0b"}, ["failed"],
    ]
    NAMES = [
        "threadId", "frameId", "variablesReference", "expression", "context", "source", "breakpoints", "filters",
        "sourceReference", "levels", "startFrame", "start", "count", "filter", "arguments", "hitCondition",
    ]

    def given(self, chance):
        """Returns arguments that fit most requests, or arbitrary ones."""
        if chance.random() < 0.3:
            return {name: chance.choice(self.VALUES) for name in chance.sample(self.NAMES, 5)}
        expressions = ["0", "1.0:/out", "%0", "claim 1 0", "step 1", "settle 1", "claim 0 1", "step 0", "cancel 0"]
        return {
            "threadId": chance.choice([1, 2]), "frameId": chance.choice([1, 2]), "context": "repl",
            "variablesReference": chance.randrange(1, 40), "expression": chance.choice(expressions),
            "source": {"sourceReference": 1}, "breakpoints": [{"line": chance.randrange(60)}], "filters": ["failed"],
        }

    def test_each_request_has_one_response(self):
        moves = {"next", "stepIn", "stepOut", "stepBack", "reverseContinue", "continue", "restart"}
        names = sorted(set(protocol.RESPONSES) - {"disconnect", "terminate"} | {"modules"})
        for seed in range(4):
            chance = random.Random(seed)
            client = self.entered(stopAtEnd=True)
            for _ in range(100):
                name = chance.choice(names)
                response = client.response(client.send(name, self.given(chance)))
                if name in moves and response["success"]:
                    if client.until("stopped", "terminated")["event"] == "terminated":
                        break
            self.assertEqual(client.leave(), 0)
            self.assertEqual(client.child.stderr.read(), b"")


class Leaving(WithRun):
    """Clients that leave before the run is over."""

    def children(self, client):
        """Returns the paths in /proc of the programs that an adapter has started."""
        number = client.child.pid
        numbers = pathlib.Path(f"/proc/{number}/task/{number}/children").read_text()
        return [f"/proc/{child}" for child in numbers.split()]

    def check_ended(self, children):
        """Checks that programs that were running have ended."""
        self.assertEqual(len(children), 1)
        self.assertFalse(os.path.exists(children[0]))

    def test_a_disconnect_ends_the_program(self):
        client = self.entered()
        self.move(client, "stepIn")
        children = self.children(client)
        self.assertEqual(client.leave(), 0)
        self.assertEqual(client.ended(), 0)
        self.check_ended(children)

    def test_a_disconnect_before_the_run_ends_the_program(self):
        client = self.launched(self.execution)
        children = self.children(client)
        self.assertEqual(client.leave(), 0)
        self.assertEqual(client.ended(), 0)
        self.check_ended(children)

    def test_a_disconnect_after_a_failure_has_exit_code_1(self):
        client = self.entered(self.example("failure", "empty"))
        client.ask("setExceptionBreakpoints", filters=["failed"])
        self.assertEqual(self.move(client)["reason"], "exception")
        self.assertEqual(client.leave(), 0)
        self.assertEqual(client.ended(), 1)

    def test_a_terminate_ends_the_run(self):
        client = self.entered()
        self.move(client, "stepIn")
        client.ask("terminate")
        self.assertEqual(client.ended(), 0)
        self.assertEqual(client.refused("terminate"), "terminate: the run has ended")
        self.assertEqual(client.leave(), 0)

    def test_the_end_of_the_input_ends_the_program(self):
        client = self.entered()
        children = self.children(client)
        client.child.stdin.close()
        self.assertIsNone(client.receive())
        self.assertEqual(client.child.wait(base.GUARD), 0)
        self.check_ended(children)

    def test_a_closed_output_ends_the_program(self):
        client = self.entered()
        children = self.children(client)
        client.child.stdout.close()
        client.send("continue", {"threadId": 1})
        self.assertEqual(client.child.wait(base.GUARD), 3)
        self.check_ended(children)
