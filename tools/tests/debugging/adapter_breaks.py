"""Tests of breakpoints, frames, the console and restarts of the debug adapter, with the program llbm."""

import os
import pathlib
import shutil

from llbm_tools.debugging import breakpoints, raw_entries, vertex_lines
from tests import base
from tests.debugging.adapter_runs import EXAMPLES, WithRun, stored_record

DOCKERFILE = EXAMPLES / "from-buildkit" / "dockerfile"
NEWER = EXAMPLES / "from-buildkit" / "newer"


def located(*entries, file="build.src", text="", lines=()):
    """Returns a definition whose entries come from lines of a file; the last entry is the result."""
    info = base.part(2, base.part(1, file) + (base.part(2, text) if text else b""))
    spots = b""
    for entry, line in zip(entries, lines):
        span = base.part(1, base.number(1, line)) + base.part(2, base.number(1, line))
        place = base.part(1, base.number(1, 0) + base.part(2, span))
        spots += base.part(1, base.part(1, base.digest(entry)) + base.part(2, place))
    return base.ending(*entries) + base.part(3, spots + info)


def named(data, **names):
    """Returns a definition with names of entries in its metadata, given the entries by name."""
    for name, entry in names.items():
        description = base.part(2, base.part(1, "llb.customname") + base.part(2, name))
        data += base.part(2, base.part(1, base.digest(entry)) + base.part(2, description))
    return data


class OwnFile(WithRun):
    """Breakpoints and frames in the file that a definition was made from."""

    def dockerfile(self, place=DOCKERFILE):
        """Returns the launch arguments of the example of a Dockerfile."""
        return {"definition": str(place / "definition"), "sources": {"context": str(place / "context.tree")}}

    def test_breakpoints_on_lines_of_a_dockerfile_stop_the_run(self):
        client = self.entered(self.dockerfile())
        path = str(DOCKERFILE / "Dockerfile")
        run, stage, copy = self.set_breakpoints(client, 4, 1, (6, "settle"), source={"path": path})
        self.assertEqual([one["verified"] for one in (run, stage, copy)], [True, False, True])
        self.assertEqual(stage["message"], "no entry comes from this line")
        self.assertEqual(self.move(client)["hitBreakpointIds"], [run["id"]])
        file, text = client.ask("stackTrace", threadId=1)["stackFrames"]
        self.assertEqual((file["source"], file["line"]), ({"name": "Dockerfile", "path": path}, 4))
        self.assertEqual(file["name"], "3 exec: [build 3/3] RUN mkdir -p out && concat out/all one two")
        self.assertEqual((text["source"]["sourceReference"], text["name"]), (1, f"{file['name']} (0 of 2 steps)"))
        scopes = [[one["name"] for one in client.ask("scopes", frameId=one["id"])["scopes"]] for one in (text, file)]
        self.assertEqual(scopes[0], scopes[1])
        self.assertEqual(self.move(client)["hitBreakpointIds"], [copy["id"]])

    def test_a_file_is_known_by_the_end_of_its_path(self):
        folder = self.at / "project"
        folder.mkdir()
        shutil.copy(DOCKERFILE / "Dockerfile", folder)
        client = self.entered(self.dockerfile())
        source = {"path": str(folder / "Dockerfile")}
        self.assertTrue(self.set_breakpoints(client, 3, source=source)[0]["verified"])
        self.move(client)
        self.assertEqual(client.ask("stackTrace", threadId=1)["stackFrames"][0]["source"]["path"], source["path"])
        other = self.set_breakpoints(client, 3, source={"path": str(folder / "Makefile")})
        message = "only definition.text, the text of the definition, can have breakpoints, and the files that it was " \
            "made from: Dockerfile"
        self.assertEqual((other[0]["verified"], other[0]["message"]), (False, message))

    def test_a_launch_can_say_where_a_file_is(self):
        place = os.fsdecode(self.file(b"mine", b"x\n"))
        client = self.entered({**self.dockerfile(), "files": {"Dockerfile": place}})
        self.assertTrue(self.set_breakpoints(client, 2, source={"path": place})[0]["verified"])
        message = self.opened().refused("launch", llbm=base.llbm, **self.dockerfile(), files={"Dockerfile": 1})
        self.assertEqual(message, "files: Dockerfile is not a text")

    def test_a_file_that_is_only_in_the_definition_is_shown(self):
        place = os.fsdecode(self.file(b"definition", (DOCKERFILE / "definition").read_bytes()))
        client = self.entered({**self.dockerfile(), "definition": place})
        text, file = client.ask("loadedSources")["sources"]
        self.assertEqual(file, {"name": "Dockerfile", "sourceReference": 2, "origin": "the definition"})
        content = client.ask("source", sourceReference=2)["content"]
        self.assertEqual(content, (DOCKERFILE / "Dockerfile").read_text())
        answer, = self.set_breakpoints(client, 4, source=file)
        self.assertEqual(self.move(client)["hitBreakpointIds"], [answer["id"]])
        self.assertEqual(client.refused("source", sourceReference=3), "sourceReference 3 is not known")

    def test_entries_that_share_a_line_share_a_breakpoint(self):
        one, two = base.file_op(base.mkdir("/a")), base.file_op(base.mkdir("/b"))
        last = base.merge(one, two)
        client = self.entered(self.made(located(one, two, last, lines=(3, 3, 5))))
        given = [{"line": 3}, {"line": 3, "hitCondition": "2"}, {"line": 3, "hitCondition": "> 2"}, {"line": 4}]
        answers = client.ask("setBreakpoints", source={"path": "/x/build.src"}, breakpoints=given)["breakpoints"]
        self.assertEqual([one["verified"] for one in answers], [True, True, True, False])
        self.assertEqual(self.move(client)["hitBreakpointIds"], [answers[0]["id"]])
        self.assertEqual(self.move(client)["hitBreakpointIds"], [answers[0]["id"], answers[1]["id"]])
        self.assertEqual(self.move(client, "reverseContinue")["hitBreakpointIds"], [answers[0]["id"]])


class Conditions(WithRun):
    """Hit conditions, messages, and breakpoints on functions."""

    def test_hit_conditions_count_the_hits(self):
        for text, hits in [
            ("", [1, 2, 3, 4]), ("2", [2]), ("== 2", [2]), ("=2", [2]), (" > 2 ", [3, 4]), (">=2", [2, 3, 4]),
            ("<2", [1]), ("<= 2", [1, 2]), ("%2", [2, 4]),
        ]:
            stops = breakpoints.condition_of(text)
            self.assertEqual([hit for hit in range(1, 5) if stops(hit)], hits, text)
        for text in ["x", "% 0", "1 2", "!= 2", "-1"]:
            with self.assertRaises(breakpoints.NoBreakpoint):
                breakpoints.condition_of(text)

    def test_an_invalid_hit_condition_is_refused(self):
        client = self.entered()
        given = [{"line": 1, "hitCondition": "often"}]
        answer, = client.ask("setBreakpoints", source={"sourceReference": 1}, breakpoints=given)["breakpoints"]
        self.assertEqual(answer["message"], "the hit condition is none of N, == N, > N, >= N, < N, <= N and % N")
        client.ask("continue", threadId=1)
        self.assertEqual(client.ended(), 0)

    def test_a_message_is_printed_and_the_run_goes_on(self):
        client = self.entered(stopAtEnd=True)
        message = "{event} by {worker}: {0.0:/text/head}{ %1 }{nothing}"
        given = [{"line": 7, "condition": "settle", "logMessage": message}, {"line": 20}]
        answers = client.ask("setBreakpoints", source={"sourceReference": 1}, breakpoints=given)["breakpoints"]
        self.assertEqual(self.move(client)["hitBreakpointIds"], [answers[1]["id"]])
        none = "<'nothing' is none of V.I:/path, V, %k, work W I:/path and cache K I:/path>"
        line = "6 settle 0 -> 1 done by 0: text of 7 bytes:\\nhello,\\n1 done\\nfile, steps 1, outputs 1, inputs -\\n" \
            "mkdir /out" + none
        self.assertEqual(client.lines("console"), [line])
        self.assertEqual(self.move(client, "reverseContinue")["reason"], "entry")
        self.assertEqual(client.lines("console"), [line])
        self.move(client)
        self.assertEqual(client.lines("console"), [line, line])

    def test_breakpoints_on_functions_are_on_vertices(self):
        one, two = base.file_op(base.mkdir("/a")), base.file_op(base.mkdir("/b"))
        last = base.merge(one, two)
        client = self.entered(self.made(named(base.ending(one, two, last), first=one, second=two)))
        given = ["second", base.digest(one), base.digest(last)[7:19], "%1", "2", "third", "sha256:00000000", "%3", "9"]
        breaks = [{"name": name} for name in given]
        answers = client.ask("setFunctionBreakpoints", breakpoints=breaks)["breakpoints"]
        self.assertEqual([one["verified"] for one in answers], [True] * 5 + [False] * 4)
        self.assertEqual(answers[7]["message"], "entry 3 is not a vertex: the result does not depend on it")
        ids = [one["id"] for one in answers]
        hits = [self.move(client)["hitBreakpointIds"] for _ in range(3)]
        self.assertEqual(hits, [[ids[1]], [ids[0], ids[3]], [ids[2], ids[4]]])
        frame = client.ask("stackTrace", threadId=1)["stackFrames"][0]
        self.assertEqual(frame["name"], "2 merge (0 of 2 steps)")
        self.assertEqual(client.ask("setFunctionBreakpoints", breakpoints=[]), {"breakpoints": []})
        client.ask("continue", threadId=1)
        self.assertEqual(client.ended(), 0)

    def test_an_unknown_launch_argument_is_named(self):
        client = self.launched({**self.execution, "stopOnEnter": True, "__session": 1, "request": "launch", "zzz": 2})
        client.ask("configurationDone")
        client.until("terminated")
        lines = client.lines("console")
        wanted = ["the launch argument stopOnEnter is not known: is it stopOnEntry?",
                  "the launch argument zzz is not known"]
        self.assertEqual(lines[:2], wanted)

    def test_the_run_stops_at_its_end_by_default(self):
        client = self.opened()
        client.ask("launch", llbm=base.llbm, **self.execution)
        client.ask("configurationDone")
        self.assertEqual(client.stopped()["reason"], "end")
        self.assertEqual(client.lines("console"), ["the run is complete after 14 events, with the result 2.0"])
        client.ask("continue", threadId=1)
        self.assertEqual(client.ended(), 0)
        self.assertEqual(len(client.lines("console")), 1)
        client = self.opened()
        client.ask("launch", llbm=base.llbm, noDebug=True, **self.execution)
        client.ask("configurationDone")
        self.assertEqual(client.ended(), 0)


class Places(WithRun):
    """Frames at micro-steps, and texts of entries that are not canonical."""

    def lines_at(self, client, given):
        """Returns the part of the text that the frame of the first worker shows."""
        frame = client.ask("stackTrace", threadId=1)["stackFrames"][0]
        lines = given.splitlines()[frame["line"] - 1 : frame["endLine"]]
        if "endColumn" in frame:
            return lines[0][frame["column"] - 1 : frame["endColumn"] - 1]
        return [line.strip() for line in lines]

    def test_the_frame_is_at_the_next_command(self):
        client = self.entered()
        text = (EXAMPLES / "tour.text").read_text()
        self.move(client, "next")
        self.move(client, "next")
        found = []
        for _ in range(7):
            self.move(client, "stepIn")
            found.append(self.lines_at(client, text))
        self.assertEqual(found[:6], [
            "mkdir -p bin", "concat bin/all /src/head /src/tail", "sha256 bin/all /tmp/sum", "cp /tmp/sum bin/sum",
            "chmod 0444 bin/all", "envfile env",
        ])
        self.assertEqual(len(found[6]), 33)

    def test_the_frame_is_at_the_next_action_and_the_next_input(self):
        one = base.file_op(base.number(3, -1) + base.mkdir("/a"), base.part(6, base.part(1, "/b")))
        two = base.file_op(base.mkdir("/c"))
        client = self.entered(self.made(base.ending(one, two, base.merge(one, two))))
        text = client.ask("source", sourceReference=1)["content"]
        self.move(client, "stepIn")
        self.assertIn('path "/a"', " ".join(self.lines_at(client, text)))
        self.move(client, "stepIn")
        second = " ".join(self.lines_at(client, text))
        self.assertTrue('path "/b"' in second and "/a" not in second, second)
        for _ in range(2):
            self.move(client, "next")
        self.move(client, "next")
        self.move(client, "stepIn")
        self.assertEqual(self.lines_at(client, text)[0].removeprefix("# ").strip(), "inputs {")
        first = client.ask("stackTrace", threadId=1)["stackFrames"][0]["line"]
        self.move(client, "stepIn")
        self.assertGreater(client.ask("stackTrace", threadId=1)["stackFrames"][0]["line"], first)

    def test_entries_that_are_not_canonical_are_readable(self):
        given = {"definition": str(NEWER / "definition"),
                 "sources": {"project": str(EXAMPLES / "copy" / "project.tree")}}
        client = self.entered(given)
        text = client.ask("source", sourceReference=1)["content"]
        data = (NEWER / "definition").read_bytes()
        again = self.llbm("asm", given=text.encode())
        self.assertEqual(vertex_lines.definition.entries_of(again), vertex_lines.definition.entries_of(data))
        lines = text.splitlines()
        self.assertEqual(len([line for line in lines if line.startswith("raw ")]), 3)
        for wanted in ['#     identifier "local://project"', "#     digest %0", '#         src "/src"']:
            self.assertIn(wanted, lines)
        place = lines.index('#         src "/src"') + 1
        answer, = self.set_breakpoints(client, place)
        self.assertTrue(answer["verified"])
        self.assertEqual(self.move(client)["hitBreakpointIds"], [answer["id"]])
        frame = client.ask("stackTrace", threadId=1)["stackFrames"][0]
        self.assertTrue(frame["line"] <= place <= frame["endLine"])
        self.assertEqual(lines[frame["line"] - 1], "#     actions {")

    def test_an_entry_that_is_no_op_has_no_comments(self):
        text = raw_entries.readable("raw 0a\nop {\n}\n", [b"\n", b""])
        self.assertEqual((text.text, text.lines), ("raw 0a\nop {\n}\n", [(1, 1), (2, 3)]))
        entry = base.number(9, 5) + base.part(3, base.part(1, 'a"\n'))
        text = raw_entries.readable(f"raw {entry.hex()}\n", [entry])
        shown = '# op {\n#   field 9: 5\n#   source {\n#     identifier "a\\"\\x0a"\n#   }\n# }\n'
        self.assertEqual(text.text, f"raw {entry.hex()}\n{shown}")


class Console(WithRun):
    """Commands of the console that look."""

    def say(self, client, command):
        """Returns the answer to a command of the console."""
        return client.ask("evaluate", expression=command, context="repl")["result"]

    def test_every_command_that_looks_prints_the_lines_of_a_session(self):
        client = self.entered(self.example("cache"))
        commands = ["claim 0 0", "step 0"]
        for command in commands:
            self.say(client, command)
            client.stopped()
        looks = ["status", "work 0", "work 0 1", "work 1", "caches", "cache 0 0", "cache 7 0", "tree 0 0"]
        data = self.llbm("asm", given=pathlib.Path(self.example("cache")["text"]).read_bytes())
        place = os.fsdecode(self.file(b"definition", data))
        for look in looks:
            given = "".join(f"{line}\n" for line in [*commands, look]).encode()
            printed = self.llbm("step", "--looks", place, given=given).decode().splitlines()[2:]
            self.assertEqual(self.say(client, look).splitlines(), printed, look)
        self.assertEqual(len(self.record(client)), 2)

    def test_help_lists_what_the_console_takes(self):
        client = self.entered()
        text = self.say(client, "help")
        words = ["V.I:/path", "%k", "status", "tree V I", "work W I", "caches", "cache K I", "claim W V", "cancel W"]
        for word in words:
            self.assertIn(word, text)
        self.assertIn("is none of", client.refused("evaluate", expression="help", context="watch"))


class Restarts(WithRun):
    """Restarts of a run."""

    def test_a_restart_begins_anew_and_keeps_the_breakpoints(self):
        client = self.entered()
        answer, = self.set_breakpoints(client, 7)
        client.ask("setFunctionBreakpoints", breakpoints=[{"name": "2", "condition": "settle"}])
        self.assertEqual(self.move(client)["hitBreakpointIds"], [answer["id"]])
        client.ask("restart")
        stop = client.stopped()
        self.assertEqual(stop["reason"], "entry")
        first = len(client.lines())
        self.assertEqual(self.move(client)["hitBreakpointIds"], [answer["id"]])
        self.assertEqual(client.lines()[first:], stored_record()[:4])
        self.assertEqual(self.move(client)["hitBreakpointIds"], [answer["id"] + 1])
        client.ask("continue", threadId=1)
        self.assertEqual(client.ended(), 0)
        self.assertEqual(client.refused("restart"), "restart: the run has ended")

    def test_a_restart_reads_the_files_again(self):
        one, two = base.file_op(base.mkdir("/a")), base.file_op(base.mkdir("/b"))
        given = self.made(base.ending(one, two, base.merge(one, two)))
        client = self.entered(given)
        answers = client.ask("setFunctionBreakpoints", breakpoints=[{"name": "0"}, {"name": "1"}])["breakpoints"]
        pathlib.Path(given["definition"]).write_bytes(base.ending(one))
        client.ask("restart")
        changed = client.until("breakpoint")["body"]["breakpoint"]
        self.assertEqual((changed["id"], changed["verified"]), (answers[1]["id"], False))
        client.stopped()
        self.assertEqual(self.move(client)["hitBreakpointIds"], [answers[0]["id"]])
        pathlib.Path(given["definition"]).write_bytes(b"\x0b")
        self.assertTrue(client.refused("restart"))
        self.assertEqual(client.ask("evaluate", expression="0")["result"].splitlines()[0], "0 running 0")

    def test_a_restart_can_have_other_arguments(self):
        client = self.entered()
        client.ask("restart", arguments={**self.execution, "llbm": base.llbm, "workers": 3, "stopOnEntry": False,
                                         "stopAtEnd": True})
        self.assertEqual(client.stopped()["reason"], "end")
        self.assertEqual(len(client.ask("threads")["threads"]), 3)
