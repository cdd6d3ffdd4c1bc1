"""Tests of `wasm` and `page-tests`, and of the modules of the page that need no browser, in Node."""

import io
import json
import os
import pathlib
import re
import shutil
import subprocess
import tarfile
import unittest

from llbm_tools.compiling import library_code, unproved_code
from llbm_tools.llb import names
from llbm_tools.llb.program_questions import ask
from llbm_tools.page import assets, fault_sentences, wasm_module
from llbm_tools.streams import Failed
from tests import base
from tests.base import ROOT, Folder, run
from tests.page import node_machine

PAGE = ROOT / "page"
IMPORT = re.compile(r"""(?:from|import) '(\./[\w.]+)'""")
FILE = re.compile(r"""(?:src|href)="([\w.]+)\"""")
WORKER = re.compile(r"""new Worker\('([\w.]+)'""")
USED = re.compile(r"""by\('([\w-]+)'\)""")

IR = """source_filename = "x"
target datalayout = "e-m:e-i64:64"
target triple = "x86_64-unknown-linux-gnu"
define i64 @f() #0 { ret i64 0 }
attributes #0 = { nounwind "probe-stack"="inline-asm" "stack-probe-size"="3072" "target-cpu"="x86-64" }
"""
# A module with a type section, a table, and nothing that fills it; and one that does.
EMPTY = b"\0asm\1\0\0\0" + b"\x01\x01\x00" + b"\x04\x04\x01\x70\x00\x00"
FILLED = EMPTY + b"\x09\x01\x00"


class Module(Folder):
    """The module, and the page around it."""

    def test_the_target_of_an_ir_is_changed_and_nothing_else(self):
        lines = wasm_module.retargeted(IR).splitlines()
        self.assertEqual(lines[1:3], [wasm_module.LAYOUT, 'target triple = "wasm64-unknown-unknown"'])
        self.assertEqual(lines[3], "define i64 @f() #0 { ret i64 0 }")
        self.assertEqual(lines[4], 'attributes #0 = { nounwind "target-cpu"="lime1" }')
        for text in ("", IR + IR):
            with self.assertRaises(Failed):
                wasm_module.retargeted(text)

    def test_the_functions_of_an_ir_without_proof_get_their_names_for_c(self):
        start, end = 'define internal i8 @"llb_embed::llb_', '"(ptr %a0) #0 { ret i8 0 }'
        lines = [f"{start}{name}{end}" for name in library_code.EXPORTS]
        lines += ['call i8 @"llb_embed::llb_open"(ptr %a0)', "attributes #0 = { nounwind sanitize_address }"]
        made = unproved_code.renamed("\n".join(lines)).split("\n")
        self.assertEqual(made[0], "define i8 @llb_local(ptr %a0) #0 { ret i8 0 }")
        self.assertEqual(made[-2:], ["call i8 @llb_open(ptr %a0)", "attributes #0 = { nounwind }"])
        with self.assertRaisesRegex(Failed, "0 functions llb_local"):
            unproved_code.renamed("\n".join(lines[1:]))

    def test_a_module_says_whether_its_code_is_proved(self):
        for is_proved, words in ((True, b"proved"), (False, b"not proved")):
            made = wasm_module.with_proof(wasm_module.with_proof(EMPTY, not is_proved), is_proved)
            (body,) = [part for number, part in wasm_module.sections(made) if number == wasm_module.CUSTOM]
            self.assertEqual(body[2:], b"\x0allbm.proof" + words)
            self.assertEqual(wasm_module.without_proof(made), EMPTY)

    def test_a_table_that_nothing_fills_is_left_out(self):
        self.assertEqual(wasm_module.without_empty_table(EMPTY), b"\0asm\1\0\0\0" + b"\x01\x01\x00")
        self.assertEqual(wasm_module.without_empty_table(FILLED), FILLED)

    def test_what_is_missing_is_named_in_one_line(self):
        done = run("wasm", "-o", self.place(b"page"), env={"PATH": os.fsdecode(self.folder)})
        self.assertEqual((done.returncode, done.stdout), (2, b""))
        self.assertIn(b"the kit that README.md names is not installed: there is no program rt\n", done.stderr)
        self.assertFalse(os.path.exists(self.place(b"page")))

    def test_a_page_is_made_around_a_module(self):
        page = pathlib.Path(os.fsdecode(self.place(b"page")))
        done = run("wasm", "--module", self.file(b"m", EMPTY), "-o", page)
        self.assertEqual((done.returncode, done.stderr), (0, b""))
        self.assertIn(f"llbm.wasm: {len(EMPTY)} bytes".encode(), done.stdout)
        self.assertEqual((page / "llbm.wasm").read_bytes(), EMPTY)
        for name in ("index.html", "main.mjs", "examples/tour.text", "examples/merge/upper.tree"):
            self.assertTrue((page / name).is_file(), name)
        causes = json.loads((page / "tables.json").read_bytes())["faults"]["causes"]
        self.assertEqual(causes["161"]["cause"], "line {N} breaks the rule {RULE}.")
        self.assertEqual(causes["82"]["arguments"], ["k", "FAULT"])

    def test_a_file_that_is_no_module_is_refused(self):
        done = run("wasm", "--module", self.file(b"m", b"garbage"), "-o", self.place(b"page"))
        self.check_run(done, 2, b"", b"not a module of WebAssembly: " + self.place(b"m") + b"\n")

    def test_a_missing_page_is_told_as_skipped(self):
        if base.llbm is None:
            self.skipTest("no program")
        done = run("page-tests", "--llbm", base.llbm, "--page", self.folder)
        lines = done.stdout.decode().splitlines()
        self.assertEqual((done.returncode, done.stderr), (0, b""))
        skipped, why = lines[-2].split(" ", 1)
        self.assertEqual(why, "skipped: no page is there, dev/dev wasm makes it")
        self.assertEqual(lines[-1], f"0 passed, 0 failed, {skipped} skipped")


class Files(unittest.TestCase):
    """The files of the page."""

    def test_each_file_that_is_named_is_there_and_each_module_is_used(self):
        names = set(FILE.findall((PAGE / "index.html").read_text("utf-8")))
        for file in PAGE.glob("*.mjs"):
            imports = IMPORT.findall(file.read_text("utf-8"))
            self.assertEqual(len(imports), len(set(imports)), file)
            names.update(name.removeprefix("./") for name in imports)
            names.update(WORKER.findall(file.read_text("utf-8")))
        self.assertEqual({file.name for file in PAGE.iterdir()} - names, {"index.html"})
        self.assertEqual({name for name in names if not (PAGE / name).is_file()}, set())

    def test_each_element_that_is_used_is_there(self):
        page = (PAGE / "index.html").read_text("utf-8")
        for file in PAGE.glob("*.mjs"):
            for name in USED.findall(file.read_text("utf-8")):
                self.assertIn(f'id="{name}"', page, file)

    def test_files_are_short_and_their_lines_too(self):
        for file in PAGE.iterdir():
            lines = file.read_text("utf-8").splitlines()
            self.assertLess(len(lines), 500, file)
            self.assertLessEqual(max(map(len, lines)), 120 if file.suffix == ".mjs" else 160, file)


@unittest.skipUnless(shutil.which("node"), "Node is not installed")
class InNode(Folder):
    """The modules of the page that need no browser."""

    def node(self, module, text):
        """Returns what an expression over a module of the page prints as JSON."""
        script = f"import * as m from {json.dumps((PAGE / module).as_uri())};"
        script += f"import fs from 'node:fs'; console.log(JSON.stringify(await ({text})))"
        done = subprocess.run(["node", "--input-type=module", "-e", script], capture_output=True, timeout=base.GUARD)
        self.assertEqual((done.returncode, done.stderr), (0, b""))
        return json.loads(done.stdout)

    def test_an_archive_is_read_as_by_the_tool(self):
        made = io.BytesIO()
        with tarfile.open(fileobj=made, mode="w", format=tarfile.PAX_FORMAT) as archive:
            for name, kind, content in (
                ("./a/b", tarfile.REGTYPE, b"1"), ("a", tarfile.DIRTYPE, b""), ("a/" + "x" * 120, tarfile.REGTYPE, b""),
                ("a b/ü", tarfile.REGTYPE, b"\0\xff"), ("a/b", tarfile.REGTYPE, b"2"), ("hard", tarfile.LNKTYPE, b""),
                ("soft", tarfile.SYMTYPE, b""), ("a-b", tarfile.REGTYPE, b"3"), ("soft/below", tarfile.REGTYPE, b"4"),
            ):  # fmt: skip
                member = tarfile.TarInfo(name)
                member.type, member.size, member.uid, member.gid, member.mode = kind, len(content), 70000, 3, 0o640
                member.linkname = "a/b" if kind != tarfile.REGTYPE else ""
                archive.addfile(member, io.BytesIO(content))
        file = self.file(b"made.tar", made.getvalue())
        done = run("tree-of-tar", file)
        read = f"m.textOfTar(new Uint8Array(fs.readFileSync({json.dumps(os.fsdecode(file))})))"
        self.assertEqual(self.node("tar.mjs", read)["text"], done.stdout.decode())

    def test_the_sentence_of_each_fault_has_what_its_line_has(self):
        table = fault_sentences.table()
        lines = ["fault 161 2 UnknownField", "fault 82 3 12", "fault 89 1 Script 71 apk", "fault 121 a b"]
        for number, row in table["causes"].items():
            words = [{"FAULT": "12"}.get(one, "7") for one in row["arguments"]]
            lines.append(" ".join(["fault", number, *words]))
        read = f"(await import({json.dumps((PAGE / 'tables.mjs').as_uri())})).fill({{ faults: {json.dumps(table)} }})"
        found = self.node("faults.mjs", f"({read}, {json.dumps(lines)}.map(m.explained))")
        self.assertEqual(found[0], "Line 2 breaks the rule UnknownField. The open message has no field of the line's "
                                   "name. Use a field that docs/FORMATS.md has there.")  # fmt: skip
        self.assertIn("The first word of a call, apk, is no applet's name.", found[2])
        self.assertEqual(found[3], "A local source has no tree: a b. Give it a tree.")
        for line, text in zip(lines, found, strict=True):
            self.assertTrue(text and "{" not in text and not re.search(r"\bfollows\b", text), f"{line}: {text}")

    def test_lines_side_by_side(self):
        rows = self.node("differences.mjs", "m.sideBySide(['a', 'b', 'c'], ['a', 'x', 'c', 'd'])")
        self.assertEqual(rows, [["a", "a"], ["b", "x"], ["c", "c"], [None, "d"]])

    def test_ways_fork_where_another_event_is_done(self):
        text = """(() => {
          const ways = new m.Ways();
          const add = (command) => ways.add({ command });
          add('claim 0 0'); add('step 0'); ways.back(1); add('settle 0');
          ways.back(0); add('claim 0 0'); add('step 0');
          const commands = (last, count) => ways.between(last, count).map(({ event }) => event.command);
          const beside = (place) => ways.beside(place).map(({ way, last, count }) => [way, commands(last, count)]);
          const other = ways.newest[1];
          return [ways.count, ways.at.way, beside(ways.at), beside(other), ways.route(other).back];
        })()"""
        self.assertEqual(self.node("event_tree.mjs", text), [2, 0, [[1, ["settle 0"]]], [[0, ["step 0"]]], 1])

    def test_a_link_carries_what_was_put_into_it(self):
        given = {"text": "op {\n}\n", "locals": [["a", "d 0755 0 0 /\n"]], "workers": 3, "lines": ["claim 0 0"]}
        self.assertEqual(self.node("share.mjs", f"m.fragmentOf({json.dumps(given)}).then(m.givenBy)"), given)

    def vertices(self, file, text):
        """Returns the values of an expression over each vertex `v` of a definition, by the program's numbers."""
        data = file.read_bytes()
        plan, ops = (ask(base.llbm, "show", option, given=data).text for option in ("--plan", "--ops"))
        script = node_machine.MACHINE + f"""
          const {{ verticesOf }} = await from('definition.mjs');
          const definition = new Uint8Array(fs.readFileSync({json.dumps(str(file))}));
          const digests = {json.dumps([line.split()[1] for line in plan.splitlines()[:-1]])};
          const found = verticesOf(machineOf('', {json.dumps(ops)}), definition, digests).map((v) => {text});
          console.log(JSON.stringify(found));"""
        words = ["node", "--input-type=module", "-e", script, PAGE.as_uri(), self.file(b"tables.json", assets.tables())]
        done = subprocess.run([*words, base.llbm], capture_output=True, timeout=base.GUARD)
        self.assertEqual((done.returncode, done.stderr), (0, b""))
        return json.loads(done.stdout)

    def test_vertices_have_their_names_and_numbers(self):
        shown = ("from-buildkit/dockerfile", "from-buildkit/exec", "from-buildkit/newer")
        files = [assets.EXAMPLES / name / "definition" for name in shown]
        first, second, newer = (self.vertices(file, "[v.kind, v.name]") for file in files)
        self.assertEqual(first[0], ["file", "[build 1/3] WORKDIR /src"])
        self.assertEqual([kind for kind, _ in second], ["source", "source", "exec"])
        self.assertEqual(second[2][1], "joins the words")
        kinds = ask(base.llbm, "show", given=files[2].read_bytes()).text.splitlines()[:-1]
        self.assertEqual([kind for kind, _ in newer], [line.split()[1] for line in kinds])

    def test_vertices_have_their_groups_and_lines(self):
        file = assets.EXAMPLES / "from-buildkit" / "dockerfile" / "definition"
        named = [name for name in names.names_of_vertices(names.names_of(file.read_bytes()))]
        found = self.vertices(file, "[v.group, v.place]")
        self.assertEqual([group for group, _ in found], [name.group for name in named])
        self.assertEqual([place.rpartition(": ")[0] for _, place in found], [name.place for name in named])
        self.assertIn("Dockerfile:3: COPY . .", [place for _, place in found])

    def test_an_op_has_the_values_of_its_text(self):
        made = (
            "op {{\n{}file {{\nactions {{\ninput -1\nsecondaryInput -1\nmkfile {{\n"
            'path "/a\\"\\\\\\x0a é"\ndata 00ff\ntimestamp -9223372036854775808\n}}\n}}\n}}\n}}\n'
        )
        last = "op {\ninputs {\ndigest %1\n}\n}\n"
        text = made.format("") + made.format("inputs {\ndigest %0\n}\n") + last
        data = subprocess.run([base.llbm, "asm"], input=text.encode(), capture_output=True, check=True).stdout
        file = pathlib.Path(os.fsdecode(self.file(b"definition", data)))
        body = "v.op.file.actions[0].mkfile"
        shown = f"[{body}.path, [...{body}.data], String({body}.timestamp), v.op.inputs.map((one) => one.digest)]"
        first, second = self.vertices(file, shown)
        self.assertEqual(first, ['/a"\\\n é', [0, 255], str(-(2**63)), []])
        self.assertEqual(second[:3], first[:3])
        self.assertEqual(second[3], [self.vertices(file, "v.digest")[0]])

    def test_a_script_has_its_commands(self):
        found = self.vertices(ROOT / "examples" / "tour.definition", "v.commands")
        self.assertEqual(found[2][:2], ["mkdir -p bin", "concat bin/all /src/head /src/tail"])
        self.assertEqual((found[0], found[1], len(found[2])), ([], [], 6))
