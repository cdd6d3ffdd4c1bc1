"""Tests of `page`: which builds it finds, and that its server gives nothing else, to nobody else."""

import http.client
import json
import os
import pathlib
import re
import signal
import subprocess
from urllib.parse import quote

from llbm_tools.page import server
from llbm_tools.sessions import builds
from tests import base
from tests.base import ROOT, Folder, run

FILES = {"index.html": b"the page", "main.mjs": b"code", "examples/list.json": b"[]"}
TREE = b"d 0755 0 0 /\nf 0644 0 0 6869 /a\n"


class WithBuilds(Folder):
    """A test with a folder of builds of several kinds."""

    def setUp(self):
        super().setUp()
        self.top = pathlib.Path(os.fsdecode(self.folder))
        kept = self.top / "kept"
        for number in (1, 2):
            place = kept / "ref" / str(number)
            place.mkdir(parents=True)
            (place / "definition").write_bytes(b"the definition %d" % number)
            (place / "record").write_text("0 claim 0 0 -> claimed\n")
            (place / "0.tree").write_bytes(TREE)
            (place / "sources").write_text(f"context={place}/0.tree\nsecret=/etc/passwd\n")
        (kept / "ref" / "2" / "error").write_text("it failed\n")
        (kept / "ref" / "last").symlink_to("2")
        (kept / builds.KEPT).touch()
        plain = self.top / "plain"
        plain.mkdir()
        (plain / "definition.text").write_bytes(b"op {\n}\n")
        (plain / "base.tree").write_bytes(TREE)
        (plain / "context").mkdir()
        (plain / "context" / "b").write_bytes(b"hi")
        (plain / "link.tree").symlink_to("/etc/passwd")
        (self.top / "outside").write_bytes(b"outside")


class Builds(WithBuilds):
    """Which builds there are at a place."""

    def names(self, *places):
        """Returns the names of the builds at places."""
        return list(builds.all_builds([str(self.top / place) for place in places]))

    def test_builds_have_names(self):
        self.assertEqual(self.names("kept"), ["ref/1", "ref/2"])
        self.assertEqual(self.names("kept/ref"), ["ref/1", "ref/2"])
        self.assertEqual(self.names("kept/ref/last", "kept/ref/1", "plain"), ["ref/2", "ref/1", "plain"])
        self.assertEqual(self.names("plain", "plain"), ["plain", "plain-2"])

    def test_trees_are_those_of_the_folder_alone(self):
        (build,) = builds.builds_at(str(self.top / "kept" / "ref" / "1"))
        self.assertEqual(build.trees, {"context": "0.tree", "secret": "passwd"})
        self.assertEqual([build.place(file) is not None for file in build.trees.values()], [True, False])
        (build,) = builds.builds_at(str(self.top / "plain"))
        self.assertEqual(build.trees, {"base": "base.tree", "context": "context", "link": "link.tree"})
        self.assertIsNone(build.place("link.tree"))
        self.assertIsNone(build.place("../outside"))

    def test_builds_are_listed(self):
        done = run("page", self.top / "kept", self.top / "plain")
        lines = [f"ref/{number}\tcontext secret\ta record" for number in (1, 2)]
        self.check_success(done, self.text([*lines, "plain\tbase context link\tno record"]))

    def test_what_is_no_build_is_refused(self):
        (self.top / "empty").mkdir()
        for words, said in (
            ([self.top / "empty"], b"no build: "), ([self.top / "none"], b"there is no such directory: "),
            ([self.top / "outside"], b"there is no such directory: "), ([], b"nothing to do: "),
        ):  # fmt: skip
            done = run("page", *words)
            self.assertEqual((done.returncode, done.stdout), (2, b""), words)
            self.assertTrue(done.stderr.startswith(said), done.stderr)


class Served(WithBuilds):
    """The server over these builds."""

    def setUp(self):
        super().setUp()
        places = [str(self.top / "kept"), str(self.top / "plain")]
        module = self.top / "llbm.wasm"
        module.write_bytes(b"module")
        self.site = server.Site(FILES, module, places, lambda build: [build.name])
        serving = server.serving(self.site, 0)
        self.link = serving.__enter__()
        self.addCleanup(serving.__exit__, None, None, None)
        self.port = int(re.search(r":([0-9]+)/", self.link)[1])

    def ask(self, path, method="GET", host=None, **headers):
        """Returns the status of a request for a path as it is, the headers and the content."""
        connection = http.client.HTTPConnection("127.0.0.1", self.port, timeout=base.GUARD)
        connection.putrequest(method, path, skip_host=True, skip_accept_encoding=True)
        for name, value in {"Host": host or f"127.0.0.1:{self.port}", **headers}.items():
            connection.putheader(name, value)
        connection.endheaders()
        reply = connection.getresponse()
        content = reply.read()
        connection.close()
        return reply.status, dict(reply.getheaders()), content

    def below(self, path):
        """Returns what a path below the secret one has, or its status."""
        status, _, content = self.ask(f"/{self.site.secret}/{path}")
        return content if status == 200 else status

    def test_the_files_of_the_page_are_served(self):
        found = [self.below(path) for path in ("", "main.mjs", "examples/list.json")]
        self.assertEqual(found, [b"the page", b"code", b"[]"])
        _, headers, _ = self.ask(f"/{self.site.secret}/llbm.wasm")
        self.assertEqual((headers["Content-Type"], headers["X-Content-Type-Options"]), ("application/wasm", "nosniff"))
        self.assertNotIn("Access-Control-Allow-Origin", headers)

    def test_a_build_has_the_name_of_its_result(self):
        [build] = builds.builds_at(str(ROOT / "examples" / "from-buildkit" / "dockerfile"))
        title = "[stage-1 1/1] COPY --from=build --chmod=0444 /src/out/all /all (Dockerfile:6)"
        self.assertEqual(build.about()["title"], title)

    def test_builds_are_served(self):
        about = json.loads(self.below("builds.json"))
        self.assertEqual([one["name"] for one in about], ["ref/1", "ref/2", "plain"])
        self.assertEqual([one["error"] for one in about], ["", "it failed", ""])
        self.assertEqual([one["title"] for one in about], ["", "", ""])
        self.assertTrue(all(one["time"] > 0 for one in about))
        at = f"build/{quote('ref/2', safe='')}"
        self.assertEqual(self.below(f"{at}/definition"), b"the definition 2")
        self.assertEqual(self.below(f"{at}/record"), b"0 claim 0 0 -> claimed\n")
        self.assertEqual(self.below(f"{at}/tree/0"), TREE)
        self.assertEqual(json.loads(self.below(f"{at}/notes")), ["ref/2"])
        self.assertEqual(self.below("build/plain/tree/1"), b"d 0755 0 0 /\nf 0644 0 0 6869 /b\n")

    def test_builds_that_are_kept_later_are_served(self):
        place = self.top / "kept" / "ref" / "3"
        place.mkdir()
        (place / "definition").write_bytes(b"new")
        self.assertEqual(self.below("build/ref%2F3/definition"), b"new")

    def test_nothing_else_is_served(self):
        at = "build/ref%2F1"
        for path in (
            "outside", "../outside", "..%2Foutside", "%2e%2e/outside", "build/..%2F..%2Foutside/definition",
            f"{at}/tree/1", f"{at}/tree/2", f"{at}/tree/-1", f"{at}/tree/00", f"{at}/tree/0/x", f"{at}/sources",
            f"{at}/", f"{at}", f"{at}/..%2F2/definition", "build/plain/tree/2", "build/plain/record",
            "build/%2Fetc%2Fpasswd/definition", "build//definition", "main.mjs/", "/main.mjs", "main.mjs%00",
            "index.html/../main.mjs", "examples", "build",
        ):  # fmt: skip
            self.assertEqual(self.below(path), 404, path)

    def test_without_the_path_that_cannot_be_guessed_there_is_nothing(self):
        for path in ("/", "/index.html", "/builds.json", f"/{self.site.secret[:-1]}/", f"/{self.site.secret}",
                     "*", f"http://127.0.0.1/{self.site.secret[1:]}/"):  # fmt: skip
            self.assertEqual(self.ask(path)[0], 404, path)

    def test_a_request_for_another_host_is_refused(self):
        path = f"/{self.site.secret}/"
        for host in (
            "evil.example", f"evil.example:{self.port}", "127.0.0.1", "127.0.0.1:1", f"127.0.0.1.evil:{self.port}",
            f"localhost:{self.port}.evil", f"[::1]:{self.port}", f"127.0.0.1:{self.port}@evil",
        ):  # fmt: skip
            status, _, content = self.ask(path, host=host)
            self.assertEqual((status, content), (403, b"the request is for another host\n"), host)
        for host in (f"localhost:{self.port}", f"LOCALHOST:{self.port}"):
            self.assertEqual(self.ask(path, host=host)[0], 200, host)

    def test_nothing_can_be_changed(self):
        for method in ("POST", "PUT", "DELETE", "PATCH", "OPTIONS", "CONNECT", "TRACE"):
            self.assertEqual(self.ask(f"/{self.site.secret}/main.mjs", method)[0], 501, method)
        status, headers, content = self.ask(f"/{self.site.secret}/main.mjs", "HEAD")
        self.assertEqual((status, headers["Content-Length"], content), (200, "4", b""))

    def test_a_module_that_is_made_later_is_served(self):
        self.site.module.unlink()
        self.assertEqual(self.below("llbm.wasm"), 404)
        self.site.module.write_bytes(b"new")
        self.assertEqual(self.below("llbm.wasm"), b"new")

    def test_only_this_machine_can_connect(self):
        self.assertTrue(self.link.startswith(f"http://127.0.0.1:{self.port}/"))


class Tool(WithBuilds):
    """The tool as a process."""

    def test_it_prints_links_and_ends_when_it_is_interrupted(self):
        page = self.top / "page"
        words = base.command("page", "--serve", "--page", page, self.top / "kept")
        with subprocess.Popen(words, stdout=subprocess.PIPE, stderr=subprocess.PIPE, cwd=ROOT) as child:
            lines = [child.stdout.readline().decode().strip() for _ in range(3)]
            child.send_signal(signal.SIGINT)
            out, err = child.communicate(timeout=base.GUARD)
        self.assertEqual((child.returncode, out), (130, b""))
        self.assertTrue(err.startswith(b"the machine is missing: "), err)
        self.assertRegex(lines[0], r"^http://127\.0\.0\.1:[0-9]+/[\w-]{20,}/$")
        self.assertEqual(lines[1:], [f"{lines[0]}#build=ref%2F1", f"{lines[0]}#build=ref%2F2"])
