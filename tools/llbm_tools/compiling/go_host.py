"""A host of git for a trial: Go fetches the modules of bindings/go from it, as from the host that a repository has.

Go asks http://HOST/PATH?go-get=1 in which repository a module is, by the proxy that HTTP_PROXY names, and then runs
git. This process answers both: the question by a page, and git by `git upload-pack`. Nothing is asked of a network.
"""

import contextlib
import http.server
import pathlib
import shutil
import socket
import socketserver
import subprocess
import threading
from collections.abc import Iterator

HOST = "llbm.example"
REPOSITORY = f"{HOST}/llbm"
BINDING = f"{REPOSITORY}/bindings/go"
TESTING = f"{BINDING}/llbmtest"
VERSION = "v1.0.0"
TAGS = [f"bindings/go/{VERSION}", f"bindings/go/llbmtest/{VERSION}"]
# A program of a user of the binding, whose definition makes the file /a.
PROGRAM = f"""package main

import (
	"fmt"
	"log"

	llbm "{BINDING}"
)

func main() {{
	m, err := llbm.New()
	if err != nil {{
		log.Fatal(err)
	}}
	defer m.Close()
	definition, err := m.Assemble(`op {{
file {{
actions {{
input -1
mkfile {{
path "/a"
mode 420
data 6869
}}
}}
}}
}}
op {{
inputs {{
digest %0
}}
}}
`)
	if err != nil {{
		log.Fatal(err)
	}}
	result, err := m.Run(definition)
	if err != nil {{
		log.Fatal(err)
	}}
	fmt.Print(result)
}}
"""
PRINTED = b"d 0755 0 0 /\nf 0644 0 0 6869 /a\n"
GIT = ["git", "-c", "user.name=llbm", "-c", "user.email=llbm@llbm.example", "-c", "init.defaultBranch=main"]


def make_repository(bindings: pathlib.Path, folder: pathlib.Path) -> None:
    """Makes a repository with the folder bindings/go of this one, and the tags of a version."""
    shutil.copytree(bindings / "go", folder / "bindings" / "go")
    for words in (["init", "--quiet"], ["add", "."], ["commit", "--quiet", "-m", "bindings"]):
        subprocess.run([*GIT, *words], cwd=folder, check=True)
    for tag in TAGS:
        subprocess.run([*GIT, "tag", tag], cwd=folder, check=True)


def git_server(folder: pathlib.Path) -> socketserver.TCPServer:
    """Returns a server of one repository, by git's own protocol."""

    class Served(socketserver.BaseRequestHandler):
        """One connection of git."""

        def handle(self) -> None:
            """Answers its request."""
            # The request is a line with its length before it, in four digits. Whatever it names, the repository is it.
            length = self.request.recv(4, socket.MSG_WAITALL)
            self.request.recv(int(length, 16) - 4, socket.MSG_WAITALL)
            subprocess.run(["git", "upload-pack", str(folder)], stdin=self.request, stdout=self.request)

    return socketserver.ThreadingTCPServer(("127.0.0.1", 0), Served)


def page_server(at: str) -> socketserver.TCPServer:
    """Returns a server of the page that says where the repository is, as a proxy for its host."""
    page = f'<meta name="go-import" content="{REPOSITORY} git {at}">'.encode()

    class Asked(http.server.BaseHTTPRequestHandler):
        """One question of Go."""

        def do_GET(self) -> None:
            """Answers with the page, or with 404 what is asked of another repository."""
            is_there = self.path.startswith(f"http://{REPOSITORY}")
            self.send_response(200 if is_there else 404)
            self.end_headers()
            self.wfile.write(page if is_there else b"")

        def log_message(self, *_: object) -> None:
            """Prints nothing of it."""

    return http.server.ThreadingHTTPServer(("127.0.0.1", 0), Asked)


@contextlib.contextmanager
def running(server: socketserver.TCPServer) -> Iterator[int]:
    """Runs a server, and gives its port."""
    thread = threading.Thread(target=server.serve_forever, daemon=True)
    thread.start()
    try:
        yield int(server.server_address[1])
    finally:
        server.shutdown()
        server.server_close()
        thread.join()


@contextlib.contextmanager
def host(folder: pathlib.Path) -> Iterator[dict[str, str]]:
    """Serves a repository, and gives the variables by which Go finds it, and nothing else."""
    with running(git_server(folder)) as port, running(page_server(f"git://127.0.0.1:{port}/llbm")) as asked:
        proxy = f"http://127.0.0.1:{asked}"
        yield {
            "GOPROXY": "off", "GOPRIVATE": HOST, "GOINSECURE": HOST, "GOTOOLCHAIN": "local", "GOWORK": "off",
            "HTTP_PROXY": proxy, "HTTPS_PROXY": proxy, "http_proxy": proxy, "https_proxy": proxy,
            "NO_PROXY": "", "no_proxy": "",
        }  # fmt: skip
