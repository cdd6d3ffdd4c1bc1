"""A small web server for the page: on this machine alone, and for reading alone.

All that it serves is below a path that nobody can guess, which the link has that the tool prints: so other users of the
machine get nothing. A request whose Host is another name is refused, since a page of another site could send it by a
name that leads here. A path is looked up among the names of the page's files and of the builds, and is never joined to
a folder. Nothing is written.
"""

import contextlib
import http.server
import json
import pathlib
import secrets
import shutil
import threading
from collections.abc import Callable, Iterator
from http import HTTPStatus
from typing import BinaryIO
from urllib.parse import unquote, urlsplit

from llbm_tools.page import assets
from llbm_tools.sessions import builds as page_builds
from llbm_tools.sessions.builds import Build
from llbm_tools.streams import Failed, Refused
from llbm_tools.trees import source_texts

LOOPBACK = "127.0.0.1"
NAMES = (LOOPBACK, "localhost")
TYPES = {
    ".html": "text/html; charset=utf-8", ".mjs": "text/javascript; charset=utf-8", ".css": "text/css; charset=utf-8",
    ".wasm": "application/wasm", ".json": "application/json",
}  # fmt: skip
BYTES = "application/octet-stream"
HEADERS = {
    "X-Content-Type-Options": "nosniff", "Cross-Origin-Resource-Policy": "same-origin", "Cache-Control": "no-store",
    "Referrer-Policy": "no-referrer", "X-Frame-Options": "DENY",
    "Content-Security-Policy": "default-src 'self'; script-src 'self' 'wasm-unsafe-eval'; "
    "style-src 'self' 'unsafe-inline'; connect-src 'self'; img-src 'self' data:; frame-ancestors 'none'",
}  # fmt: skip
MOST_SECONDS = 60
# The owner of directories and archives, as `llbm-tools build` reads them.
READING = source_texts.Reading(quiet=True)

Opened = contextlib.AbstractContextManager[BinaryIO]


class NotThere(Exception):
    """Nothing has this path."""


class Site:
    """What is served: the files of the page by path, its module, the builds of some places, and their notes."""

    def __init__(
        self, files: dict[str, bytes], module: pathlib.Path, places: list[str], notes: Callable[[Build], list[object]]
    ) -> None:
        self.files = {**files, "": files["index.html"]}
        self.module = module
        self.places = places
        self.notes = notes
        self.secret = secrets.token_urlsafe(16)
        self.port = 0
        self.lock = threading.Lock()

    def builds(self) -> dict[str, Build]:
        """Returns the builds that are there now: llbmd may have kept more since the start."""
        return page_builds.all_builds(self.places) if self.places else {}

    def answer(self, path: str) -> tuple[str, bytes | Opened]:
        """Returns the type of what has a path, and its bytes or what opens it. Raises NotThere."""
        root, secret, *names = [unquote(part) for part in path.split("/")]
        if root or not secrets.compare_digest(secret.encode(), self.secret.encode()) or not names:
            raise NotThere
        if names == ["builds.json"]:
            return TYPES[".json"], json.dumps([build.about() for build in self.builds().values()]).encode()
        if names[0] == "build":
            return self.of_build(names[1:])
        file = "/".join(names)
        if file == assets.MODULE and self.module.is_file():
            return TYPES[".wasm"], self.module.open("rb")
        if file not in self.files:
            raise NotThere
        return TYPES.get("." + file.rpartition(".")[2], TYPES[".html"] if not file else BYTES), self.files[file]

    def of_build(self, names: list[str]) -> tuple[str, bytes | Opened]:
        """Returns a part of a build: `NAME/about`, `NAME/definition`, `NAME/record`, `NAME/notes`, `NAME/tree/N`."""
        build = self.builds().get(names[0]) if names else None
        if build is None:
            raise NotThere
        parts = names[1:]
        if parts == ["about"]:
            return TYPES[".json"], json.dumps(build.about()).encode()
        if parts == ["notes"]:
            with self.lock:
                return TYPES[".json"], json.dumps(self.notes(build)).encode()
        if parts in (["definition"], ["record"]):
            return BYTES, self.file(build, build.definition if parts == ["definition"] else page_builds.RECORD)
        trees = list(build.trees.values())
        if len(parts) == 2 and parts[0] == "tree" and parts[1] in map(str, range(len(trees))):
            place = build.place(trees[int(parts[1])])
            if place is not None:
                return BYTES, source_texts.text_at(str(place), READING)
        raise NotThere

    def file(self, build: Build, name: str) -> Opened:
        """Returns what opens a file of a build."""
        place = build.place(name)
        if place is None or not place.is_file():
            raise NotThere
        return place.open("rb")


class Handler(http.server.BaseHTTPRequestHandler):
    """Answers GET and HEAD; every other method is refused."""

    site: Site
    timeout = MOST_SECONDS
    server_version = "llbm-page"
    sys_version = ""

    def log_message(self, format: str, *args: object) -> None:
        """Prints nothing."""

    def is_here(self) -> bool:
        """Returns whether the request names this machine by one of its own names, with the server's port."""
        host = self.headers.get_all("Host") or []
        port = self.site.port
        return len(host) == 1 and host[0].lower() in [f"{name}:{port}" for name in NAMES]

    def do_GET(self) -> None:  # noqa: N802
        """Sends what has the path."""
        if not self.is_here():
            self.refuse(HTTPStatus.FORBIDDEN, "the request is for another host")
            return
        try:
            kind, content = self.site.answer(urlsplit(self.path).path)
            if isinstance(content, bytes):
                self.send(kind, len(content))
                self.write(content)
                return
            with content as file:
                self.send(kind, None)
                if self.command != "HEAD":
                    shutil.copyfileobj(file, self.wfile)
        except (NotThere, ValueError):
            self.refuse(HTTPStatus.NOT_FOUND, "there is nothing at this path")
        except (Refused, Failed) as fault:
            self.refuse(HTTPStatus.INTERNAL_SERVER_ERROR, "; ".join(map(str, fault.args)))
        except (BrokenPipeError, ConnectionResetError, TimeoutError):
            self.close_connection = True

    do_HEAD = do_GET  # noqa: N815

    def send(self, kind: str, length: int | None, status: HTTPStatus = HTTPStatus.OK) -> None:
        """Sends the head of an answer."""
        self.send_response(status)
        for name, value in {"Content-Type": kind, **HEADERS}.items():
            self.send_header(name, value)
        if length is not None:
            self.send_header("Content-Length", str(length))
        self.end_headers()

    def write(self, content: bytes) -> None:
        """Sends the content, unless the request is for the head alone."""
        if self.command != "HEAD":
            self.wfile.write(content)

    def refuse(self, status: HTTPStatus, why: str) -> None:
        """Refuses a request, with a line that says why."""
        content = f"{why}\n".encode()
        with contextlib.suppress(OSError):
            self.send("text/plain; charset=utf-8", len(content), status)
            self.write(content)


class Server(http.server.ThreadingHTTPServer):
    """The server, whose threads end with it."""

    daemon_threads = True


@contextlib.contextmanager
def serving(site: Site, port: int) -> Iterator[str]:
    """Serves a site, and yields the link to it. Raises OSError if the port is taken."""
    handler = type("SiteHandler", (Handler,), {"site": site})
    with Server((LOOPBACK, port), handler) as server:
        site.port = server.server_port
        thread = threading.Thread(target=server.serve_forever, daemon=True)
        thread.start()
        try:
            yield f"http://{LOOPBACK}:{site.port}/{site.secret}/"
        finally:
            server.shutdown()
