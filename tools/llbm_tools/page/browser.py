"""A headless Chromium that is driven by its DevTools protocol, over two pipes, and a web server of static files."""

import base64
import contextlib
import functools
import http.server
import json
import os
import pathlib
import select
import shutil
import signal
import subprocess
import tempfile
import threading
import time
from collections.abc import Iterator
from typing import Any

NAMES = ("chromium", "chromium-browser", "google-chrome", "chrome")
FLAGS = (
    "--headless=new", "--no-sandbox", "--disable-gpu", "--hide-scrollbars", "--no-first-run", "--disable-extensions",
    "--disable-background-networking", "--disable-component-update", "--force-color-profile=srgb", "--mute-audio",
    "--remote-debugging-pipe",
)  # fmt: skip
TO_BROWSER, FROM_BROWSER = 3, 4
PIECE = 1 << 20
# How long the browser may take to reply, or a page to show something: more than ten times what it takes on a slow host.
MOST_SECONDS = 600
PAUSE = 0.02
KEYS = {
    "ArrowLeft": 37, "ArrowUp": 38, "ArrowRight": 39, "ArrowDown": 40, "Home": 36, "End": 35, "Enter": 13, "Tab": 9,
    "Escape": 27,
}  # fmt: skip


class BrowserFailed(Exception):
    """The browser ended, did not reply in time, or refused a command; or the page's code failed."""


def found() -> str | None:
    """Returns the path of a browser that can be driven, or None."""
    return next((path for name in NAMES if (path := shutil.which(name))), None)


class Quiet(http.server.SimpleHTTPRequestHandler):
    """Serves files, and prints nothing."""

    extensions_map = {
        **http.server.SimpleHTTPRequestHandler.extensions_map, ".wasm": "application/wasm", ".mjs": "text/javascript"
    }  # fmt: skip

    def log_message(self, format: str, *args: object) -> None:
        """Prints nothing."""


@contextlib.contextmanager
def served(folder: pathlib.Path) -> Iterator[str]:
    """Serves a folder on this machine, and yields its URL."""
    handler = functools.partial(Quiet, directory=str(folder))
    with http.server.ThreadingHTTPServer(("127.0.0.1", 0), handler) as server:
        thread = threading.Thread(target=server.serve_forever, daemon=True)
        thread.start()
        try:
            yield f"http://127.0.0.1:{server.server_address[1]}/"
        finally:
            server.shutdown()


class Browser:
    """A browser with one page."""

    def __init__(self, program: str, profile: str) -> None:
        from_here, to = os.pipe()
        back, from_there = os.pipe()
        # The pipes get the two numbers that the browser reads and writes, which may be taken here.
        shell = f"exec {TO_BROWSER}<&{from_here} {FROM_BROWSER}>&{from_there}; exec \"$0\" \"$@\""
        self.child = subprocess.Popen(
            ["bash", "-c", shell, program, *FLAGS, f"--user-data-dir={profile}", "about:blank"],
            stdin=subprocess.DEVNULL, stdout=subprocess.DEVNULL, stderr=subprocess.DEVNULL,
            pass_fds=(from_here, from_there), start_new_session=True,
        )  # fmt: skip
        os.close(from_here)
        os.close(from_there)
        self.to, self.back = to, back
        self.read = b""
        self.count = 0
        self.session = ""
        self.faults: list[str] = []

    def start(self) -> None:
        """Opens the page."""
        target = self.send("Target.createTarget", {"url": "about:blank"})["targetId"]
        self.session = self.send("Target.attachToTarget", {"targetId": target, "flatten": True})["sessionId"]
        for domain in ("Page", "Runtime", "Log"):
            self.send(f"{domain}.enable")

    def close(self) -> None:
        """Ends the browser."""
        with contextlib.suppress(ProcessLookupError):
            os.killpg(self.child.pid, signal.SIGKILL)
        self.child.wait()
        os.close(self.to)
        os.close(self.back)

    def message(self, until: float) -> dict[str, Any]:
        """Returns the next message of the browser."""
        while b"\0" not in self.read:
            ready, _, _ = select.select([self.back], [], [], max(0.0, until - time.monotonic()))
            piece = os.read(self.back, PIECE) if ready else b""
            if not piece:
                raise BrowserFailed("it ended" if ready else f"no answer in {MOST_SECONDS} seconds")
            self.read += piece
        one, _, self.read = self.read.partition(b"\0")
        told: dict[str, Any] = json.loads(one)
        self.keep_fault(told.get("method", ""), told.get("params", {}))
        return told

    def keep_fault(self, method: str, params: dict[str, Any]) -> None:
        """Keeps what an event says of a fault of the page: an exception, a promise that was refused, or an error."""
        if method == "Runtime.exceptionThrown":
            details = params["exceptionDetails"]
            self.faults.append(str(details.get("exception", {}).get("description") or details.get("text")))
        elif method == "Runtime.consoleAPICalled" and params["type"] in ("error", "assert"):
            self.faults.append(" ".join(str(one.get("value", one.get("description"))) for one in params["args"]))
        elif method == "Log.entryAdded" and params["entry"]["level"] == "error":
            self.faults.append(f"{params['entry']['text']} {params['entry'].get('url', '')}".strip())

    def send(self, method: str, params: dict[str, Any] | None = None) -> dict[str, Any]:
        """Sends a command, and returns its result."""
        self.count += 1
        number = self.count
        sent: dict[str, Any] = {"id": number, "method": method, "params": params or {}}
        if self.session:
            sent["sessionId"] = self.session
        data = json.dumps(sent).encode() + b"\0"
        while data:
            data = data[os.write(self.to, data) :]
        until = time.monotonic() + MOST_SECONDS
        while True:
            told = self.message(until)
            if told.get("id") == number:
                if "error" in told:
                    raise BrowserFailed(f"the browser refused {method}: {told['error'].get('message')}")
                result: dict[str, Any] = told["result"]
                return result

    def run(self, text: str) -> Any:
        """Returns the value of an expression in the page; a promise is waited for."""
        params = {"expression": text, "awaitPromise": True, "returnByValue": True, "userGesture": True}
        told = self.send("Runtime.evaluate", params)
        if "exceptionDetails" in told:
            raise BrowserFailed(str(told["exceptionDetails"].get("exception", {}).get("description")))
        return told["result"].get("value")

    def wait(self, condition: str) -> None:
        """Waits until an expression of the page is true."""
        until = time.monotonic() + MOST_SECONDS
        while not self.run(condition):
            if time.monotonic() > until:
                raise BrowserFailed(f"no answer in {MOST_SECONDS} seconds: {condition}")
            time.sleep(PAUSE)

    def go(self, url: str, condition: str) -> None:
        """Goes to a page, anew also where only what is after # differs, and waits until a condition is true."""
        self.send("Page.navigate", {"url": "about:blank"})
        self.wait("location.href === 'about:blank'")
        self.send("Page.navigate", {"url": url})
        self.wait(f"location.href !== 'about:blank' && Boolean(document.body) && ({condition})")

    def key(self, key: str) -> None:
        """Presses a key and lets it go."""
        params: dict[str, Any] = {"key": key, "windowsVirtualKeyCode": KEYS.get(key, ord(key[0].upper()))}
        if len(key) == 1 or key == "Enter":
            params["text"] = "\r" if key == "Enter" else key
        self.send("Input.dispatchKeyEvent", {"type": "keyDown", **params})
        self.send("Input.dispatchKeyEvent", {"type": "keyUp", "key": key})

    def size(self, width: int, height: int, is_dark: bool = False) -> None:
        """Sets the size of the window, and whether it is dark."""
        params = {"width": width, "height": height, "deviceScaleFactor": 1, "mobile": False}
        self.send("Emulation.setDeviceMetricsOverride", params)
        scheme = {"name": "prefers-color-scheme", "value": "dark" if is_dark else "light"}
        self.send("Emulation.setEmulatedMedia", {"features": [scheme]})

    def picture(self, of: str = "") -> bytes:
        """Returns what is seen, or what is seen of an element, as PNG."""
        params: dict[str, Any] = {"format": "png"}
        if of:
            place = self.run(f"(r => [r.x, r.y, r.width, r.height])(document.getElementById('{of}')"
                             ".getBoundingClientRect())")  # fmt: skip
            params["clip"] = {**dict(zip(("x", "y", "width", "height"), place)), "scale": 1}
        return base64.b64decode(self.send("Page.captureScreenshot", params)["data"])


@contextlib.contextmanager
def opened(program: str) -> Iterator[Browser]:
    """Yields a browser with a page, which ends afterwards."""
    with tempfile.TemporaryDirectory(prefix="llbm-browser-", ignore_cleanup_errors=True) as profile:
        browser = Browser(program, profile)
        try:
            browser.start()
            yield browser
        finally:
            browser.close()
