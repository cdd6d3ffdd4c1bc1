"""The page in a browser, used as a person uses it, and what is wanted of it."""

import base64
import json
import pathlib
from typing import Any

from llbm_tools.page import assets, module_cases
from llbm_tools.page.browser import Browser

READY = "document.body.dataset.ready"
LOOKED = "document.body.dataset.looked === 'yes'"
WIDE, NARROW = (1280, 900), (400, 860)


class Wrong(Exception):
    """The page did something else; the message says what."""


def check(is_right: object, what: str) -> None:
    """Raises Wrong if something is not right."""
    if not is_right:
        raise Wrong(what)


def same(found: object, wanted: object, what: str) -> None:
    """Raises Wrong if two values differ."""
    if found != wanted:
        raise Wrong(f"{what}: {str(found)[:300]!r}, not {str(wanted)[:300]!r}")


class Page:
    """The page in a browser, the folder of its files, and the program whose answers are wanted."""

    def __init__(self, browser: Browser, url: str, program: str, folder: pathlib.Path) -> None:
        self.browser = browser
        self.url = url
        self.program = program
        self.folder = folder
        self.measured: dict[str, str] = {}
        self.noted: list[str] = []
        # Parts of the faults that a test provokes.
        self.awaited: list[str] = []
        self.given: module_cases.Case | None = None

    def measure(self, what: str, times: list[float]) -> None:
        """Keeps the least, the middle one and the most of some times, in milliseconds."""
        middle = sorted(times)[len(times) // 2]
        self.measured[what] = f"{min(times):.2f} {middle:.2f} {max(times):.2f}"

    def load(self, fragment: str = "#open") -> None:
        """Loads the page anew, with the view *Open* unless it is another link, and begins to keep what sessions say."""
        self.browser.go(self.url + fragment, READY)
        same(self.run(READY), "yes", self.text("said") or "ready")
        self.run("addEventListener('keyup', () => { globalThis.released = true; }, true)")

    def run(self, text: str) -> Any:
        """Returns the value of an expression of the page."""
        return self.browser.run(text)

    def text(self, name: str) -> str:
        """Returns the text of an element."""
        return str(self.run(f"document.getElementById('{name}').textContent"))

    def click(self, name: str) -> None:
        """Clicks an element, and waits until the page has shown what changed."""
        self.run(f"document.getElementById('{name}').click()")
        self.settle()

    def press(self, *keys: str) -> None:
        """Presses keys, one after another."""
        for key in keys:
            self.run("globalThis.released = false")
            self.browser.key(key)
            self.browser.wait("globalThis.released")
            self.settle()

    def settle(self) -> None:
        """Waits until the page has shown what changed."""
        looked = f"(document.body.dataset.looked === undefined || {LOOKED})"
        self.browser.wait(f"document.body.dataset.reading !== 'yes' && {looked}")

    def choose(self, name: str, value: str) -> None:
        """Chooses a value of a menu."""
        change = f"e.value = '{value}'; e.dispatchEvent(new Event('change'));"
        self.run(f"(e => {{ {change} }})(document.getElementById('{name}'))")

    def submit(self) -> None:
        """Opens what the view *Open* has, and begins to keep what the session says."""
        self.run("globalThis.llbmTranscript = []")
        self.click("open-now")

    def example(self, name: str, workers: int = 2) -> None:
        """Opens an example of the menu."""
        self.load()
        shown = assets.shown(next(one for one in assets.MENU if one.name == name))
        data = shown.definition.read_bytes()
        given = [(local, file.read_bytes()) for local, file in shown.locals.items()]
        self.choose("example", name)
        self.browser.wait(f"document.getElementById('open-view').dataset.example === '{name}'")
        self.run(f"document.getElementById('workers').value = '{workers}'")
        self.submit()
        self.open_case(data, given, workers, shown.definition.suffix == ".text")

    def open_case(self, data: bytes, given: list[tuple[str, bytes]], workers: int, is_text: bool) -> None:
        """Keeps what the session was opened on, for the comparison with the program."""
        if is_text:
            data = module_cases.program_answer(self.program, module_cases.Case("", "asm", data, [], 1, b"")).out
        self.given = module_cases.Case("", "step", data, given, workers, b"")

    def check_answers(self) -> None:
        """Checks that the program answers each line as the page's session and that of its worker did, and no faults."""
        same(self.browser.faults, [], "faults of the page's code")
        for what, told in (("the session", "globalThis.llbmSession()"), ("the looks", "globalThis.llbmLooks()")):
            said = self.run(told)
            check(len(said) > 2, f"{what}: nothing was asked")
            self.check_transcript(what, said)

    def check_transcript(self, what: str, said: list[list[str]]) -> None:
        """Checks that the program answers each line of a session as the page's machine did."""
        assert self.given is not None
        lines = "".join(f"{line}\n" for line, _ in said).encode()
        wanted = module_cases.program_answer(self.program, self.given._replace(commands=lines))
        same("".join(answer for _, answer in said).encode(), wanted.out, f"the answers of {what}")

    def record(self) -> list[str]:
        """Returns the commands of the events up to the present place, as the view *Share* has them."""
        self.click("to-share")
        self.browser.wait("document.getElementById('share-view').open")
        lines = str(self.run("document.getElementById('share-lines').value")).splitlines()
        self.run("document.getElementById('share-view').close()")
        return lines

    def place(self) -> tuple[int, int]:
        """Returns the place on the slider, and its end."""
        return int(self.run("+slider.value")), int(self.run("+slider.max"))

    def statuses(self) -> list[str]:
        """Returns the classes of the boxes that are in the page, by vertex."""
        return list(self.run(
            "[...document.querySelectorAll('.box')].sort((a, b) => a.dataset.vertex - b.dataset.vertex)"
            ".map(box => box.className.replace(/box|selected|result/g, '').trim())"
        ))

    def changes(self) -> list[str]:
        """Returns the changes that are shown: kind and path."""
        return list(self.run(
            "[...document.querySelectorAll('.change')]"
            ".map(one => one.className.replace('change ', '') + ' ' + one.querySelector('.path').textContent)"
        ))

    def give_file(self, name: str, data: bytes, selector: str) -> None:
        """Gives a file to a field of files."""
        bytes_of = f"Uint8Array.from(atob('{base64.b64encode(data).decode()}'), c => c.charCodeAt(0))"
        self.run(
            f"(e => {{ const given = new DataTransfer(); given.items.add(new File([{bytes_of}], '{name}'));"
            f"e.files = given.files; e.dispatchEvent(new Event('change')); }})"
            f"(document.querySelector({json.dumps(selector)}))"
        )
