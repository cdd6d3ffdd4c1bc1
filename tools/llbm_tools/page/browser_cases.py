"""What a person does on the page, as tests in a browser; the answers that the page had are compared with the program's.

Wanted values are written from the rules of the formats, and from examples/ and README.md of the repository.
"""

import io
import tarfile

from llbm_tools.page import (
    assets, contrast, control_cases, editing_cases, foreign_cases, graph_cases, hostile_cases, large_page_cases,
    module_cases, order_cases, proof_cases, served_cases, statement_cases, step_view_cases,
)
from llbm_tools.page.page_driver import NARROW, WIDE, Page, check, same

TOUR_RECORD = [
    "claim 0 0", "step 0", "settle 0", "claim 0 1", "step 0", "settle 0", "claim 0 2", *["step 0"] * 6, "settle 0",
]  # fmt: skip


def the_tour_step_by_step(page: Page) -> None:
    """Goes through the tour by Next, and wants its record, statuses and result."""
    page.example("tour")
    spent = []
    for _ in TOUR_RECORD:
        page.click("next")
        spent.append(float(page.run("document.body.dataset.spent")))
    page.measure("a step of the tour", spent)
    same(page.record(), TOUR_RECORD, "the record")
    same(page.statuses(), ["done"] * 3, "the statuses")
    page.choose("tree-choice", "tree 2 0")
    same(page.run("[...document.querySelectorAll('#tree .path')].map(p => p.textContent)"), ["/", "out/"], "the tree")
    page.click("next")
    check("complete" in page.text("said"), "nothing says that the run is complete")
    page.check_answers()


def forth_and_back(page: Page) -> None:
    """Goes to places by Back, by the slider and to both ends."""
    page.example("tour")
    page.click("go")
    same(page.place(), (14, 14), "after Go")
    for _ in range(3):
        page.click("back")
    same(page.place(), (11, 14), "after three steps back")
    page.run("(s => { s.value = 5; s.dispatchEvent(new Event('input')); })(slider)")
    page.settle()
    same(page.record(), TOUR_RECORD[:5], "the record at the slider's place")
    page.click("first")
    same((page.place(), page.record()), ((0, 14), []), "the beginning")
    clicked = "new MouseEvent('click', {bubbles: true})"
    page.run(f"document.querySelector('[data-number=\"9\"]').dispatchEvent({clicked})")
    page.settle()
    same(page.record(), TOUR_RECORD[:9], "the record at the mark that was clicked")
    page.check_answers()


def another_way(page: Page) -> None:
    """Goes back and on with another worker: both ways stay, and the way before is gone to by a key."""
    page.example("tour")
    for _ in range(3):
        page.click("next")
    page.click("first")
    page.choose("worker", "1")
    page.click("step")
    page.click("step")
    same(page.record(), ["claim 1 0", "step 1"], "the other way")
    same(page.run("[...document.querySelectorAll('.label text')].map(t => t.textContent).slice(2)"), ["way 1"], "ways")
    same(page.run("document.querySelectorAll('.event.other').length"), 3, "the marks of the way before")
    page.click("first")
    page.click("next")
    page.press("f")
    same(page.record(), ["claim 1 0"], "the way after the key f")
    page.click("cancel")
    same(page.record(), ["claim 1 0", "cancel 1"], "giving up")
    page.check_answers()


# An execution whose only command fails, and a merge that needs it.
FAILING = """op {
  exec {
    meta {
      args "/bin/sh"
      args "-c"
      args "test -e /nothing"
      cwd "/"
    }
    mounts {
      input -1
      dest "/"
    }
  }
}
op {
  inputs {
    digest %0
  }
  merge {
    inputs {
    }
  }
}
op {
  inputs {
    digest %1
  }
}
"""


def a_failing_definition(page: Page) -> None:
    """Runs a definition that fails: it stops at the failure, and says what failed and what is blocked."""
    page.load()
    text = FAILING.encode()
    page.give_file("failing.text", text, "#definition-file")
    page.browser.wait("definition.value !== ''")
    page.submit()
    page.open_case(text, [], 2, True)
    page.run("document.getElementById('break-fail').click()")
    page.click("go")
    same(page.record()[-1], "settle 0", "where Go stopped")
    page.click("go")
    page.browser.wait("document.querySelectorAll('.box.failed, .box.blocked').length === 2")
    same(page.statuses(), ["failed", "blocked"], "the statuses")
    check(page.run("document.querySelectorAll('.event.bad').length") >= 1, "no event is marked as a failure")
    label = page.run("document.querySelector('.box.failed .vertex').getAttribute('aria-label')")
    check("failed at" in label, f"the name of the failed vertex: {label}")
    page.check_answers()


def a_definition_of_a_client(page: Page) -> None:
    """Opens bytes that BuildKit's client made: vertices have their names from its metadata."""
    page.example("from-buildkit/dockerfile")
    page.browser.wait("document.querySelectorAll('.box').length === 5")
    labels = page.run("[...document.querySelectorAll('.vertex')].map(v => v.getAttribute('aria-label'))")
    check(any("[build 2/3] COPY . ." in label for label in labels), f"the names {labels}")
    page.click("go")
    check("complete" in page.text("said"), "nothing says that the run is complete")
    marks = page.run("[...document.querySelectorAll('.event')].map(mark => mark.getAttribute('aria-label'))")
    check(any(mark.endswith("(Dockerfile:3: COPY . .)") for mark in marks), f"the lines of the Dockerfile: {marks}")
    page.check_answers()


def refused_files(page: Page) -> None:
    """Gives files that are refused: the fault's line and its cause are told, and a faulty line is selected."""
    page.load()
    page.give_file("no.definition", b"\x0a\xff", "#definition-file")
    page.browser.wait("document.getElementById('definition-said').textContent !== ''")
    page.submit()
    told = page.text("open-said")
    check("fault 81 1" in told and "The bytes end inside the record." in told, told)
    page.give_file("no.text", b"op {\n  nonsense 1\n}\n", "#definition-file")
    page.browser.wait("definition.value !== ''")
    page.submit()
    told = page.text("open-said")
    check("fault 161 2" in told, told)
    selected = page.run("definition.value.slice(definition.selectionStart, definition.selectionEnd)")
    same(selected, "  nonsense 1", "what is selected")
    check(page.run("document.getElementById('open-view').open"), "the view is closed")
    same(page.browser.faults, [], "faults of the page's code")


def tour_archive() -> bytes:
    """Returns the tree of the tour as an archive, with a symbolic link besides."""
    made = io.BytesIO()
    with tarfile.open(fileobj=made, mode="w:gz", format=tarfile.PAX_FORMAT) as archive:
        for name, content in (("text/head", b"hello,\n"), ("text/tail", b"world\n")):
            member = tarfile.TarInfo(f"./{name}")
            member.size, member.mode = len(content), 0o644
            archive.addfile(member, io.BytesIO(content))
        link = tarfile.TarInfo("link")
        link.type, link.linkname = tarfile.SYMTYPE, "text"
        archive.addfile(link)
    return made.getvalue()


def a_source_without_a_tree(page: Page) -> None:
    """Opens the tour without the tree of its source, and then with a tar of it and with its text."""
    page.load()
    text = (assets.EXAMPLES / "tour.text").read_bytes()
    page.give_file("tour.text", text, "#definition-file")
    page.browser.wait("document.querySelectorAll('.local').length === 1")
    page.submit()
    told = page.text("open-said")
    check("fault 121 source" in told, told)
    page.give_file("tour.tar.gz", tour_archive(), ".local input")
    page.browser.wait("document.querySelector('.local .note').textContent.includes('entries')")
    told = page.run("document.querySelector('.local .note').textContent")
    check("/link: a symbolic link" in told, f"what is left out: {told}")
    page.submit()
    tree = (assets.EXAMPLES / "tour.tree").read_bytes()
    page.open_case(text, [("source", tree)], 2, True)
    page.click("go")
    page.check_answers()


# The texts of the cells with contents, without the numbers of lines.
CELLS = "[...document.querySelectorAll('.contents tbody td:not(.number)')].map(t => t.textContent)"


def what_changed(page: Page) -> None:
    """Looks at what events of the tour changed, and at contents side by side."""
    page.example("tour")
    for _ in range(5):
        page.click("next")
    same(page.changes(), ["added /out"], "what the file op changed")
    for _ in range(3):
        page.click("next")
    same(page.changes(), ["added /out/bin"], "what the first command changed")
    page.click("next")
    same(page.changes(), ["added /out/bin/all"], "what the second command changed")
    page.run("document.querySelector('.change').open = true")
    page.browser.wait("document.querySelectorAll('.contents td').length > 0")
    cells = page.run(CELLS)
    same(cells, ["", "hello,", "", "world"], "the content as text")
    page.run("document.querySelector('.contents-of button').click()")
    page.browser.wait(f"({CELLS})[0] === '' && ({CELLS})[1].startsWith('0000')")
    cells = page.run(CELLS)
    check("68 65 6c 6c 6f" in cells[1], f"the content in hexadecimal: {cells}")
    page.click("back")
    same(page.changes(), ["added /out/bin"], "what changed one step back")
    page.check_answers()


def caches_and_who_holds_them(page: Page) -> None:
    """Looks at the locked cache of the example, which the first execution holds."""
    page.example("cache")
    same(page.run("document.querySelectorAll('#caches tr').length"), 0, "keys at the beginning")
    page.click("next")
    page.click("next")
    cells = page.run("[...document.querySelectorAll('#caches td')].map(t => t.textContent)")
    same(cells, ["objects", "locked", "1", "none", "worker 0 (vertex 0, at /cache)"], "the cache")
    check("added /first" in page.changes(), f"what changed: {page.changes()}")
    page.click("go")
    same(page.run("document.querySelector('#caches td:last-child').textContent"), "nobody", "who holds it at the end")
    page.check_answers()


def sharing(page: Page) -> None:
    """Copies what can be shared, and opens the link: the same definition, at the same place."""
    page.example("merge")
    for _ in range(4):
        page.click("next")
    assert page.given is not None
    wanted = module_cases.program_answer(page.program, page.given._replace(command="dis", locals=[])).out.decode()
    lines = page.record()
    same(page.run("document.getElementById('share-text').value"), wanted, "the definition's text")
    link = str(page.run("document.getElementById('share-link').value"))
    check(link.startswith(f"{page.url}#s="), f"the link {link[:80]}")
    page.load(link.removeprefix(page.url))
    page.settle()
    same(page.record(), lines, "the record of the link")
    page.load("#s=AAAA")
    check("not readable" in page.text("said"), "a link that carries nothing")


def the_keyboard(page: Page) -> None:
    """Does everything by keys."""
    page.example("tour")
    page.press("ArrowRight", "n", "ArrowLeft")
    same(page.place(), (1, 2), "after right, n, left")
    page.press("1", "Home", "s")
    same(page.record(), ["claim 1 0"], "a step of worker 1")
    page.press("c", "b", "b", "v")
    same(page.run("document.activeElement.className"), "vertex", "the focus after v")
    page.press("ArrowDown")
    same(page.run("document.activeElement.parentNode.dataset.vertex"), "2", "the vertex below the source")
    page.press("ArrowUp", "ArrowRight")
    page.press("ArrowDown", ".")
    page.browser.wait("document.querySelector('[data-vertex=\"2\"] .mark').className === 'mark claim'")
    page.press("g")
    same(page.record()[-1], "claim 0 2", "where g stopped")
    page.press("g", "Home", "End")
    same(page.place(), (14, 14), "after End")
    for key, name in (("?", "keys-view"), ("h", "share-view"), ("o", "open-view")):
        page.press(key)
        page.browser.wait(f"document.getElementById('{name}').open")
        page.press("Escape")
        page.browser.wait(f"!document.getElementById('{name}').open")
    page.check_answers()


def names_for_screen_readers(page: Page) -> None:
    """Wants a name for each thing that can be used."""
    page.example("tour")
    page.click("go")
    tree = page.browser.send("Accessibility.getFullAXTree")["nodes"]
    roles = {"button", "textbox", "combobox", "slider", "checkbox", "spinbutton"}
    found = [node for node in tree if not node.get("ignored") and node.get("role", {}).get("value") in roles]
    check(len(found) > 20, f"only {len(found)} things are known")
    nameless = [node["role"]["value"] for node in found if not node.get("name", {}).get("value")]
    same(nameless, [], "things without a name")


def wide_and_narrow(page: Page) -> None:
    """Looks for what is wider than the window, at 1280 and at 400 pixels, and at the dark colors."""
    for width, height in (WIDE, NARROW):
        page.browser.size(width, height)
        page.example("execution")
        page.click("go")
        same(page.run("document.documentElement.scrollWidth"), width, f"the width at {width} pixels")
        page.run("document.getElementById('open-view').showModal()")
        same(page.run("document.documentElement.scrollWidth"), width, f"the width of Open at {width} pixels")
    page.browser.size(*WIDE, is_dark=True)
    color = page.run("getComputedStyle(document.documentElement).backgroundColor.match(/[0-9]+/g).map(Number)")
    page.browser.size(*WIDE)
    check(max(color) < 60, f"the background is not dark: {color}")


def the_start(page: Page) -> None:
    """Measures the start."""
    times = []
    for _ in range(5):
        page.load()
        times.append(float(page.run("document.body.dataset.module")))
    page.measure("the start of the module", times)
    check(min(times) < 1000, f"the module starts in {times} ms")


def a_trap(page: Page) -> None:
    """Makes the module stop in a session: the page tells it, and a new session works."""
    place = page.folder / "trapping_worker.mjs"
    place.write_text(TRAPPING, "utf-8")
    script = page.browser.send("Page.addScriptToEvaluateOnNewDocument", {"source": WITH_TRAPS})["identifier"]
    page.example("tour")
    page.browser.send("Page.removeScriptToEvaluateOnNewDocument", {"identifier": script})
    for _ in range(BEFORE_A_TRAP):
        page.click("next")
    check("stopped" in page.text("said") and "Open the definition again" in page.text("said"), page.text("said"))
    page.run("globalThis.llbmTraps = false")
    page.click("to-open")
    page.click("open-now")
    page.click("next")
    same(page.record(), ["claim 0 0"], "the session after it")


# A worker of a session whose module reads outside of its memory at a line: that traps. The page takes it in place of
# its own until it is told not to.
BEFORE_A_TRAP = 3
TRAPPING = """
const Instance = WebAssembly.Instance;
let lines = 0;
WebAssembly.Instance = function (...given) {
  const { exports } = new Instance(...given);
  const line = (...words) => {
    lines += 1;
    if (lines > 6) exports.page_free(0xfffffff0n);
    return exports.llb_line(...words);
  };
  return { exports: { ...exports, llb_line: line } };
};
const early = [];
const keep = (event) => early.push(event.data);
addEventListener('message', keep);
await import('./session_worker.mjs');
removeEventListener('message', keep);
for (const data of early) dispatchEvent(new MessageEvent('message', { data }));
"""
WITH_TRAPS = """
globalThis.llbmTraps = true;
globalThis.Worker = class extends Worker {
  constructor(name, options) {
    const isOne = globalThis.llbmTraps && name === 'session_worker.mjs';
    super(isOne ? 'trapping_worker.mjs' : name, options);
  }
};
"""


CASES = (
    the_start, the_tour_step_by_step, forth_and_back, another_way, a_failing_definition, a_definition_of_a_client,
    refused_files, a_source_without_a_tree, what_changed, caches_and_who_holds_them, sharing, the_keyboard,
    names_for_screen_readers, wide_and_narrow, a_trap, *statement_cases.CASES, *control_cases.CASES,
    contrast.contrast_of_all_texts, *foreign_cases.CASES, *served_cases.CASES, *step_view_cases.CASES,
    *proof_cases.CASES, *order_cases.CASES, *graph_cases.CASES, *editing_cases.CASES, *hostile_cases.CASES,
    *large_page_cases.CASES,
)  # fmt: skip
