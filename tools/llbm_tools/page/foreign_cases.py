"""Tests in the browser of definitions that the machine refuses: they are drawn, and adopted by one press."""

import subprocess

from llbm_tools.definitions import adopted_ops
from llbm_tools.llb.findings import findings_of
from llbm_tools.llb.program_questions import ask
from llbm_tools.page import assets
from llbm_tools.page.page_driver import Page, check, same

# What `adopt --all` does.
ALL = adopted_ops.Settings(frozenset(adopted_ops.DROPPED), (), adopted_ops.RunNothing.REFUSED)
EMPTY = b"d 0755 0 0 /\n"


def foreign_definition() -> bytes:
    """Returns the example that a client of BuildKit could have made of a Dockerfile of three lines."""
    return (assets.EXAMPLES / "foreign.llb").read_bytes()


def canonical(data: bytes, program: str) -> bytes:
    """Returns a definition with the canonical bytes of each op: what the page changes it has written so."""
    ops = ask(program, "show", "--ops", given=data).text
    return subprocess.run([program, "asm"], input=ops.encode(), capture_output=True, check=True).stdout


def draw(page: Page, data: bytes) -> None:
    """Opens a definition that is refused."""
    page.load()
    page.give_file("foreign.llb", data, "#definition-file")
    page.browser.wait("document.getElementById('definition-said').textContent.includes('Open draws it')")
    page.click("open-now")
    page.browser.wait("document.getElementById('views').classList.contains('foreign')")


def what_is_refused_is_drawn(page: Page) -> None:
    """Draws a definition with an image, a secret and an owner by name: each finding is at its entry."""
    data = foreign_definition()
    draw(page, data)
    page.browser.wait("document.querySelectorAll('.box').length === 5")
    shown = page.run("[...document.querySelectorAll('.finding strong')].map(e => e.textContent)")
    same(sorted(shown), sorted(f"fault {one.words()}" for one in findings_of(data, page.program)), "the findings")
    refused = page.run("[...document.querySelectorAll('.box.refused .vertex-name')].map(e => e.textContent).sort()")
    same(refused, ["row 0 source ≠", "row 1 exec ≠", "row 3 file ≠"], "the refused entries, which have notes too")
    adopted = adopted_ops.adopt(data, ALL, page.program)
    changes = page.run("[...document.querySelectorAll('.adopting li')].map(e => e.textContent)")
    same(changes, [text for _, text in adopted.changes], "what adopting would change")
    check("alpine, context" in page.text("foreign-said"), page.text("foreign-said"))
    page.run("document.querySelector('[data-row=\"1\"] button').click()")
    told = page.text("vertex-details")
    check("apk add git" in told and "A mount of a secret." in told, told)
    check("Platform has no effect here" in told, told)
    page.press("ArrowUp")
    above = page.run("document.activeElement.querySelector('.vertex-name').textContent")
    same(above, "row 0 source ≠", "the row above")
    same(page.browser.faults, [], "faults of the page's code")


def adopted_by_one_press(page: Page) -> None:
    """Adopts a definition: the sources are asked for by name, with what they were, and the run is that of `adopt`."""
    data = canonical(foreign_definition(), page.program)
    draw(page, data)
    page.click("adopt")
    page.browser.wait("document.getElementById('open-view').open")
    rows = page.run("[...document.querySelectorAll('.local')].map(e => e.dataset.name)")
    same(rows, ["alpine", "context"], "the sources")
    told = page.run("document.querySelector('.local').textContent")
    check("was docker-image://docker.io/library/alpine:3.19" in told, told)
    for name in rows:
        page.run(f"document.querySelector('[data-name={name}] button').click()")
        page.browser.wait(f"document.querySelector('[data-name={name}]').textContent.includes('the empty tree: ')")
    tree = (assets.EXAMPLES / "tour.tree").read_bytes()
    page.give_file("tour.tree", tree, "[data-name=context] input")
    page.browser.wait("document.querySelector('[data-name=context]').textContent.includes('tour.tree: ')")
    page.submit()
    page.open_case(adopted_ops.adopt(data, ALL, page.program).data, [("alpine", EMPTY), ("context", tree)], 2, False)
    page.click("go")
    check("complete" in page.text("said"), page.text("said"))
    same(page.statuses(), ["done"] * 4, "the statuses")
    page.check_answers()


CASES = (what_is_refused_is_drawn, adopted_by_one_press)
