"""Tests in the browser that what the page says is true, and that its controls do what they show."""

from llbm_tools.page import assets
from llbm_tools.page.page_driver import Page, check, same

JUNK = b"\0junk" * 300
SMALLEST = (390, 844)


def tour_text() -> bytes:
    """Returns the text of the tour's entries."""
    return (assets.EXAMPLES / "tour.text").read_bytes()


def a_rule_is_named_in_its_sentence(page: Page) -> None:
    """Gives a faulty line and an image: the sentences have the line, the rule, the row and the feature."""
    page.load()
    page.give_file("no.text", b"op {\n  nonsense 1\n}\n", "#definition-file")
    page.browser.wait("definition.value !== ''")
    page.submit()
    told = page.text("open-said")
    check("Line 2 breaks the rule UnknownField." in told, told)
    check("The open message has no field of the line's name." in told, told)
    image = (assets.EXAMPLES / "from-buildkit" / "image" / "definition").read_bytes()
    page.give_file("image", image, "#definition-file")
    page.browser.wait("document.getElementById('definition-said').textContent.includes('fault 88')")
    told = page.text("definition-said")
    check("The op of row 0 has an unsupported feature: Source." in told, told)
    check("docker-image://docker.io/library/alpine" in told, f"the image's name: {told}")
    check("follows" not in told and "`" not in told, told)


def an_archive_of_junk_is_no_tree(page: Page) -> None:
    """Gives a tree and then junk: the source has no tree then, the row says so, and Open is refused."""
    page.load()
    page.give_file("tour.text", tour_text(), "#definition-file")
    page.browser.wait("document.querySelectorAll('.local').length === 1")
    page.give_file("tour.tree", (assets.EXAMPLES / "tour.tree").read_bytes(), ".local input")
    page.browser.wait("document.querySelector('.local').textContent.includes('entries')")
    page.give_file("junk.tar", JUNK, ".local input")
    page.browser.wait("document.querySelector('.local .fault') !== null")
    told = page.run("document.querySelector('.local .fault').textContent")
    check("junk.tar" in told and "It has no tree now." in told, told)
    page.submit()
    check("The tree of source was not taken: junk.tar" in page.text("open-said"), page.text("open-said"))
    check(page.run("document.getElementById('open-view').open"), "the view is closed")


def an_old_fault_goes_with_its_definition(page: Page) -> None:
    """Makes a fault, and then chooses an example: the fault is not shown any more."""
    page.load()
    page.give_file("no.definition", b"\x0a\xff", "#definition-file")
    page.browser.wait("document.getElementById('definition-said').textContent !== ''")
    page.submit()
    check(page.text("open-said"), "no fault is shown")
    page.choose("example", "tour")
    page.browser.wait("document.querySelectorAll('.local').length === 1")
    same(page.text("open-said"), "", "the fault after another definition was chosen")


def garbage_needs_nothing_that_is_known(page: Page) -> None:
    """Gives no definition, and garbage: nothing says that no trees are needed."""
    page.load()
    same(page.text("locals"), "Give a definition first.", "what is said of sources at the start")
    page.give_file("garbage", JUNK, "#definition-file")
    page.browser.wait("document.getElementById('definition-said').textContent.includes('fault 81')")
    check("not known" in page.text("locals"), page.text("locals"))
    page.choose("example", "merge")
    page.browser.wait("document.querySelectorAll('.local').length > 0")
    page.choose("example", "first-run")
    page.browser.wait("document.querySelectorAll('.local').length === 0")
    same(page.text("locals"), "It needs none.", "what is said of a definition without sources")


def keys_work_wherever_the_focus_is(page: Page) -> None:
    """Presses keys on each control outside of the dialogs: they move, also after a box was ticked."""
    page.example("tour")
    page.run("document.getElementById('break-fail').focus()")
    page.run("document.getElementById('break-fail').click()")
    page.press("n")
    same(page.place(), (1, 1), "n after a box was ticked")
    page.press("b")
    names = page.run(
        "[...document.querySelectorAll('header button, main button, main select, main input, main summary')]"
        ".filter(e => e.checkVisibility() && !e.disabled && e.type !== 'search')"
        ".map((e, i) => { e.dataset.probe = i; return i; })"
    )
    check(len(names) > 10, f"only {len(names)} controls")
    for number in names:
        if not page.run(f"(e => {{ e?.focus(); return document.activeElement === e; }})"
                        f"(document.querySelector('[data-probe=\"{number}\"]'))"):
            continue
        before = page.place()[0]
        what = page.run("document.activeElement.outerHTML.slice(0, 80)")
        page.press("n")
        same(page.place()[0], before + 1, f"n on {what}")
        page.press("b")
    page.run("document.getElementById('worker').focus()")
    page.press("1", "s")
    same(page.record(), ["claim 1 0"], "a worker that was chosen by its digit, and its step")


def a_link_that_is_none(page: Page) -> None:
    """Opens links that are cut off, or none: a sentence says what is wrong, and Open is shown."""
    page.example("merge")
    page.click("next")
    page.click("to-share")
    page.browser.wait("document.getElementById('share-link').value !== ''")
    link = str(page.run("document.getElementById('share-link').value")).removeprefix(page.url)
    for fragment, words in ((link[:-40], "cut off or damaged"), ("#zzz", "not a session of this page"),
                            ("#s=", "cut off or damaged")):  # fmt: skip
        page.load(fragment)
        told = page.text("open-said")
        check(words in told and "fetch" not in told, f"{fragment[:20]}: {told}")
        check(page.run("document.getElementById('open-view').open"), f"{fragment[:20]}: Open is not shown")
    page.run(f"location.hash = {link!r}")
    page.browser.wait("document.querySelectorAll('.event').length === 1")


def the_tree_is_that_of_the_event(page: Page) -> None:
    """Looks at the menu of trees: the source's at the start, then the event's own, also after a step back."""
    page.example("tour")
    chosen = "document.getElementById('tree-choice').selectedOptions[0]?.textContent"
    same(page.run(chosen), "local source source", "the tree at the start")
    page.click("next")
    page.click("next")
    page.click("next")
    same(page.run(chosen), "output 0.0", "the tree after the settle of vertex 0")
    page.click("next")
    page.click("next")
    same(page.run(chosen), "worker 0, result 0", "the tree after the file op")
    page.click("back")
    page.click("back")
    page.click("back")
    same(page.run(chosen), "worker 0, local", "the tree after steps back")
    page.example("first-run")
    same(page.run(chosen), "no tree is there yet", "the menu without a tree")


def an_idle_worker_has_nothing_to_give_up(page: Page) -> None:
    """Looks at *Give up*: it can be used only while the chosen worker runs a vertex."""
    page.example("tour")
    disabled = "document.getElementById('cancel').disabled"
    same(page.run(disabled), True, "Give up at the start")
    page.click("next")
    same(page.run(disabled), False, "Give up of worker 0, which runs vertex 0")
    page.press("1")
    same(page.run(disabled), True, "Give up of worker 1, which is idle")
    page.press("0")
    same(page.run(disabled), False, "Give up of worker 0 again")
    page.click("go")
    same((page.run(disabled), page.run("document.getElementById('step').disabled")), (True, True), "at the end")


def a_step_is_spoken(page: Page) -> None:
    """Reads what a screen reader is told after a step: the event, and what it changed."""
    page.example("tour")
    role = page.run("document.getElementById('spoken').getAttribute('role')")
    same(role, "status", "the role of the region")
    for _ in range(8):
        page.click("next")
    told = page.text("spoken")
    words = "event 8: worker 0, vertex 2: command 0: mkdir -p bin, status 0. It added /out/bin."
    same(told, words, "what is spoken")
    page.click("back")
    check("takes vertex 2" in page.text("spoken"), page.text("spoken"))


def controls_come_first_in_a_small_window(page: Page) -> None:
    """Looks at the page at 390 pixels: the buttons are seen at once, above the graph, and nothing is wider."""
    try:
        page.browser.size(*SMALLEST)
        page.example("execution")
        bottom = page.run("document.getElementById('cancel').getBoundingClientRect().bottom")
        check(bottom < SMALLEST[1] / 2, f"the last button ends at {bottom} pixels")
        top = page.run("document.getElementById('graph').getBoundingClientRect().top")
        check(top > bottom, f"the graph begins at {top} pixels")
        same(page.run("document.documentElement.scrollWidth"), SMALLEST[0], "the width")
        page.run("document.getElementById('open-view').showModal()")
        wider = "(e => e.scrollWidth - e.clientWidth)(document.getElementById('open-view'))"
        same(page.run(wider), 0, "how much wider Open is than its window")
    finally:
        page.browser.size(1280, 900)


CASES = (
    a_rule_is_named_in_its_sentence, an_archive_of_junk_is_no_tree, an_old_fault_goes_with_its_definition,
    garbage_needs_nothing_that_is_known, keys_work_wherever_the_focus_is, a_link_that_is_none,
    the_tree_is_that_of_the_event, an_idle_worker_has_nothing_to_give_up, a_step_is_spoken,
    controls_come_first_in_a_small_window,
)  # fmt: skip
