"""Tests in the browser of controls: what stays as it was set, files and links that are none, the focus, and sizes."""

import pathlib
import shutil
import tempfile

from llbm_tools.page import assets, foreign_cases
from llbm_tools.page.page_driver import NARROW, WIDE, Page, check, same
from llbm_tools.page.served_cases import served

OPEN_IS_SHOWN = "document.getElementById('open-view').open"
# Each target of a pointer that is smaller than 24 pixels: a control, or the label around it. A link in a text may be.
SMALL = """[...document.querySelectorAll('button, input, select, textarea, summary, #time-marks [role="button"] rect')]
  .filter((one) => one.checkVisibility({ checkVisibilityCSS: true }) && !one.closest('.hidden'))
  .map((one) => [one, (one.closest('label') ?? one).getBoundingClientRect()])
  .filter(([, { width, height }]) => width < 24 || height < 24)
  .map(([one, { width, height }]) => `${one.tagName}#${one.id}.${one.className} ${width} ${height}`)"""


def reopen(page: Page, name: str) -> None:
    """Opens an example beside what the page has, without loading the page anew."""
    page.click("to-open")
    page.choose("example", name)
    page.browser.wait(f"document.getElementById('open-view').dataset.example === '{name}'")
    page.settle()
    page.click("open-now")


def a_box_holds_for_the_next_definition(page: Page) -> None:
    """Ticks *Stop at failures*, and opens another definition: it stops there, too."""
    page.example("merge")
    page.run("document.getElementById('break-fail').click()")
    reopen(page, "failure")
    page.click("go")
    same(("failed by" in page.text("happened"), page.text("said")), (True, ""), "where it stopped, and what it said")
    page.click("go")
    check("complete" in page.text("said"), page.text("said"))


def a_file_that_cannot_be_read(page: Page) -> None:
    """Gives a file that the browser can't read: that is said, and what was there before is not opened."""
    page.load()
    page.choose("example", "tour")
    page.browser.wait("document.getElementById('open-view').dataset.example === 'tour'")
    page.run("File.prototype.arrayBuffer = () => Promise.reject(new Error('it is too large'))")
    page.give_file("huge.definition", b"x", "#definition-file")
    page.browser.wait("document.getElementById('open-said').textContent !== ''")
    same(page.text("open-said"), "huge.definition can't be read: it is too large", "what is said")
    same(page.run("[example.value, definition.value]"), ["", ""], "the menu and the field")
    page.submit()
    check(page.run(OPEN_IS_SHOWN), "a definition was opened")
    same(page.text("open-said"), "Give a definition first.", "what is said of none")


# Holds what a worker is to read as a tree, until a function is called.
HELD = """(() => {
  const post = Worker.prototype.postMessage;
  Worker.prototype.postMessage = function held(data, ...more) {
    const send = () => post.call(this, data, ...more);
    if (data?.call === 'tree') globalThis.llbmRead = send;
    else send();
  };
})()"""


def a_tree_that_is_read_is_named(page: Page) -> None:
    """Gives a tree and then another one, which takes long: its row names that one, and Open waits for it."""
    page.load()
    page.choose("example", "tour")
    page.browser.wait("document.querySelectorAll('.local').length === 1")
    page.run(HELD)
    page.give_file("slow.tree", b"d 0755 0 0 /\n", ".local input")
    page.browser.wait("document.querySelector('.local .note').textContent === 'slow.tree is being read …'")
    page.submit()
    check("slow.tree is being read" in page.text("open-said"), page.text("open-said"))
    page.run("globalThis.llbmRead()")
    page.browser.wait("document.querySelector('.local .note').textContent === 'slow.tree: 1 entry'")


def links_to_builds_that_are_not_there(page: Page) -> None:
    """Opens links to builds on a server of files, and one that carries nothing: each is refused in words."""
    page.awaited.append("404")
    for name in ("%", "nope"):
        page.load(f"#build={name}")
        told = page.text("open-said")
        check(told.startswith(f"The build {name} can't be opened: ") and "<" not in told, told)
    nothing = str(page.run("import('./share.mjs').then((share) => share.packed(null))"))
    page.load(nothing)
    same(page.text("open-said"), "The link is not readable: what it carries is not a session.", "a link of nothing")


def a_link_of_a_server_of_builds_has_no_secret(page: Page) -> None:
    """Shares a build of a server: the link has no address, since that has the part that can't be guessed."""
    with tempfile.TemporaryDirectory(prefix="llbm-kept-") as folder:
        copy = pathlib.Path(folder, "copies")
        shutil.copytree(assets.EXAMPLES / "copy", copy)
        with served(page, copy) as one:
            one.load("#build=copies")
            one.browser.wait("document.querySelectorAll('.box').length > 0")
            one.click("to-share")
            one.browser.wait("document.getElementById('share-view').open")
            link = str(one.run("document.getElementById('share-link').value"))
            check(link.startswith("#s="), f"the link {link[:60]}")
            check(one.run("!document.getElementById('share-secret').hidden"), "nothing says why")


def a_refused_definition_is_not_shared(page: Page) -> None:
    """Draws a definition that is refused: *Share* can't be used, also by its key."""
    page.example("merge")
    foreign_cases.draw(page, foreign_cases.foreign_definition())
    check(page.run("document.getElementById('to-share').disabled"), "it can be shared")
    page.press("h")
    check(not page.run("document.getElementById('share-view').open"), "the view Share is shown")


def a_folder_is_opened_while_a_step_is_looked_at(page: Page) -> None:
    """Opens each folder of a tree right after steps: nothing fails, and the tree is that of the last event."""
    page.example("tour")
    opened = "document.querySelectorAll('#tree details').forEach((one) => { one.open = !one.open; })"
    for _ in range(14):
        page.run(f"document.getElementById('next').click(); {opened}")
        page.run(opened)
    page.settle()
    page.click("back")
    page.browser.wait("document.querySelectorAll('#tree .path').length > 0")
    page.check_answers()


def without_a_definition_no_vertex_is_selected(page: Page) -> None:
    """Gives an empty file, which is not opened, closes *Open*, and presses the key that goes to the graph."""
    page.load()
    page.give_file("empty.definition", b"", "#definition-file")
    page.browser.wait("document.getElementById('locals').textContent === 'Give a definition first.'")
    page.submit()
    same((page.run(OPEN_IS_SHOWN), page.text("open-said")), (True, "Give a definition first."), "what is said of it")
    page.run("document.getElementById('open-view').close()")
    page.press("v")
    same(page.run("document.querySelectorAll('.box').length"), 0, "boxes")


def an_empty_number_of_workers_opens_nothing(page: Page) -> None:
    """Empties the field of workers: *Open* stays, and the field is what is wrong."""
    page.load()
    page.choose("example", "tour")
    page.browser.wait("document.querySelectorAll('.local').length === 1")
    page.run("document.getElementById('workers').value = ''")
    page.submit()
    check(page.run(OPEN_IS_SHOWN), "a definition was opened")
    same(page.run("document.querySelector('#open-form :invalid').id"), "workers", "the field that is wrong")


def the_focus_stays_at_the_beginning(page: Page) -> None:
    """Goes back to the beginning by its button, which can't be used there: the focus is on *Next*."""
    page.example("tour")
    page.press("n", "n")
    page.run("document.getElementById('first').focus()")
    page.click("first")
    same(page.run("document.activeElement.id"), "next", "the focus")


def the_graph_has_one_stop(page: Page) -> None:
    """Counts what the Tab key stops at in the graph: the selected vertex alone. An arrow moves it."""
    page.example("tour")
    stops = "[...document.querySelectorAll('#graph button')].filter((one) => one.tabIndex >= 0)"
    for key in ("v", "ArrowDown"):
        page.press(key)
        same(page.run(f"{stops}.length"), 1, "the stops")
        check(page.run(f"{stops}[0] === document.activeElement"), "the stop is not the selected vertex")


def targets_are_large_enough(page: Page) -> None:
    """Measures what can be pressed, in a wide and in a narrow window: 24 pixels at least."""
    try:
        for size in (WIDE, NARROW):
            page.browser.size(*size)
            page.load()
            same(page.run(SMALL), [], f"small targets of Open at {size[0]} pixels")
            page.example("failure", 3)
            page.click("go")
            page.run("document.querySelectorAll('details').forEach((one) => { one.open = true; })")
            page.settle()
            same(page.run(SMALL), [], f"small targets at {size[0]} pixels")
    finally:
        page.browser.size(*WIDE)


CASES = (
    a_box_holds_for_the_next_definition, a_file_that_cannot_be_read, a_tree_that_is_read_is_named,
    links_to_builds_that_are_not_there, a_link_of_a_server_of_builds_has_no_secret, a_refused_definition_is_not_shared,
    a_folder_is_opened_while_a_step_is_looked_at, without_a_definition_no_vertex_is_selected,
    an_empty_number_of_workers_opens_nothing, the_focus_stays_at_the_beginning, the_graph_has_one_stop,
    targets_are_large_enough,
)  # fmt: skip
