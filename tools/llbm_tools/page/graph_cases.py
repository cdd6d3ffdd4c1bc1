"""The graph as something to move in, in a browser: its size, its overview, the search for a vertex, and the panels."""

import pathlib
import subprocess

from llbm_tools.commands import line_of
from llbm_tools.page.large_page_cases import GIVE, MOST_VERTICES, PRESS, file_on, merge_of
from llbm_tools.page.page_driver import NARROW, WIDE, Page, check, same

LAYER = 300
SCALE = "Number(/scale\\((.*)\\)/.exec(document.getElementById('graph-layer').style.transform)[1])"
BOXES = "document.querySelectorAll('.box').length"
# The scale from which boxes are painted, as the page has it, and the size at which a graph is opened.
FAR, FULL = 0.45, 1
# Waits for the frame that shows what changed last, and for the overview, which is painted a little later.
SHOWN = "new Promise((done) => requestAnimationFrame(() => requestAnimationFrame(() => setTimeout(done, 200))))"
# Returns the colors of the pixels of a canvas that are not transparent, each once, as words of a style.
COLORS = """(id => {
  const canvas = document.getElementById(id);
  const { data } = canvas.getContext('2d').getImageData(0, 0, canvas.width, canvas.height);
  const found = new Set();
  for (let i = 0; i < data.length; i += 4) {
    if (data[i + 3] === 255) found.add(`rgb(${data[i]}, ${data[i + 1]}, ${data[i + 2]})`);
  }
  return [...found];
})"""
# Returns a color of the page's style as the pixels have it.
COLOR = """(name => {
  const probe = document.createElement('i');
  probe.style.color = `var(--${name})`;
  document.body.append(probe);
  const { color } = getComputedStyle(probe);
  probe.remove();
  return color;
})"""
# Presses, moves and lets go the mouse at places.
MOUSE = ("mousePressed", "mouseMoved", "mouseReleased")


def wide_text(count: int = LAYER) -> str:
    """Returns the text of file ops that are all inputs of one merge; each makes the file of its number."""
    text = "".join(file_on([], f"/file-{number}") for number in range(count)) + merge_of(list(range(count)))
    return text + f"op {{\n  inputs {{\n    digest %{count}\n  }}\n}}\n"


def open_text(page: Page, text: str) -> None:
    """Opens the text of a definition without local sources."""
    page.load()
    page.give_file("graph.text", text.encode(), "#definition-file")
    page.browser.wait("document.getElementById('locals').textContent === 'It needs none.'")
    page.submit()
    page.open_case(text.encode(), [], 2, True)


def frame(page: Page, name: str = "graph") -> tuple[float, float, float, float]:
    """Returns where an element is: its left, top, width and height."""
    place = f"document.getElementById('{name}').getBoundingClientRect()"
    found = page.run(f"(r => [r.left, r.top, r.width, r.height])({place})")
    left, top, width, height = (float(one) for one in found)
    return left, top, width, height


def type_in(page: Page, name: str, text: str) -> None:
    """Puts a text into a field, as if it were typed."""
    put = f"e.value = {text!r}; e.dispatchEvent(new Event('input'));"
    page.run(f"(e => {{ {put} }})(document.getElementById('{name}'))")


def drag(page: Page, start: tuple[float, float], end: tuple[float, float]) -> None:
    """Presses the mouse at a place, and lets it go at another one."""
    for kind, (x, y) in zip(MOUSE, (start, end, end)):
        given = {"type": kind, "x": x, "y": y, "button": "left", "buttons": 1, "clickCount": 1}
        page.browser.send("Input.dispatchMouseEvent", given)


def a_graph_gets_larger_and_smaller(page: Page) -> None:
    """Zooms by buttons and keys: what is in the middle stays there, and from afar boxes are painted."""
    open_text(page, wide_text())
    same(page.run(SCALE), FULL, "the scale at the start")
    page.run("document.getElementById('graph').scrollTo(900, 300)")
    middle = "(f => (f.scrollLeft + f.clientWidth / 2) / (%s))(document.getElementById('graph'))" % SCALE
    before = float(page.run(middle))
    page.press("+")
    check(float(page.run(SCALE)) > FULL, "the key + makes nothing larger")
    check(abs(float(page.run(middle)) - before) < 2, f"the middle moved from {before} to {page.run(middle)}")
    page.run("document.getElementById('zoom-full').click()")
    same(page.text("zoom"), "100 %", "the size after Full size")
    page.press("z")
    page.run(SHOWN)
    scale = float(page.run(SCALE))
    check(scale < FAR, f"the whole graph is shown at {scale}")
    same(page.run(BOXES), 0, "boxes in the page from afar")
    over = "(f => [f.scrollWidth - f.clientWidth, f.scrollHeight - f.clientHeight])"
    sizes = page.run(f"{over}(document.getElementById('graph'))")
    check(max(sizes) <= 1, f"parts of the whole graph are not seen: {sizes}")
    ready = page.run(f"{COLOR}('ready-box')")
    check(ready in page.run(f"{COLORS}('graph-far')"), "no box that is ready is painted")
    page.press("Z")
    page.browser.wait(f"{BOXES} > 0")
    check(0 < int(page.run(BOXES)) < 150, f"{page.run(BOXES)} boxes at full size")
    page.click("next")
    page.check_answers()


def a_painted_vertex_is_selected(page: Page) -> None:
    """Presses a vertex that is painted, and beside one: the first is selected; a drag moves the window."""
    open_text(page, wide_text())
    page.press("z", "+", "+")
    page.run(SHOWN)
    left, top, width, height = frame(page)
    drag(page, (left + width / 2, top + height / 2), (left + width / 2 + 60, top + height / 2 - 40))
    moved = page.run("(f => [f.scrollLeft, f.scrollTop])(document.getElementById('graph'))")
    page.run("document.getElementById('graph').scrollTo(0, 0)")
    check(moved != [0, 0], "a drag does not move the window")
    scale = float(page.run(SCALE))
    offset = float(page.run("document.getElementById('graph-space').offsetLeft"))
    at = (left + offset + (24 + 168 / 2) * scale, top + (24 + 54 / 2) * scale)
    drag(page, at, at)
    page.browser.wait("document.querySelector('.box.selected') !== null")
    chosen = int(page.run("document.querySelector('.box.selected').dataset.vertex"))
    same(page.run(BOXES), 1, "boxes in the page: the selected one")
    check(page.text("vertex-details").startswith(f"{chosen} file"), page.text("vertex-details"))


def the_overview_moves_the_window(page: Page) -> None:
    """Presses the overview at its lower end: the window is there; of a graph that is seen as a whole there is none."""
    open_text(page, wide_text())
    page.run(SHOWN)
    same(page.run("document.getElementById('overview').hidden"), False, "the overview is hidden")
    check(page.run(f"{COLOR}('ready')") in page.run(f"{COLORS}('overview')"), "no vertex is ready there")
    left, top, width, height = frame(page, "overview")
    at = (left + width / 2, top + height - 2)
    drag(page, at, at)
    page.browser.wait("(f => f.scrollTop + f.clientHeight >= f.scrollHeight - 1)(document.getElementById('graph'))")
    page.press("z")
    page.run(SHOWN)
    same(page.run("document.getElementById('overview').hidden"), True, "the overview of what is all seen")


def a_vertex_is_searched(page: Page) -> None:
    """Searches vertices by what they do, by number and by status: they are marked, and Enter goes to the next one."""
    open_text(page, wide_text())
    page.press("z", "w")
    same(page.run("document.activeElement.id"), "find", "the focus after w")
    for text, count in (("file-29", "11 vertices"), ("mkfile /file-299", "1 vertex"), ("300", "1 vertex"),
                        ("ready", "300 vertices"), ("nothing of the kind", "0 vertices")):  # fmt: skip
        type_in(page, "find", text)
        page.browser.wait(f"document.getElementById('find-said').textContent === {count!r}")
    type_in(page, "find", "file-29")
    for wanted in (29, 290):
        page.press("Enter")
        page.browser.wait(f"document.querySelector('.box.selected')?.dataset.vertex === '{wanted}'")
    check(page.run("document.querySelector('.box.selected.found') !== null"), "what was found is not marked")
    same(page.run(SCALE), FULL, "the scale after a vertex was gone to")
    inside = "(b => (r => r.top >= b.top && r.bottom <= b.bottom && r.left >= b.left && r.right <= b.right)"
    inside += "(document.querySelector('.box.selected').getBoundingClientRect()))"
    check(page.run(f"{inside}(document.getElementById('graph').getBoundingClientRect())"), "the vertex is not seen")
    page.run("document.querySelector('#find-found button').click()")
    same(page.run("document.querySelector('.box.selected').dataset.vertex"), "29", "the first one of the list")


def a_label_is_as_wide_as_there_is_room(page: Page) -> None:
    """Opens a chain of long paths: no label is cut, where there is room for it."""
    named = [file_on([number - 1] if number else [], f"/a-rather-long-name-of-a-file/{number}") for number in range(6)]
    open_text(page, "".join(named) + "op {\n  inputs {\n    digest %5\n  }\n}\n")
    cut = "[...document.querySelectorAll('.vertex-line')].filter(e => e.scrollWidth > e.clientWidth).length"
    same(page.run(cut), 0, "labels that are cut in a wide window")
    try:
        page.browser.size(*NARROW)
        open_text(page, wide_text(5))
        same(page.run("document.documentElement.scrollWidth"), NARROW[0], "the width of a narrow page")
    finally:
        page.browser.size(*WIDE)


def panels_have_other_sizes(page: Page) -> None:
    """Drags and steps the lines between panels: the panels change, and a reload finds them so."""
    page.example("tour")
    _, _, before, _ = frame(page, "graph-view")
    left, top, width, height = frame(page, "split-changes")
    drag(page, (left + width / 2, top + height / 2), (left + width / 2 + 120, top + height / 2))
    _, _, after, _ = frame(page, "graph-view")
    check(110 < after - before < 130, f"the graph was {before} wide, and is {after}")
    page.run("document.getElementById('split-changes').focus()")
    page.press("ArrowLeft")
    _, _, stepped, _ = frame(page, "graph-view")
    check(stepped < after, f"an arrow moves nothing: {after}, {stepped}")
    same(page.place(), (0, 0), "the place: an arrow on the line is no step back or on")
    page.example("tour")
    _, _, kept, _ = frame(page, "graph-view")
    check(abs(kept - stepped) < 2, f"after a reload the graph is {kept} wide, and was {stepped}")
    page.run("localStorage.clear()")


def the_largest_graph_as_a_whole(page: Page) -> None:
    """Shows 65,535 vertices as a whole: they are painted, a failure-free step changes the picture, one is gone to."""
    page.load()
    place = pathlib.Path(page.folder) / "whole.definition"
    words = line_of("large definition", "pairs", str(MOST_VERTICES))
    place.write_bytes(subprocess.run(words, check=True, capture_output=True).stdout)
    known = "document.getElementById('definition-said').textContent !== ''"
    page.run(GIVE % (place.name, place.name, "#definition-file", known))
    page.run(PRESS % "open-now")
    page.settle()
    page.run("document.getElementById('zoom-fit').click()")
    page.run(SHOWN)
    same(page.run(BOXES), 0, "boxes of the whole graph in the page")
    drawing = []
    for _ in range(6):
        page.click("next")
        page.run(SHOWN)
        drawing.append(float(page.run("document.getElementById('graph').dataset.drawing")))
    page.measure("painting 65,535 vertices as a whole", drawing)
    check(int(page.run(BOXES)) <= 1, "more than the selected box is in the page")
    for status, name in (("done", "graph-far"), ("waiting", "overview")):
        color, colors = page.run(f"{COLOR}('{status}')"), page.run(f"{COLORS}('{name}')")
        check(color in colors, f"no vertex that is {status} is in {name}")
    type_in(page, "find", str(MOST_VERTICES - 1))
    page.browser.wait("/^[0-9,]+ vert/.test(document.getElementById('find-said').textContent)")
    page.run("document.querySelector('#find-form button').click()")
    page.browser.wait("document.querySelector('.box.selected') !== null")
    place.unlink()


CASES = (
    a_graph_gets_larger_and_smaller, a_painted_vertex_is_selected, the_overview_moves_the_window, a_vertex_is_searched,
    a_label_is_as_wide_as_there_is_room, panels_have_other_sizes, the_largest_graph_as_a_whole,
)  # fmt: skip
