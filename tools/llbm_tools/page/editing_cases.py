"""The start of the page, and the definition beside the graph, which is edited, in a browser."""

from llbm_tools.page import assets, module_cases
from llbm_tools.page.page_driver import NARROW, WIDE, Page, check, same

LIVE = "workers"
WORKERS = 3
EDITED = "document.body.dataset.edited === 'yes'"
TEXT = "document.getElementById('text').value"


def write(page: Page, text: str) -> None:
    """Puts a text into the field beside the graph, and waits until the page has read it."""
    put = f"e.focus(); e.value = {text!r}; e.dispatchEvent(new Event('input'));"
    page.run(f"(e => {{ {put} }})(document.getElementById('text'))")
    page.browser.wait(EDITED)
    page.settle()


def open_live(page: Page) -> str:
    """Loads the page without a link, and returns the text of its example."""
    page.load("")
    page.settle()
    shown = assets.shown(next(one for one in assets.MENU if one.name == LIVE))
    return shown.definition.read_text("utf-8")


def the_page_opens_on_an_example_that_runs(page: Page) -> None:
    """Loads the page without a link: an example runs, on several workers, with its definition beside it."""
    text = open_live(page)
    check(not page.run("document.getElementById('open-view').open"), "the view Open is shown")
    same(page.run("document.querySelectorAll('.box.running').length"), WORKERS, "vertices that run")
    same(page.run("document.querySelectorAll('#worker option').length"), WORKERS, "workers")
    same(page.run(TEXT), text, "the text beside the graph")
    place = page.place()[0]
    page.click("next")
    same(page.place()[0], place + 1, "the place after a step")
    page.browser.wait(f"document.body.dataset.kept === '{place + 1}'")
    page.load(str(page.run("location.hash")))
    same((page.place()[0], page.run(TEXT)), (place + 1, text), "the place and the text after a reload")
    same(page.browser.faults, [], "faults of the page's code")


def the_text_is_edited(page: Page) -> None:
    """Edits a path of the definition: the graph has it at once, the record goes on as far as before."""
    text = open_live(page)
    record = page.record()
    edited = text.replace('path "/out/version"', 'path "/out/release"').replace("/out/tested ok", "/out/tested well")
    write(page, edited)
    same(page.text("text-said"), "", "what is said of a text that is taken")
    same(page.record(), record, "the record after an edit")
    lines = page.run("[...document.querySelectorAll('.vertex-line')].map(e => e.textContent)")
    check("mkfile /out/release" in lines, f"the boxes {lines}")
    same(page.run(TEXT), edited, "the text stays as it was written")
    page.run("document.getElementById('text').blur()")
    page.click("go")
    page.click("back")
    same(page.changes(), ["added /out/release"], "what the last action changed")
    given = [(name, file.read_bytes()) for name, file in assets.shown(assets.MENU[0]).locals.items()]
    wanted = module_cases.program_answer(page.program, module_cases.Case("", "asm", edited.encode(), [], 1, b"")).out
    page.given = module_cases.Case("", "step", wanted, given, WORKERS, b"")
    page.click("to-share")
    share = str(page.run("document.getElementById('share-text').value"))
    dis = module_cases.program_answer(page.program, page.given._replace(command="dis", locals=[])).out.decode()
    same(share, dis, "the text that is shared")


def a_faulty_line_is_marked(page: Page) -> None:
    """Writes a faulty line, and a definition that is refused: the line is named, and the graph stays as it was."""
    text = open_live(page)
    write(page, text.replace("      cwd", "      pwd", 1))
    told = page.text("text-said")
    wrong = text.splitlines().index('      cwd "/"') + 1
    check(told.startswith(f"Line {wrong}: fault 161") and "UnknownField" in told, told)
    same(page.run("document.getElementById('text-bad').hidden"), False, "the mark of the line is hidden")
    same(page.run("document.querySelectorAll('.box.running').length"), WORKERS, "vertices that run, as before")
    write(page, text.replace("local://project", "local://another"))
    check("fault 121 another" in page.text("text-said"), page.text("text-said"))
    write(page, text)
    same(page.text("text-said"), "", "what is said once it is right again")
    same(page.browser.faults, [], "faults of the page's code")


def the_text_and_the_graph_go_together(page: Page) -> None:
    """Selects a vertex: its lines are marked; a press on a line selects its vertex."""
    text = open_live(page)
    page.run("document.querySelector('[data-vertex=\"7\"] .vertex').click()")
    same(page.run("document.getElementById('text-mark').hidden"), False, "the mark is hidden")
    inside = "(m => m.top >= 0 && m.bottom <= innerHeight)"
    mark = "document.getElementById('text-mark').getBoundingClientRect()"
    check(page.run(f"{inside}({mark})"), "the marked lines are not in sight")
    at = text.index("/out/tested")
    page.run(f"(e => {{ e.setSelectionRange({at}, {at}); e.click(); }})(document.getElementById('text'))")
    same(page.run("document.querySelector('.box.selected').dataset.vertex"), "5", "the vertex of the line")
    page.run("document.getElementById('graph').focus()")
    page.run("document.activeElement.blur()")
    page.press("e")
    same(page.run("document.getElementById('definition-view').checkVisibility()"), False, "the text after e")
    page.load("")
    same(page.run("document.getElementById('definition-view').checkVisibility()"), False, "the text after a reload")
    page.run("localStorage.clear()")
    try:
        page.browser.size(*NARROW)
        page.load("")
        same(page.run("document.documentElement.scrollWidth"), NARROW[0], "the width of a narrow page")
        page.press("e")
        same(page.run("document.documentElement.scrollWidth"), NARROW[0], "the width of a narrow page with the text")
    finally:
        page.run("localStorage.clear()")
        page.browser.size(*WIDE)


CASES = (
    the_page_opens_on_an_example_that_runs, the_text_is_edited, a_faulty_line_is_marked,
    the_text_and_the_graph_go_together,
)  # fmt: skip
