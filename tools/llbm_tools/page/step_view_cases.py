"""Tests in the browser of what a step did, of holders of caches, and of the search over all steps."""

import base64

from llbm_tools.page.page_driver import Page, check, same

# A picture of one red point, as PNG.
POINT = base64.b64decode(
    "iVBORw0KGgoAAAANSUhEUgAAAAEAAAABCAYAAAAfFcSJAAAADUlEQVR42mP8z8BQDwAEhQGAhKmMIQAAAABJRU5ErkJggg=="
)
# The cells of each row of a difference.
ROWS = "[...document.querySelectorAll('.contents tbody tr')].map(r => [...r.cells].map(c => c.textContent))"
LINES = [f"line {number}" for number in range(1, 61)]
# A local source, and an execution that copies a picture, changes a mode, and changes one line of a text.
STEPS = """op {
  source {
    identifier "local://p"
  }
}
op {
  inputs {
    digest %0
  }
  exec {
    meta {
      args "/bin/sh"
      args "-c"
      args "cp /point.png /copy.png && chmod 0600 /text && append /text end"
      cwd "/"
    }
    mounts {
      dest "/"
    }
  }
}
op {
  inputs {
    digest %1
  }
}
"""


def open_steps(page: Page) -> None:
    """Opens a definition on a tree with a picture and a text of 60 lines."""
    text = "".join(f"{line}\n" for line in LINES).encode()
    tree = f"d 0755 0 0 /\nf 0644 0 0 {POINT.hex()} /point.png\nf 0644 5 6 {text.hex()} /text\n".encode()
    page.load()
    page.give_file("steps.text", STEPS.encode(), "#definition-file")
    page.browser.wait("document.querySelectorAll('.local').length === 1")
    page.give_file("p.tree", tree, ".local input")
    page.browser.wait("document.querySelector('.local').textContent.includes('3 entries')")
    page.submit()
    page.open_case(STEPS.encode(), [("p", tree)], 2, True)
    for _ in range(4):
        page.click("next")


def summary(page: Page) -> list[str]:
    """Returns the summary of what changed."""
    return list(page.run("[...document.querySelectorAll('#changes .summary li')].map(e => e.textContent)"))


def a_summary_and_a_picture(page: Page) -> None:
    """Steps over a copy of a picture and a change of a mode: a summary each, and the picture is shown."""
    open_steps(page)
    page.click("next")
    same(summary(page), ["1 file added", f"{len(POINT)} bytes more"], "the summary of the copy")
    page.run("document.querySelector('.change').open = true")
    page.browser.wait("document.querySelector('.pictures img')?.complete === true")
    same(page.run("document.querySelector('.pictures img').naturalWidth"), 1, "the width of the picture")
    same(page.run("document.querySelectorAll('.pictures figcaption')[0].textContent"), "before: none", "before")
    page.click("next")
    same(summary(page), ["1 file changed", "as many bytes", "1 mode changed"], "the summary of the mode")
    whole = page.run("[...document.querySelectorAll('#tree > .summary li')].map(e => e.textContent)")
    same(whole[:2], ["3 files", "1 directory"], "the summary of the tree")
    check("2 owners" in whole, f"the owners {whole}")
    page.check_answers()


def differences_by_line(page: Page) -> None:
    """Steps over a change of the last line of a text: it is shown with its number, and most of the others are not."""
    open_steps(page)
    for _ in range(3):
        page.click("next")
    same(page.changes(), ["changed /text"], "what changed")
    page.run("document.querySelector('.change').open = true")
    page.browser.wait("document.querySelectorAll('.contents tbody tr').length > 0")
    rows = page.run(ROWS)
    same(rows[0], ["57 lines the same"], "the first row")
    same(rows[-1], ["", "", "61", "end"], "the last row")
    same(rows[-2], ["60", "line 60", "60", "line 60"], "the row before")


def the_holder_of_a_cache(page: Page) -> None:
    """Looks at the row of a locked cache: a bar for each hold, with the worker that holds it."""
    page.example("cache")
    page.click("go")
    words = page.run("[...document.querySelectorAll('.held title')].map(e => e.textContent)")
    check(len(words) == 2 and words[0].startswith("cache objects (locked): worker 0 holds it for vertex 0"), words)
    same(page.run("[...document.querySelectorAll('.held-by')].map(e => e.textContent)"), ["w0", "w0"], "the holders")
    labels = page.run("[...document.querySelectorAll('.label text')].map(e => e.textContent)")
    check("objects" in labels, f"the rows {labels}")
    page.click("first")
    page.press("1", "s", "s")
    same(page.run("document.querySelectorAll('.held-by')[0].textContent"), "w1", "the holder on another way")


def which_step_made_a_path(page: Page) -> None:
    """Searches a path at the beginning: the step that will make it is found, and a press goes there."""
    page.example("tour")
    page.press("/")
    same(page.run("document.activeElement.id"), "search", "the focus after /")
    page.run("document.getElementById('search').value = '/out/bin'")
    page.run("document.querySelector('#search-form button').click()")
    page.browser.wait("document.querySelectorAll('#found button').length === 4")
    found = page.run("[...document.querySelectorAll('#found button')].map(e => e.textContent)")
    first = "added /out/bin: event 8: worker 0, vertex 2: command 0: mkdir -p bin, status 0"
    same(found[0], first, "the first find")
    others = ["added /out/bin/all", "added /out/bin/sum", "changed /out/bin/all"]
    same([one.split(":")[0] for one in found[1:]], others, "the other finds")
    page.run("document.querySelector('#found button').click()")
    page.settle()
    same((page.place()[0], page.changes()), (8, ["added /out/bin"]), "the place of the find")
    page.click("first")
    page.run("document.getElementById('search').value = 'nowhere'")
    page.run("document.querySelector('#search-form button').click()")
    page.browser.wait("document.getElementById('found-said').textContent.startsWith('0 changes')")


CASES = (
    a_summary_and_a_picture, differences_by_line, the_holder_of_a_cache, which_step_made_a_path,
)  # fmt: skip
