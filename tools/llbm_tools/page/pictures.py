"""Pictures of the views of the page: for its docs, and of all that a person looks at first in each size and color."""

import pathlib
from collections.abc import Callable

from llbm_tools.page.graph_cases import open_text, wide_text
from llbm_tools.page.page_driver import NARROW, WIDE, Page

# Waits for the frames that show what changed last.
SHOWN = "new Promise((done) => requestAnimationFrame(() => requestAnimationFrame(() => setTimeout(done, 150))))"


# The window of the picture in README.
FIRST = (1160, 780)


def show_start(page: Page) -> None:
    """Shows what the page opens without a link."""
    page.load("")
    page.settle()


def show_failure(page: Page) -> None:
    """Shows a vertex that failed."""
    page.example("failure")
    page.run("document.getElementById('break-fail').click()")
    page.click("go")


def show_wide_graph(page: Page) -> None:
    """Shows 301 vertices as a whole, some of which are done."""
    open_text(page, wide_text())
    for _ in range(60):
        page.click("all")
    page.run("document.getElementById('zoom-fit').click()")


def show_two_orders(page: Page) -> None:
    """Shows two orders of one run side by side."""
    page.load("")
    page.settle()
    page.click("go")
    page.click("first")
    page.click("shuffle")
    page.choose("order", "0")
    page.click("compare")
    page.browser.wait("document.getElementById('orders-said').textContent.includes('Of the')")
    page.run("document.getElementById('orders-said').scrollIntoView({ block: 'start' })")


VIEWS: tuple[tuple[str, Callable[[Page], None]], ...] = (
    ("start", show_start), ("failure", show_failure), ("wide-graph", show_wide_graph), ("two-orders", show_two_orders),
)  # fmt: skip


def take_all(page: Page, folder: pathlib.Path) -> None:
    """Writes pictures of the page, wide and narrow, light and dark, into a folder."""
    for size, width in (("wide", WIDE), ("narrow", NARROW)):
        for colors in ("light", "dark"):
            page.browser.size(*width, is_dark=colors == "dark")
            for name, show in VIEWS:
                show(page)
                page.run(SHOWN)
                (folder / f"{name}-{size}-{colors}.png").write_bytes(page.browser.picture())
    page.browser.size(*WIDE)


def take_pictures(page: Page, folder: pathlib.Path) -> None:
    """Writes pictures of the views, for the docs."""

    def keep(name: str, of: str = "") -> None:
        page.run(SHOWN)
        (folder / f"page-{name}.png").write_bytes(page.browser.picture(of))

    page.browser.size(*FIRST)
    show_start(page)
    keep("start", "views")
    page.browser.size(*WIDE)
    page.load()
    page.choose("example", "tour")
    page.browser.wait("document.querySelectorAll('.local').length === 1")
    keep("open", "open-view")
    page.example("tour")
    for _ in range(4):
        page.click("next")
    page.click("back")
    page.choose("worker", "1")
    for _ in range(3):
        page.click("step")
    for _ in range(3):
        page.click("next")
    page.run("document.querySelectorAll('.change').forEach((one) => { one.open = true; })")
    keep("graph", "views")
    page.press("h")
    page.browser.wait("document.getElementById('share-view').open")
    keep("share", "share-view")
    page.browser.size(*NARROW)
    show_failure(page)
    page.browser.wait("document.getElementById('cause').textContent.includes('No step before it')")
    page.run("document.getElementById('changes-view').scrollIntoView()")
    keep("failure")
    page.browser.size(*NARROW, is_dark=True)
    page.example("cache")
    for _ in range(2):
        page.click("next")
    page.run("document.querySelectorAll('.change').forEach((one) => { one.open = true; })")
    page.run("document.getElementById('changes-view').scrollIntoView()")
    keep("changes")
    page.browser.size(*WIDE)
