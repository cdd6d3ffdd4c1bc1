"""Tests in the browser of builds that the page's server has: a link opens one, and Next follows its record."""

import contextlib
import pathlib
import shutil
import tempfile
from collections.abc import Iterator

from llbm_tools.page import assets, module_cases, server
from llbm_tools.page import buildkit_notes as page_notes
from llbm_tools.page.page_driver import Page, check, same

KEPT = "llbmd-kept-builds"
# A run of the example `cache` by two workers that the machine would not choose.
COMMANDS = b"claim 1 0\nstep 1\nstep 1\nsettle 1\nnext\nnext\ngo\n"
FIRST = ["claim 1 0", "step 1", "step 1", "settle 1"]
NOTED = """op {
  file {
    actions {
      input -1
      secondaryInput -1
      mkfile {
        path "/f"
        mode 1023
        owner {
          user {
            byID 7
          }
        }
        timestamp 5
      }
    }
  }
}
op {
  inputs {
    digest %0
  }
}
"""


def kept_build(page: Page, folder: pathlib.Path) -> list[str]:
    """Makes a folder as llbmd keeps them, with a build of the example `cache`, and returns the lines of its record."""
    shown = assets.shown(next(one for one in assets.MENU if one.name == "cache"))
    text = shown.definition.read_bytes()
    data = module_cases.program_answer(page.program, module_cases.Case("", "asm", text, [], 1, b"")).out
    answer = module_cases.program_answer(page.program, module_cases.Case("", "step", data, [], 2, COMMANDS))
    record = [line for line in answer.out.decode().splitlines() if " -> " in line]
    place = folder / "a-ref" / "1"
    place.mkdir(parents=True)
    (folder / KEPT).touch()
    (place / "definition").write_bytes(data)
    (place / "record").write_text("".join(f"{line}\n" for line in record))
    (place / "sources").write_text("")
    return record


@contextlib.contextmanager
def served(page: Page, *places: pathlib.Path) -> Iterator[Page]:
    """Serves the page with builds, and yields it."""
    files, module = assets.files(None), page.folder / assets.MODULE
    notes = page_notes.notes_of
    site = server.Site(files, module, list(map(str, places)), lambda build: notes(build, page.program))
    with server.serving(site, 0) as link:
        yield Page(page.browser, link, page.program, page.folder)


def a_record_is_stepped_through(page: Page) -> None:
    """Opens a kept build by a link: forth and back are the events of its record, whatever the machine would choose."""
    with tempfile.TemporaryDirectory(prefix="llbm-kept-") as folder:
        record = kept_build(page, pathlib.Path(folder))
        with served(page, pathlib.Path(folder)) as one:
            one.load("#build=a-ref%2F1")
            one.settle()
            same(one.place(), (0, len(record)), "the place at the start")
            commands = [line.split(" ", 1)[1].split(" -> ")[0] for line in record]
            for number in range(1, 6):
                one.click("next")
                same(one.record(), commands[:number], f"the record after {number} steps")
            one.click("back")
            one.click("back")
            one.click("next")
            same(one.record(), FIRST, "the record after steps back and one forth")
            one.click("go")
            same(one.record(), commands, "the whole record")
            one.click("first")
            one.run("document.querySelector('[data-vertex=\"1\"] .mark').click()")
            one.click("go")
            same(one.record()[-1].split()[0], "claim", "where Go stopped at a breakpoint")
            same(one.browser.faults, [], "faults of the page's code")


def a_record_of_another_run_is_told(page: Page) -> None:
    """Opens a build whose record has another reply: the page says where the machine differs."""
    with tempfile.TemporaryDirectory(prefix="llbm-kept-") as folder:
        record = kept_build(page, pathlib.Path(folder))
        file = pathlib.Path(folder, "a-ref", "1", "record")
        file.write_text("".join(f"{line}\n" for line in record).replace("ran 1 0", "ran 1 1", 1))
        with served(page, pathlib.Path(folder)) as one:
            one.load("#build=a-ref%2F1")
            one.click("go")
            check("The record has" in one.text("said") and "the machine says" in one.text("said"), one.text("said"))


def builds_are_listed(page: Page) -> None:
    """Opens a build by the menu, a folder with a definition and trees, and a name that no build has."""
    with tempfile.TemporaryDirectory(prefix="llbm-kept-") as folder:
        kept_build(page, pathlib.Path(folder))
        copy = pathlib.Path(folder, "copies")
        shutil.copytree(assets.EXAMPLES / "copy", copy)
        with served(page, pathlib.Path(folder), copy) as one:
            page.awaited.append("404 (Not Found)")
            one.load("#build=nothing")
            check("can't be opened" in one.text("open-said"), one.text("open-said"))
            one.browser.wait("document.querySelectorAll('#build option').length === 3")
            labels = one.run("[...document.querySelectorAll('#build optgroup')].map(group => group.label)")
            check(len(labels) == 1 and labels[0].startswith("a-ref, ") and "20" in labels[0], f"the groups {labels}")
            one.run("globalThis.llbmTranscript = []")
            one.choose("build", "copies")
            one.browser.wait("location.hash === '#build=copies' && document.querySelectorAll('.box').length > 0")
            one.settle()
            one.click("go")
            check("complete" in one.text("said"), one.text("said"))


def notes_stand_at_their_vertex_and_step(page: Page) -> None:
    """Opens a definition whose fields BuildKit takes otherwise: notes at the box, at the vertex and at the action."""
    with tempfile.TemporaryDirectory(prefix="llbm-kept-") as folder:
        place = pathlib.Path(folder, "noted")
        place.mkdir()
        (place / "definition.text").write_text(NOTED)
        with served(page, place) as one:
            one.load("#build=noted")
            one.browser.wait("document.querySelector('.vertex-name')?.textContent === '0 file ≠'")
            for _ in range(2):
                one.click("next")
            one.browser.wait("document.querySelectorAll('#step-notes li').length >= 2")
            told = one.text("step-notes")
            check("Timestamp action 0 has no effect here; in BuildKit: the time of the file." in told, told)
            check("BuildKit: " in told and "Mode" in told and "Owner" in told, told)
            check("Timestamp action 0" in one.text("vertex-details"), one.text("vertex-details"))
            one.click("back")
            same(one.text("step-notes"), "", "the notes of the claim")


CASES = (
    a_record_is_stepped_through, a_record_of_another_run_is_told, builds_are_listed,
    notes_stand_at_their_vertex_and_step,
)  # fmt: skip
