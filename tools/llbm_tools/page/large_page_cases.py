"""The page with many vertices, and with a tree of many files."""

import pathlib
import subprocess
import time

from llbm_tools.commands import line_of
from llbm_tools.page.page_driver import Page, check, same

FILES = 2000
SEARCHED = 700
# What a definition can have at most, with the last entry.
MOST_VERTICES = 65535
ALL_FILES = 100000
LONG = 20000
# A move over 196,605 events is done in slices of at most so many events, between which the page does what else there is
# to do, and what it passed goes to the worker in pieces of at most so many lines. How long it takes is not tested, nor
# how many frames a busy host draws meanwhile.
MOST_EVENTS, MOST_LINES = 500, 5000
LEAST_TURNS = 5


def merge_of(inputs: list[int]) -> str:
    """Returns the text of a merge of entries."""
    edges = "".join(f"  inputs {{\n    digest %{one}\n  }}\n" for one in inputs)
    parts = "".join("    inputs {\n" + (f"      input {i}\n" if i else "") + "    }\n" for i in range(len(inputs)))
    return f"op {{\n{edges}  merge {{\n{parts}  }}\n}}\n"


def file_on(inputs: list[int], path: str) -> str:
    """Returns the text of a file op that makes a file on the first of its inputs, or on the empty tree."""
    edges = "".join(f"  inputs {{\n    digest %{one}\n  }}\n" for one in inputs)
    on = "" if inputs else "      input -1\n"
    action = f"    actions {{\n{on}      mkfile {{\n        path \"{path}\"\n      }}\n    }}\n"
    return f"op {{\n{edges}  file {{\n{action}  }}\n}}\n"


def many(files: int = FILES) -> str:
    """Returns the text of 2,000 or other file ops, each on two others, and of three merges that need all of them."""
    text = [file_on([], "/0")]
    text += [file_on(sorted({(number - 1) // 2, number // 3}), f"/{number}") for number in range(1, files)]
    half = files // 2
    text += [merge_of(list(range(half))), merge_of(list(range(half, files))), merge_of([files, files + 1])]
    return "".join(text) + f"op {{\n  inputs {{\n    digest %{files + 2}\n  }}\n}}\n"


def many_vertices(page: Page) -> None:
    """Opens 2,003 vertices: only what is seen is in the page, and frames are short while it is scrolled."""
    text = many().encode()
    page.load()
    page.give_file("many.text", text, "#definition-file")
    page.browser.wait("document.querySelector('#locals .note') !== null")
    page.submit()
    page.open_case(text, [], 2, True)
    check("2003 vertices" in page.text("graph-size"), page.text("graph-size"))
    seen = int(page.run("document.querySelectorAll('.box').length"))
    check(0 < seen < 200, f"{seen} boxes are in the page")
    frames, drawing = page.run(SCROLL)
    page.measure("a frame over 2,003 vertices", frames)
    page.measure("drawing in it", drawing)
    seen = int(page.run("document.querySelectorAll('.box').length"))
    check(0 < seen < 200, f"{seen} boxes are in the page after scrolling")
    for _ in range(5):
        page.click("next")
    page.check_answers()


# Scrolls over the graph, and returns how long each frame and the page's own code in it took.
SCROLL = """new Promise((done) => {
  const frame = document.getElementById('graph');
  const [frames, drawing] = [[], []];
  let last = performance.now();
  const step = (now) => {
    frames.push(now - last);
    last = now;
    frame.scrollTop += 60;
    frame.scrollLeft += 20;
    drawing.push(Number(frame.dataset.drawing));
    if (frames.length < 60) requestAnimationFrame(step); else done([frames.slice(2), drawing.slice(2)]);
  };
  requestAnimationFrame(step);
})"""


# A local source, and an execution that adds a file, removes one and changes one.
EDITS = """op {
  source {
    identifier "local://p"
  }
}
op {
  inputs {
    digest %0
  }
  exec {
    meta {
      args "/bin/sh"
      args "-c"
      args "write /d07/new 1 && rm /d08/f01 && append /d09/f02 more"
      cwd "/"
    }
    mounts {
      dest "/"
    }
  }
}
op {
  inputs {
    digest %1
  }
}
"""


def many_files(page: Page) -> None:
    """Steps over a tree of 5,000 files."""
    tree = "d 0755 0 0 /\n"
    for folder in range(50):
        tree += f"d 0755 0 0 /d{folder:02}\n"
        tree += "".join(f"f 0644 0 0 {folder * 100 + i:08x} /d{folder:02}/f{i:02}\n" for i in range(100))
    text = EDITS
    page.load()
    page.give_file("files.text", text.encode(), "#definition-file")
    page.browser.wait("document.querySelectorAll('.local').length === 1")
    page.give_file("p.tree", tree.encode(), ".local input")
    page.browser.wait("document.querySelector('.local .note').textContent.includes('5051 entries')")
    page.submit()
    page.open_case(text.encode(), [("p", tree.encode())], 2, True)
    spent: list[float] = []
    changes: list[str] = []
    for _ in range(8):
        page.click("next")
        spent.append(float(page.run("document.body.dataset.spent")))
        changes += page.changes()
    page.measure("a step over 5,000 files", spent)
    same(changes, ["added /d07/new", "removed /d08/f01", "changed /d09/f02"], "what changed")
    page.check_answers()


# Gives a file that the page's server has to a field, and returns the time until a condition is true, in milliseconds.
GIVE = """(async () => {
  const bytes = await (await fetch('%s')).arrayBuffer();
  const given = new DataTransfer();
  given.items.add(new File([bytes], '%s'));
  const field = document.querySelector('%s');
  const start = performance.now();
  field.files = given.files;
  field.dispatchEvent(new Event('change'));
  while (!(%s)) await new Promise((done) => setTimeout(done, 2));
  return performance.now() - start;
})()"""
# Presses a button, and returns the time until the next frame begins and until it ends, in milliseconds.
PRESS = """new Promise((done) => {
  const start = performance.now();
  document.getElementById('%s').click();
  const spent = performance.now() - start;
  requestAnimationFrame(() => setTimeout(() => done([spent, performance.now() - start])));
})"""


def steps(page: Page, what: str, names: list[str]) -> None:
    """Presses buttons, one after another, and keeps the time that the page's code takes at each."""
    spent, shown = [], []
    for name in names:
        start = time.monotonic()
        spent.append(float(page.run(PRESS % name)[0]))
        page.settle()
        shown.append(1000 * (time.monotonic() - start))
    page.measure(what, spent)
    page.measure(f"{what}, until what changed is shown", shown)


# Holds back a search until its worker is asked for a look, so that both are there at once, however busy the host is;
# and keeps in which order that worker answers.
ORDER = """(() => {
  const post = Worker.prototype.postMessage;
  const calls = new Map();
  let held = null;
  globalThis.llbmAnswered = [];
  Worker.prototype.postMessage = function ordered(data, ...more) {
    if (data?.call === 'search') {
      this.addEventListener('message', ({ data: { id } }) => {
        if (calls.has(id)) globalThis.llbmAnswered.push(calls.get(id));
      });
      held = { worker: this, data };
      return;
    }
    if (held?.worker === this) {
      for (const one of [held.data, data]) calls.set(one.id, one.call);
      post.call(this, held.data);
      held = null;
    }
    post.call(this, data, ...more);
  };
})()"""


def nothing_waits_for_a_search(page: Page) -> None:
    """Searches the 2,109 events of 703 vertices, and steps meanwhile: what a step changed is shown before it ends."""
    page.load()
    page.give_file("many.text", many(SEARCHED).encode(), "#definition-file")
    page.browser.wait("definition.value !== ''")
    page.click("open-now")
    page.click("next")
    page.run(ORDER)
    page.run("document.getElementById('search').value = '/698'")
    page.run("document.querySelector('#search-form button').click()")
    same(page.text("found-said"), "searching …", "what is said first")
    page.click("next")
    same(page.changes(), ["added /0"], "what a step changed")
    page.browser.wait("document.querySelectorAll('#found button').length > 0")
    same(page.run("globalThis.llbmAnswered"), ["look", "search"], "what the worker answered")
    found = page.run("document.querySelector('#found button').textContent")
    check(found.startswith("added /698: event "), found)


# Begins a move, and stops it as soon as the page lets it be stopped.
STOPPED = """new Promise((done) => {
  const stop = document.getElementById('stop');
  const seen = new MutationObserver(() => {
    if (stop.hidden) return;
    seen.disconnect();
    stop.click();
    done();
  });
  seen.observe(stop, { attributes: true, attributeFilter: ['hidden'] });
  document.getElementById('go').click();
})"""


def a_long_move_stops(page: Page) -> None:
    """Begins a move over all events, and stops it: the session is where it was stopped, and can step there."""
    page.run(STOPPED)
    page.settle()
    place = page.place()[0]
    check(0 < place < 3 * MOST_VERTICES, f"a move that was stopped is at {place}")
    page.click("back")
    same(page.place()[0], place - 1, "a step back after a move that was stopped")


# Keeps how many events each slice of a move has, and how many lines each message to a worker.
COUNT = """(() => {
  globalThis.llbmSlices = [];
  globalThis.llbmPieces = [];
  const post = globalThis.llbmPost ??= Worker.prototype.postMessage;
  Worker.prototype.postMessage = function counted(data, ...more) {
    const [, lines] = ['go', 'look'].includes(data?.call) ? data.args : [];
    if (lines !== undefined) globalThis.llbmPieces.push(lines.split('\\n').length);
    return post.call(this, data, ...more);
  };
})()"""


# Counts what else the page did while a move went on.
TURNS = """(() => {
  globalThis.llbmTurns = 0;
  const stop = document.getElementById('stop');
  globalThis.llbmTimer ??= setInterval(() => { globalThis.llbmTurns += Number(!stop.hidden); });
})()"""


def moved(page: Page, what: str, name: str, place: tuple[int, int]) -> None:
    """Presses a button, waits until the move ends at a place, and wants short slices and other turns meanwhile."""
    begin = page.place()[0]
    page.run("globalThis.llbmLongest = 0")
    page.run(COUNT)
    page.run(WATCH)
    page.run(TURNS)
    start = time.monotonic()
    page.click(name)
    page.measure(what, [1000 * (time.monotonic() - start)])
    page.measure(f"{what}, the longest time without a frame", [float(page.run("globalThis.llbmLongest"))])
    same(page.place(), place, what)
    slices, pieces = page.run("[globalThis.llbmSlices, globalThis.llbmPieces]")
    check(max(slices) <= MOST_EVENTS, f"a slice of {max(slices)} events")
    check(sum(slices) >= abs(place[0] - begin), f"{sum(slices)} events in all slices")
    check(max(pieces) <= MOST_LINES, f"a piece of {max(pieces)} lines")
    turns = int(page.run("globalThis.llbmTurns"))
    check(turns >= LEAST_TURNS, f"{turns} other turns meanwhile")


# Counts what else the page does while a definition is opened.
TURNS_OF_OPENING = """(() => {
  globalThis.llbmOpening = 0;
  setInterval(() => { globalThis.llbmOpening += Number(document.body.dataset.reading === 'yes'); });
})()"""


def opened(page: Page) -> float:
    """Opens what the view *Open* has, wants other turns meanwhile, and returns how long it takes, in milliseconds."""
    page.run(TURNS_OF_OPENING)
    start = time.monotonic()
    page.click("open-now")
    turns = int(page.run("globalThis.llbmOpening"))
    check(turns >= LEAST_TURNS, f"{turns} other turns while it was opened")
    return 1000 * (time.monotonic() - start)


def as_many_vertices_as_there_can_be(page: Page) -> None:
    """Opens 65,535 vertices, steps at the beginning, goes to the end of 196,605 events, and steps there."""
    page.load()
    words = line_of("large definition", "pairs", str(MOST_VERTICES))
    place = page.folder / "most.definition"
    place.write_bytes(subprocess.run(words, check=True, capture_output=True).stdout)
    known = "document.getElementById('definition-said').textContent !== ''"
    page.run("globalThis.llbmLongest = 0")
    page.run(WATCH)
    taken = float(page.run(GIVE % (place.name, place.name, "#definition-file", known)))
    taken += opened(page)
    page.measure("65,535 vertices, from the file to the graph", [taken])
    page.measure("the longest time without a frame meanwhile", [float(page.run("globalThis.llbmLongest"))])
    check(f"{MOST_VERTICES} vertices" in page.text("graph-size"), page.text("graph-size"))
    steps(page, "a step of 65,535 vertices", ["next"] * 9)
    a_long_move_stops(page)
    moved(page, "forward over the rest of 196,605 events", "go", (3 * MOST_VERTICES,) * 2)
    moved(page, "back over 196,605 events", "first", (0, 3 * MOST_VERTICES))
    page.press("End")
    same(page.place(), (3 * MOST_VERTICES,) * 2, "the end")
    steps(page, "a step after 196,605 events", ["back", "back", "back", "next", "next"])
    memory = float(page.run("performance.memory.usedJSHeapSize / 2 ** 20"))
    page.noted.append(f"memory at 65,535 vertices: {memory:.0f} MiB of the page, {page.text('graph-size')}")
    place.unlink()
    same(page.browser.faults, [], "faults of the page's code")


def large_tree(place: pathlib.Path) -> int:
    """Writes the text of a tree of 100,000 files in 1,000 directories, and returns how many entries it has."""
    lines = ["d 0755 0 0 /"]
    for folder in range(ALL_FILES // 100):
        lines.append(f"d 0755 0 0 /d{folder:04}")
        lines += [f"f 0644 0 0 {folder * 100 + i:08x} /d{folder:04}/f{i:02}" for i in range(100)]
    place.write_text("".join(f"{line}\n" for line in lines), "utf-8")
    return len(lines)


def a_long_text_does_not_stop_the_page(page: Page) -> None:
    """Gives the text of 20,000 vertices: a worker reads it, and the page draws meanwhile."""
    page.load()
    # What the pages before this one have left is not collected while frames are watched.
    page.browser.send("HeapProfiler.collectGarbage")
    place = page.folder / "long.text"
    ops = [file_on([number - 1] if number else [], f"/{number}") for number in range(LONG)]
    place.write_text("".join(ops) + f"op {{\n  inputs {{\n    digest %{LONG - 1}\n  }}\n}}\n", "utf-8")
    page.run("globalThis.llbmLongest = 0")
    page.run(WATCH)
    known = "document.getElementById('locals').textContent === 'It needs none.'"
    page.run(GIVE % (place.name, place.name, "#definition-file", known))
    page.run("new Promise((done) => requestAnimationFrame(() => requestAnimationFrame(done)))")
    longest = float(page.run("globalThis.llbmLongest"))
    page.measure("the longest time without a frame, while a text of 20,000 vertices is read", [longest])
    page.click("open-now")
    check(f"{LONG} vertices" in page.text("graph-size"), page.text("graph-size"))
    place.unlink()
    same(page.browser.faults, [], "faults of the page's code")


def a_hundred_thousand_files(page: Page) -> None:
    """Steps over a tree of 100,000 files; the page's own code never takes long, since a worker looks at the trees."""
    page.load()
    text = EDITS.replace("/d07/", "/d0007/").replace("/d08/", "/d0008/").replace("/d09/", "/d0009/")
    page.give_file("files.text", text.encode(), "#definition-file")
    page.browser.wait("document.querySelectorAll('.local').length === 1")
    place = page.folder / "large.tree"
    entries = large_tree(place)
    given = f"document.querySelector('.local').textContent.includes('{entries} entries')"
    taken = float(page.run(GIVE % (place.name, place.name, ".local input", given)))
    page.run("globalThis.llbmTranscript = undefined")
    page.measure("a tree of 100,000 files, from the file to the graph", [taken + opened(page)])
    page.run("globalThis.llbmLongest = 0")
    page.run(WATCH)
    steps(page, "a step over 100,000 files", ["next"] * 6)
    same(page.changes(), ["removed /d0008/f01"], "what changed")
    page.measure("the longest time without a frame", [float(page.run("globalThis.llbmLongest"))])
    page.click("next")
    same(page.changes(), ["changed /d0009/f02"], "what changed last")
    page.browser.wait("document.querySelectorAll('#tree li').length > 300")
    memory = float(page.run("performance.memory.usedJSHeapSize / 2 ** 20"))
    page.noted.append(f"memory at 100,000 files: {memory:.0f} MiB of the page, {page.text('graph-size')}")
    place.unlink()
    same(page.browser.faults, [], "faults of the page's code")


# Keeps the longest time between two frames.
WATCH = """(() => {
  let last = performance.now();
  const frame = (now) => {
    globalThis.llbmLongest = Math.max(globalThis.llbmLongest, now - last);
    last = now;
    requestAnimationFrame(frame);
  };
  requestAnimationFrame(frame);
})()"""


CASES = (
    many_vertices, many_files, nothing_waits_for_a_search, as_many_vertices_as_there_can_be,
    a_long_text_does_not_stop_the_page, a_hundred_thousand_files,
)  # fmt: skip
