"""The page used at random and edited at random, in a browser: it ends where `llbm step` is after the same lines.

Seeds and counts are fixed. What a person would not wait for is not waited for here: keys and clicks come while a
definition is opened, links while another one is read, reloads in the middle of a move.
"""

import json
import random
from collections.abc import Callable

from llbm_tools.page import assets, module_cases
from llbm_tools.page.page_driver import NARROW, READY, WIDE, Page, check, same

SEED, BURSTS, MOST_ACTIONS = 11, 12, 10
EDIT_SEED, EDITS = 5, 10
KEYS = [*"nbgscarfvezZ+-oh?/w.019x", "ArrowRight", "ArrowLeft", "ArrowUp", "Home", "End", "Escape", "Tab", "Enter"]
LINKS = ["#open", "", "#s=AAAA", "#s=", "#zzz", "#build=%", "#build=nope"]
MOVES = ["next", "back", "go", "first", "all", "step", "shuffle", "cancel", "stop", "to-text"]
# What a browser says of builds that a server of files does not have.
AWAITED = ["404"]
# Uses the control of a number among those that can be used, with a number for what it is set to.
USE = """((number, value) => {
  const open = document.querySelector('dialog[open]');
  const all = [...document.querySelectorAll('button, select, input, summary, .event, [role=separator]')]
    .filter((e) => e.checkVisibility() && !e.disabled && e.type !== 'file' && (!open || e.closest('dialog[open]')));
  const one = all[number % all.length];
  if (!one || one.id.startsWith('copy-')) return;
  const set = (given, name) => { one.value = given; one.dispatchEvent(new Event(name)); };
  if (one.tagName === 'SELECT') set(one.options[value % one.options.length]?.value ?? '', 'change');
  else if (one.type === 'range') set(value % (Number(one.max) + 1), 'input');
  else if (one.type === 'number') set(['', 0, 1, 3, 64, 65, -1, 2.5][value % 8], 'input');
  else if (one.type === 'search') set(['', '/out', 'exec', '0', 'done', ' '][value % 6], 'input');
  else one.dispatchEvent(new MouseEvent('click', { bubbles: true, cancelable: true }));
})"""
# What the page shows, and what its link carries; null if nothing is open that can be shared.
STATE = """(async () => {
  document.querySelectorAll('dialog[open]').forEach((one) => one.close());
  if (document.getElementById('to-share').disabled) return null;
  document.getElementById('to-share').click();
  while (!document.getElementById('share-view').open) await new Promise((done) => setTimeout(done, 5));
  const link = document.getElementById('share-link').value;
  document.getElementById('share-view').close();
  const { givenBy } = await import('./share.mjs');
  const boxes = [...document.querySelectorAll('.box')].map((box) => [Number(box.dataset.vertex), box.className]);
  const text = document.getElementById('text');
  return { given: await givenBy(link.slice(link.indexOf('#'))), place: Number(document.getElementById('slider').value),
    boxes, text: text.checkVisibility() ? text.value : '', said: document.getElementById('text-said').textContent };
})()"""
WRITE = """(e => { e.focus(); e.value = %s; e.dispatchEvent(new Event('input')); })(document.getElementById('text'))"""
EDITED = "document.body.dataset.edited !== 'no'"


def answer(page: Page, command: str, data: bytes, given: module_cases.Case) -> bytes:
    """Returns what the program writes."""
    return module_cases.program_answer(page.program, given._replace(command=command, definition=data)).out


def check_state(page: Page, did: list[str]) -> None:
    """Checks that the page has no fault, and shows what the program has after the lines of its link."""
    page.browser.wait(EDITED)
    page.settle()
    faults = [fault for fault in page.browser.faults if not any(one in fault for one in AWAITED)]
    same(faults, [], f"faults of the page's code after {did}")
    state = page.run(STATE)
    if state is None or state["given"] is None:
        return
    given = state["given"]
    lines = "".join(f"{line}\n" for line in [*given["lines"], "status"]).encode()
    locals_ = [(name, text.encode()) for name, text in given["locals"]]
    case = module_cases.Case("", "", b"", locals_, given["workers"], lines)
    data = answer(page, "asm", given["text"].encode(), case._replace(locals=[]))
    told = answer(page, "step", data, case).decode().splitlines()[len(given["lines"]) :]
    words = dict(line.split(" ")[:2] for line in told)
    same(state["place"], len(given["lines"]), f"the place after {did}")
    wrong = [(box, words[str(box)]) for box, shown in state["boxes"] if words[str(box)] not in shown.split()]
    same(wrong, [], f"boxes with another status than the program's after {did}")
    mine = answer(page, "asm", state["text"].encode(), case._replace(locals=[]))
    is_other = mine != data and state["text"]
    check(not is_other or state["said"], f"the text is not what is open, and nothing is said: {did}")


def example(page: Page, dice: random.Random) -> None:
    """Opens an example, at times before its files are there."""
    page.run("document.querySelectorAll('dialog[open]').forEach((one) => one.close())")
    page.run("document.getElementById('to-open').click()")
    page.choose("example", dice.choice(assets.MENU).name)
    if dice.random() < 0.7:
        page.browser.wait("!document.getElementById('open-now').disabled")
    page.run(f"document.getElementById('workers').value = {dice.choice([1, 2, 3, 5])}")
    page.run("document.getElementById('open-now').click()")


def reload(page: Page, _dice: random.Random) -> None:
    """Loads the page again, whatever it does."""
    page.browser.send("Page.reload")
    page.browser.wait(f"Boolean(document.body) && ({READY})")


def follow_link(page: Page, dice: random.Random) -> None:
    """Goes to an address of the page that has something else after #."""
    page.run(f"location.hash = {dice.choice(LINKS)!r}; 0")


def press_keys(page: Page, dice: random.Random) -> None:
    """Presses a key, at times as if it were held."""
    key = dice.choice(KEYS)
    for _ in range(dice.choice([1, 1, 1, 2, 8])):
        page.browser.key(key)


def use_control(page: Page, dice: random.Random) -> None:
    """Uses a control."""
    page.run(f"{USE}({dice.randrange(10000)}, {dice.randrange(10000)})")


def resize(page: Page, dice: random.Random) -> None:
    """Gives the page another window, and another scheme of colors."""
    width, height = dice.choice([WIDE, NARROW, (300, 300)])
    page.browser.size(width, height, dice.random() < 0.5)


ACTIONS: dict[Callable[[Page, random.Random], None], int] = {
    use_control: 20, press_keys: 20, follow_link: 2, reload: 1, example: 2, resize: 1,
}  # fmt: skip


def used_at_random(page: Page) -> None:
    """Does what a person can do, at random and without waiting: the page has no fault and ends as the program does."""
    page.awaited.extend(AWAITED)
    dice = random.Random(SEED)
    page.load("")
    for _ in range(BURSTS):
        actions = dice.choices(list(ACTIONS), list(ACTIONS.values()), k=dice.randrange(1, MOST_ACTIONS))
        for action in actions:
            action(page, dice)
        check_state(page, [action.__name__ for action in actions])


def changed(text: str, dice: random.Random) -> str:
    """Returns a text as someone has it who is in the middle of writing."""
    lines = text.split("\n")
    at = dice.randrange(len(lines))
    kind = dice.randrange(7)
    if kind == 0:
        del lines[at:]
    elif kind == 1:
        lines.insert(at, dice.choice(lines))
    elif kind == 2:
        lines[at] = lines[at][: dice.randrange(len(lines[at]) + 1)]
    elif kind == 3:
        lines[at] += dice.choice(["\u0000", "\ufeff", "\u00e9", "{", "}", '"'])
    elif kind == 4:
        lines.insert(at, dice.choice(["op {", "}", "raw 00", "  digest %999", '  identifier "local://other"']))
    elif kind == 5:
        lines[at] = lines[at].replace("/", dice.choice(["//", "/x", "/../"]), 1)
    return "\n".join(lines)


def edited_at_random(page: Page) -> None:
    """Writes over the definition again and again, while moves go on: the text is what is open, or its fault is said."""
    page.awaited.extend(AWAITED)
    dice = random.Random(EDIT_SEED)
    page.load("")
    page.settle()
    text = str(page.run("document.getElementById('text').value"))
    for _ in range(EDITS):
        did = []
        for _ in range(dice.randrange(1, 4)):
            page.run(WRITE % json.dumps(changed(text, dice)))
            moves = dice.sample(MOVES, dice.randrange(4))
            for move in moves:
                page.run(f"document.getElementById('{move}').click()")
            did += ["write", *moves]
            if dice.random() < 0.4:
                page.browser.wait(EDITED)
        check_state(page, did)
    page.run("localStorage.clear()")


CASES = (used_at_random, edited_at_random)
