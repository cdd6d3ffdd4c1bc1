"""The contrast of texts and of borders of the page with what is behind them, by the colors that the browser computed.

The ratio is that of WCAG 2: 4.5 is wanted of each text, whatever its size, and 3 of the border of each field and
button, in both schemes of colors.
"""

from llbm_tools.page import foreign_cases
from llbm_tools.page.page_driver import NARROW, WIDE, Page, same

LEAST = 4.5
LEAST_OF_A_BORDER = 3

COLORS = """
  const rgba = (color) => {
    const mixed = /^color\\(srgb ([^)]*)\\)/.exec(color);
    const numbers = (mixed ? mixed[1] : color).match(/[0-9.]+(?:e-?[0-9]+)?/g).map(Number);
    const [r, g, b, a = 1] = mixed ? [...numbers.slice(0, 3).map((n) => n * 255), numbers[3] ?? 1] : numbers;
    return [r, g, b, a];
  };
  const over = ([r, g, b, a], [u, v, w]) => [r * a + u * (1 - a), g * a + v * (1 - a), b * a + w * (1 - a), 1];
  const light = (color) => color.slice(0, 3).map((c) => c / 255)
    .map((c) => (c <= 0.04045 ? c / 12.92 : ((c + 0.055) / 1.055) ** 2.4))
    .reduce((sum, c, i) => sum + c * [0.2126, 0.7152, 0.0722][i], 0);
  const ratio = (a, b) => {
    const [x, y] = [light(a), light(b)].sort((p, q) => q - p);
    return (x + 0.05) / (y + 0.05);
  };
  const behind = (element) => {
    const layers = [];
    for (let one = element; one; one = one.parentElement) layers.push(rgba(getComputedStyle(one).backgroundColor));
    return layers.reverse().reduce((below, color) => over(color, below), [255, 255, 255, 1]);
  };
  const found = [];
"""

# Returns the texts that are seen and have too little contrast, each with its ratio and its colors.
SCRIPT = f"""(least => {{{COLORS}""" + """
  const check = (element, text) => {
    const style = getComputedStyle(element);
    if (!element.checkVisibility({ checkVisibilityCSS: true }) || element.closest('.hidden')) return;
    const faded = [];
    for (let one = element; one; one = one.parentElement) faded.push(Number(getComputedStyle(one).opacity));
    const back = behind(element);
    const color = rgba(element instanceof SVGElement ? style.fill : style.color);
    color[3] *= faded.reduce((a, b) => a * b, 1);
    const contrast = ratio(over(color, back), back);
    const name = `${element.tagName}.${element.className}`;
    if (contrast < least) found.push(`${contrast.toFixed(2)} ${name} ${text.slice(0, 30)}`);
  };
  const walk = document.createTreeWalker(document.body, NodeFilter.SHOW_TEXT);
  let count = 0;
  for (let node = walk.nextNode(); node; node = walk.nextNode()) {
    const text = node.data.trim();
    const element = node.parentElement;
    if (text === '' || ['SCRIPT', 'STYLE', 'TITLE', 'title'].includes(element.tagName)) continue;
    count += 1;
    check(element, text);
  }
  for (const field of document.querySelectorAll('input, select, textarea')) check(field, field.value);
  return [count, [...new Set(found)]];
})"""


# Returns the fields and buttons whose border has too little contrast with what is around them. One that can't be used
# needs none, nor has one whose border the browser draws, or that has a background of its own.
BORDERS = f"""(least => {{{COLORS}""" + """
  for (const element of document.querySelectorAll('input, select, textarea, button')) {
    const style = getComputedStyle(element);
    const isSeen = element.checkVisibility({ checkVisibilityCSS: true }) && !element.closest('.hidden');
    if (!isSeen || element.disabled || style.borderTopStyle !== 'solid') continue;
    const around = behind(element.parentElement);
    const own = ratio(behind(element), around);
    const contrast = ratio(over(rgba(style.borderTopColor), around), around);
    const name = `${element.tagName}#${element.id}.${element.className} ${element.type}`;
    if (Math.max(contrast, own) < least) found.push(`${contrast.toFixed(2)} ${name}`);
  }
  return [...new Set(found)];
})"""


def check_contrast(page: Page, what: str) -> int:
    """Wants enough contrast of all texts and borders that are seen, and returns how many texts there are."""
    count, found = page.run(f"{SCRIPT}({LEAST})")
    same(found, [], f"texts with too little contrast, {what}")
    same(page.run(f"{BORDERS}({LEAST_OF_A_BORDER})"), [], f"borders with too little contrast, {what}")
    return int(count)


def check_views(page: Page, what: str) -> int:
    """Checks the views over a run with vertices of each status, and the three dialogs."""
    page.load()
    count = check_contrast(page, f"{what}, Open at the start")
    page.give_file("no.definition", b"\x0a\xff", "#definition-file")
    page.browser.wait("document.getElementById('definition-said').textContent !== ''")
    page.submit()
    count += check_contrast(page, f"{what}, Open with a fault")
    page.example("failure", 3)
    count += check_contrast(page, f"{what}, the beginning")
    page.click("next")
    page.run("document.getElementById('break-fail').click()")
    for _ in range(12):
        page.click("next")
        count += check_contrast(page, f"{what}, the run")
    page.click("back")
    page.run("document.querySelectorAll('details').forEach((one) => { one.open = true; })")
    page.settle()
    for name in ("keys-view", "share-view"):
        page.run(f"document.getElementById('{name}').showModal()")
        count += check_contrast(page, f"{what}, {name}")
        page.run(f"document.getElementById('{name}').close()")
    foreign_cases.draw(page, foreign_cases.foreign_definition())
    page.run("document.querySelector('[data-row=\"1\"] button').click()")
    page.run("document.getElementById('unproved').hidden = false")
    count += check_contrast(page, f"{what}, a refused definition")
    page.example("cache", 3)
    for _ in range(4):
        page.click("next")
        page.run("document.querySelectorAll('details').forEach((one) => { one.open = true; })")
        page.settle()
        count += check_contrast(page, f"{what}, caches")
    return count


def contrast_of_all_texts(page: Page) -> None:
    """Checks the contrast of all texts in both schemes of colors, in a wide and in a narrow window."""
    try:
        for width, height in (WIDE, NARROW):
            for is_dark in (False, True):
                page.browser.size(width, height, is_dark)
                count = check_views(page, f"{'dark' if is_dark else 'light'} at {width} pixels")
                if count < 100:
                    same(count, "more than 100", "texts that are seen")
    finally:
        page.browser.size(*WIDE)
