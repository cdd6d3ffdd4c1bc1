"""Lists of BuildKit's own tests, with what each has to do with the daemon: daemon/suite/client.txt and its siblings.

A line `[SECTION]` begins a section; `#` begins a comment. Each other line is the name of a test function of BuildKit,
with a variant after `/` if there are several that differ, and what the test has to do:

- `passes`: it passes;
- `refused TEXT`: it fails, and what it prints has this text, by which the daemon refuses what llbm has not;
- `differs TEXT`: it fails, and what it prints has this text: what the daemon does differs, or its refusal is not shown;
- `hollow`: it passes, but only since it accepts any failure;
- `skips [TEXT]`: it leaves itself out, with this reason, if it has one.
"""

import re
from typing import NamedTuple

from llbm_tools import paths

FOLDER = paths.ROOT / "daemon" / "suite"
LINE = re.compile(r"(Test\w+)(?:/(\S+))? +(passes|refused|differs|hollow|skips)(?: +(\S.*))?")
PASSES, HOLLOW, SKIPS = "passes", "hollow", "skips"
WITHOUT_TEXT = {PASSES: True, HOLLOW: True, SKIPS: None}


class Package(NamedTuple):
    """A package of BuildKit with tests: the function that runs them all, and the variants of most of them."""

    name: str
    folder: str
    variants: list[str]


PACKAGES = [
    Package("client", "client", [""]),
    Package("dockerfile", "frontend/dockerfile", ["frontend=builtin", "frontend=client"]),
    Package("frontend", "frontend", [""]),
]


class Listed(NamedTuple):
    """A test: its package, function and variant, the section of its line, and what it has to do, with a text."""

    package: str
    function: str
    variant: str
    section: str
    does: str
    text: str

    def name(self) -> str:
        """Returns the test's name."""
        return "/".join(filter(None, [self.package, self.function, self.variant]))


class Malformed(Exception):
    """A line of a list is none; the argument says which."""


def read(text: str, package: Package) -> list[Listed]:
    """Returns the tests of a list, in order; a line without a variant has all variants that no other line has."""
    section = ""
    rows: list[tuple[str, str, str, str, str]] = []
    for number, line in enumerate(text.splitlines(), 1):
        if line.startswith("[") and line.endswith("]"):
            section = line[1:-1]
        elif line and not line.startswith("#"):
            found = LINE.fullmatch(line)
            if not found or WITHOUT_TEXT.get(found[3], False) is bool(found[4]) or not section:
                raise Malformed(f"not a line of the list: {package.name}.txt, line {number}: {line}")
            rows.append((found[1], found[2] or "", section, found[3], found[4] or ""))
    named = {(function, variant) for function, variant, *_ in rows if variant}
    if len({row[:2] for row in rows}) < len(rows):
        raise Malformed(f"a test is listed twice: {package.name}.txt")
    tests = []
    for function, variant, *rest in rows:
        for one in [variant] if variant else package.variants:
            if variant or (function, one) not in named:
                tests.append(Listed(package.name, function, one, *rest))
    return tests


def listed() -> list[Listed]:
    """Returns the tests of all lists."""
    return [
        test
        for package in PACKAGES
        for test in read((FOLDER / f"{package.name}.txt").read_text("utf-8"), package)
    ]
