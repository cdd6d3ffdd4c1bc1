"""Tests of the packages of the tools: which import which, and which modules have the tests that `test` runs."""

import ast
import pathlib
import re
import unittest
from collections.abc import Iterator

from llbm_tools.repository import test
from tests.base import ROOT, TOOLS

HOME, TESTS = TOOLS / "llbm_tools", TOOLS / "tests"
PACKAGES = sorted(place.parent.name for place in HOME.glob("*/__init__.py"))
ROW = re.compile(r"^\| `(\w+)` \|", re.M)


def tree_of(place: pathlib.Path) -> ast.Module:
    """Parses a module."""
    return ast.parse(place.read_text("utf-8"))


def named(package: str) -> set[str]:
    """Returns the packages that the head of a package names as those that it may import."""
    head = ast.get_docstring(tree_of(HOME / package / "__init__.py")) or ""
    return set(re.findall(r"`(\w+)`", head.partition("It may import ")[2]))


def names_imported(node: ast.AST) -> list[str]:
    """Returns the full names of what a statement imports."""
    if isinstance(node, ast.ImportFrom):
        return [f"{node.module}.{one.name}" for one in node.names]
    return [one.name for one in node.names] if isinstance(node, ast.Import) else []


def imported(place: pathlib.Path) -> Iterator[str]:
    """Yields the packages of the tools that a module imports."""
    for name in (name for node in ast.walk(tree_of(place)) for name in names_imported(node)):
        top, _, rest = name.partition(".")
        package = rest.partition(".")[0]
        if top == HOME.name and package in PACKAGES:
            yield package


def has_tests(place: pathlib.Path) -> bool:
    """Returns whether a module has tests of its own."""
    return any(isinstance(node, ast.FunctionDef) and node.name.startswith("test_") for node in ast.walk(tree_of(place)))


class Packages(unittest.TestCase):
    """What packages import, and where they are listed."""

    def test_a_package_imports_what_its_head_names(self) -> None:
        for package in PACKAGES:
            found = {name for place in (HOME / package).rglob("*.py") for name in imported(place)}
            self.assertEqual(found - {package}, named(package), package)

    def test_what_all_share_imports_no_package(self) -> None:
        for place in HOME.glob("*.py"):
            self.assertEqual(set(imported(place)), set(), f"{place.name} is in no package")

    def test_each_package_is_listed_below_all_that_it_may_import(self) -> None:
        page = (ROOT / "CONTRIBUTING.md").read_text("utf-8").partition("| Package |")[2].partition("\n## ")[0]
        listed = ROW.findall(page)
        self.assertEqual(sorted(listed), PACKAGES)
        for place, package in enumerate(listed):
            self.assertLessEqual(named(package), set(listed[:place]), package)


class Tests(unittest.TestCase):
    """The modules of tests."""

    def test_they_are_in_packages_of_the_tools(self) -> None:
        self.assertLessEqual({place.parent.name for place in TESTS.glob("*/__init__.py")}, {*PACKAGES})

    def test_all_modules_with_tests_are_run(self) -> None:
        places = [place for place in TESTS.rglob("*.py") if has_tests(place)]
        found = [".".join(place.relative_to(TESTS).with_suffix("").parts) for place in places]
        self.assertEqual(sorted(found), sorted(test.MODULES))
        self.assertEqual(len(test.PLACES), len(test.MODULES))
