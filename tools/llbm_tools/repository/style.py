"""Checks the types and the layout of the tools with mypy, and with ruff or else flake8, and the code of the page with
tsc (Debian: node-typescript) and eslint, where these are installed.

In: the tools of the repository around this folder, and the settings in `pyproject.toml` and `.flake8` at its top; the
page, and the settings in `tools/llbm_tools/page/checking`.

Out: on standard output what the checkers print, a line for each of them, and then the counts. A checker that is not
installed is skipped; its line says so.

Exit status: 0 nothing is wrong; 1 something is; 2 the command line is refused; 3 a read or a write failed.
"""

import os
import shutil
import subprocess
import sys

from llbm_tools.command_line import Parser
from llbm_tools.common import check_open
from llbm_tools.counts import Counts
from llbm_tools.paths import ROOT
from llbm_tools.streams import exit_status

MYPY = ("mypy", "--cache-dir=/dev/null")
RUFF = ("ruff", "check", "--no-cache", "tools")
FLAKE8 = ("flake8", "tools")
CHECKING = "tools/llbm_tools/page/checking"
TSC = ("tsc", "-p", f"{CHECKING}/tsconfig.json")
ESLINT = ("eslint", "--no-eslintrc", "-c", f"{CHECKING}/eslint.json", "--format", "unix", "--ext", ".mjs", "page")
# Where Debian has the modules of its eslint. Another Node than Debian's does not look there by itself.
MODULES = "/usr/share/nodejs"


def commands() -> list[tuple[str, ...]]:
    """Returns the command of each checker; flake8 takes the place of ruff where ruff is not installed."""
    return [MYPY, FLAKE8 if not shutil.which("ruff") and shutil.which("flake8") else RUFF, TSC, ESLINT]


def settings() -> dict[str, str]:
    """Returns the environment of the checkers."""
    return {**os.environ, "NODE_PATH": ":".join(filter(None, [os.environ.get("NODE_PATH", ""), MODULES]))}


def is_there(name: str) -> bool:
    """Returns whether a checker is installed, and can be started."""
    if not shutil.which(name):
        return False
    done = subprocess.run([name, "--version"], env=settings(), stdin=subprocess.DEVNULL, capture_output=True)
    return done.returncode == 0


def outcome(command: tuple[str, ...]) -> str:
    """Runs a checker, and returns `passed`, `failed` or `skipped`."""
    if not is_there(command[0]):
        return "skipped"
    sys.stdout.flush()
    done = subprocess.run(command, cwd=ROOT, env=settings(), stdin=subprocess.DEVNULL, stderr=subprocess.STDOUT)
    return "failed" if done.returncode else "passed"


def check() -> int:
    """Runs all checkers, prints the counts, and returns the exit status."""
    check_open(sys.stdout, "standard output")
    found = {command[0]: outcome(command) for command in commands()}
    for name, word in found.items():
        print(f"{name}: {'skipped, since it is not installed' if word == 'skipped' else word}")
    words = list(found.values())
    counts = Counts(*map(words.count, ("passed", "failed", "skipped")))
    print(counts.line(), flush=True)
    return counts.status()


def main() -> int:
    """Runs the tool, and returns its exit status."""
    Parser(
        description="Checks types and layout of the tools and of the page, with the checkers that are installed.",
    ).parse_args()
    return exit_status(check)
