"""Runs the kit's `rt plant` on a crate over libraries that are there, in the place of libraries that it would build.

In: the folder of a repository in which the crate can be written (`dev/dev plants` makes it), the crate's name, and
words for `rt plant`; after these may stand `--part K N`, for each N-th function from the K-th. In place of its first
check, which builds the libraries below anew, the crate is checked here, and what is proved is kept in out/incremental,
where `rt plant` takes it from.

Out: what `rt plant` prints. Exit status: that of `rt plant`; 2 if a library is missing.
"""

import importlib.machinery
import os
import pathlib
import subprocess
import sys
import types

from llbm_tools.compiling.library import kit, words_for
from llbm_tools.streams import Refused

# How many bodies are checked at a time, and for how many seconds before they are halved.
BATCH, SECONDS = 40, 420


def planter(at: pathlib.Path) -> types.ModuleType:
    """Returns the kit's `rt plant` as a module."""
    place = str(at / "bin" / "rt-plant")
    module = types.ModuleType("rt-plant")
    module.__file__ = place
    importlib.machinery.SourceFileLoader("rt-plant", place).exec_module(module)
    return module


def check(top: pathlib.Path, at: pathlib.Path, crate: str) -> int:
    """Checks the crate, prints a line for each function that is proved, and returns the status of the check."""
    os.makedirs("out/incremental", exist_ok=True)
    words = [str(at / "bin" / "rattle"), "check", *words_for(top, at, crate), "--incremental", "out/incremental"]
    done = subprocess.run(
        [*words, "--jobs", "1"], stdin=subprocess.DEVNULL, stdout=subprocess.PIPE, stderr=subprocess.STDOUT,
        encoding="utf-8", errors="replace",
    )
    print(f"\ncrate {crate}: checked over the libraries that are there")
    print("\n".join(line for line in done.stdout.splitlines() if line.startswith("fn ")))
    return done.returncode


def take_part(module: types.ModuleType, first: int, step: int) -> None:
    """Lets `rt plant` choose each `step`-th function alone, from number `first`."""
    chosen = module.chosen

    def choose(*given: object) -> tuple[list[object], list[object]]:
        planted, bare = chosen(*given)
        return planted[first - 1 :: step], bare[first - 1 :: step]

    vars(module).update(chosen=choose)


def main() -> int:
    """Runs `rt plant`, and returns its exit status."""
    top, crate, *words = sys.argv[1:]
    words, part = (words[:-3], words[-2:]) if "--part" in words else (words, ["1", "1"])
    sys.dont_write_bytecode = True
    at = kit()
    module = planter(at)
    vars(module).update(BATCH=BATCH, SECONDS=SECONDS)
    take_part(module, *map(int, part))
    module.rt.main = lambda *_: check(pathlib.Path(top), at, crate)
    os.chdir(pathlib.Path(top, "crates", crate))
    module.rt.guarded()
    return int(module.main(*words) or 0)


if __name__ == "__main__":
    try:
        sys.exit(main())
    except Refused as fault:
        print(fault, file=sys.stderr)
        sys.exit(2)
