"""The IR of the library for C, kept while the kit's compiler builds it, and the names of its functions.

The compiler proves the library, over the libraries that `rt ci` left; then it writes an IR and hands it to the `clang`
of a toolchain's folder. Here that is a script, which keeps the IR and calls the kit's clang.
"""

import os
import pathlib
import shlex
import subprocess
from collections.abc import Iterator
from typing import NamedTuple

from llbm_tools.streams import Failed, Refused

CRATE = "llb_embed"
CALLS = ("local", "open", "line", "run", "show", "findings", "plan", "matches", "script", "asm", "dis", "ops")
EXPORTS = (*CALLS, "output", "messages", "close")
PREFIX = "llb_"
USUAL = "x86_64-unknown-linux-gnu"
KEPT = "*.kept"
MOST_LINES = 12


class Crates(NamedTuple):
    """The crates of a repository: its folder, and what each crate uses, by name."""

    folder: pathlib.Path
    uses: dict[str, list[str]]

    def root(self, name: str) -> pathlib.Path:
        """Returns the first file of a library."""
        return self.folder / "crates" / name / "src" / "lib.rt"

    def below(self, name: str) -> list[str]:
        """Returns the crates of the repository that a crate is built on, each once."""
        found: list[str] = []
        waiting = [name]
        while waiting:
            for used in self.uses[waiting.pop(0)]:
                if used in self.uses and used not in found:
                    found.append(used)
                    waiting.append(used)
        return found

    def of_kit(self, names: list[str]) -> list[str]:
        """Returns the libraries of the kit that crates use, each once."""
        used = [use for name in names for use in self.uses[name] if use not in self.uses]
        return list(dict.fromkeys(["std", *used]))


def crates_in(folder: pathlib.Path) -> Crates:
    """Returns the crates of a repository; refuses one without the library for C."""
    uses = {}
    for line in (folder / "crates.txt").read_text("utf-8").splitlines():
        crate, mark, used = line.partition("#")[0].partition(":")
        if mark:
            uses[crate.split()[0]] = used.split()
    crates = Crates(folder, uses)
    if CRATE not in uses or not crates.root(CRATE).is_file():
        raise Refused(f"there is no crate {CRATE}: {folder}")
    return crates


def run(words: list[str | os.PathLike[str]], what: str) -> None:
    """Runs a command; raises Failed with the end of what it printed."""
    done = subprocess.run(words, stdin=subprocess.DEVNULL, capture_output=True, text=True, errors="replace")
    if done.returncode:
        lines = (done.stdout + done.stderr).strip().splitlines() or [f"status {done.returncode}"]
        raise Failed(f"a command failed: {what}: {' / '.join(lines[-3:])}")


def text_of(clang: pathlib.Path, ir: pathlib.Path, folder: pathlib.Path) -> str:
    """Returns the text of an IR, given its file and a folder for another one."""
    text = folder / "usual.ll"
    as_text = ["-S", "-emit-llvm", "-Xclang", "-disable-llvm-passes"]
    run([clang, f"--target={USUAL}", *as_text, "-x", "ir", ir, "-o", text], "the IR as text")
    return text.read_text("utf-8")


def write_toolchain(kit: pathlib.Path, folder: pathlib.Path) -> pathlib.Path:
    """Makes a toolchain in a folder whose clang keeps what it compiles, and returns it."""
    usual, made = kit / "toolchain", folder / "toolchain"
    (made / "bin").mkdir(parents=True)
    for item in usual.iterdir():
        if item.name != "bin":
            (made / item.name).symlink_to(item.resolve())
    for program in (usual / "bin").iterdir():
        if program.name != "clang":
            (made / "bin" / program.name).symlink_to(program.absolute())
    clang, to = shlex.quote(str(usual / "bin" / "clang")), shlex.quote(str(folder))
    script = made / "bin" / "clang"
    script.write_text(
        "#!/bin/sh\n"
        f'for word; do case "$word" in *.bc | *.ll) cp "$word" {to}/"${{word##*/}}".kept ;; esac; done\n'
        f'exec {clang} "$@"\n'
    )
    script.chmod(0o755)
    return made


def built_words(crates: Crates, kit: pathlib.Path, libraries: pathlib.Path) -> Iterator[str]:
    """Yields the words by which the compiler builds the library over proved libraries."""
    yield from ["--crate-name", CRATE, "src/lib.rt", "--crate-type", "staticlib"]
    for name in crates.of_kit([CRATE]):
        yield from ["--extern", f"{name}={kit}/rlibs/{name}.rlib"]
    yield from ["-L", f"dependency={kit}/rlibs"]
    for name in crates.below(CRATE):
        library = libraries / "crates" / name / "out" / "rlib"
        if not (library / f"{name}.rlib").exists():
            line = f"the library {name} is not built: `rt ci` leaves it in crates/{name}/out"
            raise Refused(f"{line}; `dev/dev wasm --unproved` makes the page without proof")
        if name in crates.uses[CRATE]:
            yield from ["--extern", f"{name}={library}/{name}.rlib"]
        yield from ["-L", f"dependency={library}"]
    yield from ["--antt-project", f"{kit}/rattle/logic/antt-project.json", "--logic-built", f"{kit}/logic_built"]
    yield from ["--links", f"{CRATE}="]


def run_compiler(words: list[str], crate: pathlib.Path, what: str) -> None:
    """Runs the compiler in a crate's folder; raises Failed with the end of what it printed."""
    done = subprocess.run(words, cwd=crate, stdin=subprocess.DEVNULL, capture_output=True, text=True, errors="replace")
    if done.returncode:
        lines = (done.stdout + done.stderr).strip().splitlines()
        raise Failed("\n".join([f"ended with status {done.returncode}: {what}", *lines[-MOST_LINES:]]))


def kept_in(folder: pathlib.Path) -> pathlib.Path:
    """Returns the IR that was kept in a folder."""
    kept = sorted(folder.glob(KEPT), key=lambda file: file.stat().st_size)
    if not kept:
        raise Failed("the compiler handed no IR to clang")
    return kept[-1]


def proved_ir(crates: Crates, kit: pathlib.Path, libraries: pathlib.Path, folder: pathlib.Path) -> pathlib.Path:
    """Proves the library, and returns the file of its IR, in a folder."""
    crate = crates.folder / "crates" / CRATE
    words = [str(kit / "bin" / "rattle"), "build", *built_words(crates, kit, libraries), "--jobs", "1"]
    kept = crate / "out" / "incremental"
    kept.mkdir(parents=True, exist_ok=True)
    words += ["--incremental", str(kept), "--toolchain", str(write_toolchain(kit, folder))]
    run_compiler([*words, "-o", str(folder / f"lib{CRATE}.a")], crate, "the proof of the library")
    return kept_in(folder)


def kit_at(rt: str | None) -> pathlib.Path:
    """Returns the folder of the kit, given the path of `rt`."""
    if rt is None:
        raise Refused("the kit that README.md names is not installed: there is no program rt")
    kit = pathlib.Path(os.path.realpath(rt)).parent.parent
    for needed in ("bin/rattle", "toolchain/bin/clang", "toolchain/bin/ld.lld", "logic_built"):
        if not (kit / needed).exists():
            raise Refused(f"the kit does not have this: {kit / needed}")
    return kit
