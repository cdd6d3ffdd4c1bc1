"""Makes the static library and the shared object for C, Go, Rust and Python: proved, or without any proof.

In: the crate llb_embed, crates.txt, and crates/*/out/rlib of the repository around this folder, or of --repository
DIRECTORY; and the kit that `rt doc` names. `rt ci` proves the crate, but builds no static library: so it is proved
once more here, which takes one to three minutes, and then built. What was proved is kept in the crate's out/, for the
next build and for `dev/dev wasm`. With --unproved the sources of the repository around this folder are compiled without
proof, which needs no `rt ci` and takes some minutes.

Out: the archive out/libllbm.a of the repository, or -o FILE, and beside it the shared object with `.so` in the place of
the last ending; both are replaced if they exist. With --unproved they are out/libllbm-unproved.a and .so, and the
version says `not proved`; an overflow or the like, which a proof rules out, ends the process. The archive has the
crate's code, the code of other crates that this reaches, the kit's three functions over `malloc`, `realloc` and
`free`, and a function that returns the version; it can be linked by itself. On standard output the verdict of the
prover, if there is one, and the path and size of both files.

Exit status: 0 both are written; 1 the crate is not proved, or not built; 2 the command line is refused, the kit
is missing, or a library of a crate is; 3 a read or a write failed; 130 interrupted.
"""

import argparse
import os
import pathlib
import subprocess
import sys
import tempfile

from llbm_tools.command_line import Parser
from llbm_tools.compiling import library_files, unproved_code, unproved_program
from llbm_tools.compiling.library_code import CRATE, run, text_of
from llbm_tools.paths import LIBRARIES, ROOT
from llbm_tools.streams import Refused, exit_status

ARCHIVE, UNPROVED = LIBRARIES


def kit() -> pathlib.Path:
    """Returns the folder of the kit."""
    try:
        page = subprocess.run(["rt", "doc"], capture_output=True, check=True, text=True).stdout.strip()
    except (OSError, subprocess.CalledProcessError) as fault:
        raise Refused("rt doc: the kit is needed") from fault
    return pathlib.Path(page).parent


def libraries_of(crates: pathlib.Path, crate: str = CRATE) -> list[str]:
    """Returns the libraries that a crate names in crates.txt."""
    for line in crates.read_text("utf-8").splitlines():
        head, _, libraries = line.partition(":")
        if head.split()[:1] == [crate]:
            return libraries.split()
    raise Refused(f"there is no crate {crate}: {crates}")


def words_for(top: pathlib.Path, at: pathlib.Path, crate: str = CRATE) -> list[str]:
    """Returns the words that name a crate, the libraries that it uses and those that they use, and the logic."""
    words = ["--crate-name", crate, "src/lib.rt", "--extern", f"std={at}/rlibs/std.rlib"]
    words += ["-L", f"dependency={at}/rlibs", "--links", f"{crate}="]
    words += ["--antt-project", f"{at}/rattle/logic/antt-project.json", "--logic-built", f"{at}/logic_built"]
    for name in libraries_of(top / "crates.txt", crate):
        of_kit = not (top / "crates" / name).is_dir()
        folder = at / "rlibs" if of_kit else top / "crates" / name / "out" / "rlib"
        if not (folder / f"{name}.rlib").is_dir():
            raise Refused(f"there is no such library: {folder / name}.rlib; `rt ci` makes it")
        words += ["--extern", f"{name}={folder}/{name}.rlib"]
        words += [] if of_kit else ["-L", f"dependency={folder}"]
    return words


def build(top: pathlib.Path, at: pathlib.Path, to: pathlib.Path, jobs: int) -> bool:
    """Proves the crate and builds its archive; returns whether that was done."""
    words = [str(at / "bin" / "rattle"), "build", *words_for(top, at), "--crate-type", "staticlib"]
    kept = top / "crates" / CRATE / "out" / "incremental"
    kept.mkdir(parents=True, exist_ok=True)
    words += ["--incremental", str(kept)]
    words += ["--toolchain", f"{at}/toolchain", "--jobs", str(jobs), "-o", str(to)]
    done = subprocess.run(
        words, cwd=top / "crates" / CRATE, stdin=subprocess.DEVNULL,
        stdout=subprocess.PIPE, stderr=subprocess.STDOUT, text=True, errors="replace",
    )
    lines = done.stdout.splitlines()
    print("\n".join(lines[-1:] if done.returncode == 0 else lines[-40:]), flush=True)
    return done.returncode == 0


def compile_unproved(at: pathlib.Path, archive: pathlib.Path) -> None:
    """Compiles the sources around this folder without proof into an archive, in a folder of its own."""
    unproved_program.check_kit()
    with tempfile.TemporaryDirectory(prefix="llbm-library-") as folder:
        place = pathlib.Path(folder)
        text = text_of(at / "toolchain" / "bin" / "clang", unproved_code.unproved_ir(at, place), place)
        changed, made = place / "library.ll", archive.with_name("library.o")
        changed.write_text(unproved_code.without_main(unproved_code.renamed(text)), "utf-8")
        library_files.compile_for_library(at, "ir", changed, made, "-O1")
    run([at / "toolchain" / "bin" / "llvm-ar", "qcs", archive, made], "the archive")


def make(options: argparse.Namespace) -> int:
    """Makes the archive and the shared object, which appear at their places complete."""
    at, top = kit(), options.repository.resolve()
    to = (options.o or (UNPROVED if options.unproved else ARCHIVE)).resolve()
    to.parent.mkdir(parents=True, exist_ok=True)
    version = library_files.version_of(ROOT if options.unproved else top, is_proved=not options.unproved)
    with tempfile.TemporaryDirectory(dir=to.parent, prefix=".library-") as folder:
        new, shared = pathlib.Path(folder, "libllbm.a"), pathlib.Path(folder, "libllbm.so")
        if options.unproved:
            compile_unproved(at, new)
        elif not build(top, at, new, options.jobs):
            return 1
        library_files.complete(at, new, version)
        library_files.link(at, new, shared)
        for made, place in ((shared, to.with_suffix(library_files.SHARED)), (new, to)):
            made.replace(place)
            print(f"{os.path.relpath(place)}: {os.path.getsize(place)} bytes")
    return 0


def main() -> int:
    """Runs the tool, and returns its exit status."""
    parser = Parser(description="Makes the static library and the shared object.")
    where = "where the archive is written; FILE.so is beside it"
    parser.add_argument("-o", metavar="FILE", type=pathlib.Path, help=where)
    parser.add_argument("--repository", metavar="DIRECTORY", type=pathlib.Path, default=ROOT, help="where `rt ci` ran")
    parser.add_argument("--unproved", action="store_true", help="compile without proof; no `rt ci` is needed")
    jobs = min(4, len(os.sched_getaffinity(0)))
    parser.add_argument("--jobs", metavar="N", type=int, default=jobs, help="how many processes prove")
    options = parser.parse_args()
    if options.unproved and options.repository != ROOT:
        parser.error("--unproved compiles the sources around this folder, and has no --repository")
    if options.o and options.o.suffix == library_files.SHARED:
        parser.error("-o names the archive; the shared object gets the ending .so")
    sys.stdout.flush()
    return exit_status(lambda: make(options))
