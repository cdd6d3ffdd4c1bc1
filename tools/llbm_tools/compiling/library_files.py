"""The files of the library for C: what its archive has beside the crate's code, and the shared object made of it.

The archive gets the kit's three functions over `malloc`, `realloc` and `free`, and a function that returns the version.
No proof covers these four, nor the linking.
"""

import pathlib
import re

from llbm_tools.common import NOT_PROVED
from llbm_tools.compiling.library_code import EXPORTS, PREFIX, USUAL, run
from llbm_tools.compiling.unproved_program import PAGES, PROVED_WITH
from llbm_tools.streams import Failed

VERSION = re.compile(r'VERSION_PAGE: &str = "(.*)\\n";')
VERSION_CALL = f"{PREFIX}version"
SHARED = ".so"


def version_of(top: pathlib.Path, *, is_proved: bool) -> str:
    """Returns the line of the version that a program of these sources prints."""
    found = VERSION.search((top / PAGES).read_text("utf-8"))
    if not found or PROVED_WITH not in found[1]:
        raise Failed(f"there is no version that is `{PROVED_WITH}` a kit: {PAGES}")
    return found[1] if is_proved else found[1].replace(PROVED_WITH, NOT_PROVED)


def compile_for_library(kit: pathlib.Path, form: str, place: pathlib.Path, made: pathlib.Path, *words: str) -> None:
    """Compiles a file of C or of IR to an object that can be part of a shared object."""
    clang = kit / "toolchain" / "bin" / "clang"
    words = (f"--target={USUAL}", "--no-default-config", "-fPIC", "-ffunction-sections", "-fdata-sections", *words)
    run([clang, *words, "-c", "-x", form, place, "-o", made], f"compiling {place.name}")


def complete(kit: pathlib.Path, archive: pathlib.Path, version: str) -> None:
    """Adds to an archive, in a folder of its own, the kit's functions over `malloc` and the version."""
    source, made = archive.with_name("version.c"), archive.with_name("version.o")
    source.write_text(f'const char *{VERSION_CALL}(void) {{ return "{version}"; }}\n', "utf-8")
    compile_for_library(kit, "c", source, made, "-O1")
    run([kit / "toolchain" / "bin" / "llvm-ar", "qcLs", archive, made, kit / "c" / "liblibc_c.a"], "the archive")


def link(kit: pathlib.Path, archive: pathlib.Path, to: pathlib.Path) -> None:
    """Links the shared object of an archive: it exports the library's functions and nothing else."""
    toolchain, exported = kit / "toolchain", archive.with_name("exported")
    names = "".join(f"{PREFIX}{name}; " for name in (*EXPORTS, "version"))
    exported.write_text(f"{{ global: {names}local: *; }};\n", "utf-8")
    whole = ("--whole-archive", archive, "--no-whole-archive", toolchain / "lib" / "libc.so.6")
    words = ("-shared", "-soname", "libllbm.so", "--gc-sections", "--version-script", exported)
    run([toolchain / "bin" / "ld.lld", *words, *whole, "-o", to], "the shared object")
