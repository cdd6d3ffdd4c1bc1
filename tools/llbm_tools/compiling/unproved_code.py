"""The IR of the library for C, compiled without any proof, of which `llbm-tools library --unproved` and the page are
made.

`rt try` compiles a program without proof. So a copy of the library gets a `main` that calls each of its functions, and
`rt try` of a copy of the kit's two scripts compiles it with a clang that keeps what it is given (`library_code`). The
IR has checks that the proved one has not: at an overflow or the like the module traps. Two things in its text are
changed here: the functions have their names for C, and what instruments each access of memory is left out.
"""

import os
import pathlib
import re
import shutil
import subprocess

from llbm_tools.compiling import library_code, unproved_program
from llbm_tools.streams import Failed

SCRIPTS = ("rt", "rtlib.py")
HANDLE = """
pub(crate) fn none() -> Llb {
    Llb { is_set: false, kept: Kept::none() }
}
"""
MAIN = """
fn main(rt: HostRuntime) {
    let alloc = rt.alloc();
    let mut it = handle::none();
    let bytes: [u8; 1] = [1];
    let mut room: [u8; 1] = [1];
    let _local = llb_local(alloc, &mut it, &bytes, &bytes);
    let _open = llb_open(alloc, &mut it, &bytes, 1);
    let _line = llb_line(alloc, &mut it, &bytes);
    let _run = llb_run(alloc, &mut it, &bytes);
    let _show = llb_show(alloc, &mut it, &bytes);
    let _findings = llb_findings(alloc, &mut it, &bytes);
    let _plan = llb_plan(alloc, &mut it, &bytes);
    let _matches = llb_matches(alloc, &mut it, &bytes, &bytes);
    let _script = llb_script(alloc, &mut it, &bytes);
    let _asm = llb_asm(alloc, &mut it, &bytes);
    let _dis = llb_dis(alloc, &mut it, &bytes);
    let _ops = llb_ops(alloc, &mut it, &bytes);
    let _output = llb_output(alloc, &mut it, &mut room);
    let _messages = llb_messages(alloc, &mut it, &mut room);
    llb_close(alloc, &mut it);
}
"""
INSTRUMENTED = " sanitize_address"
# The start of the program's `main`, which a library must not have.
MAIN_CALL = re.compile(r"^define (i32 @main\()", re.MULTILINE)
MOST_LINES = 12


def write_program(folder: pathlib.Path) -> pathlib.Path:
    """Makes a program of the library in a copy of the sources, and returns its folder."""
    crate = folder / "crates" / library_code.CRATE
    library, handle = crate / "src" / "lib.rt", crate / "src" / "handle.rt"
    (crate / "src" / "main.rt").write_text(library.read_text("utf-8") + MAIN, "utf-8")
    library.unlink()
    handle.write_text(handle.read_text("utf-8") + HANDLE, "utf-8")
    crates = folder / "crates.txt"
    crates.write_text(crates.read_text("utf-8").replace(f"{library_code.CRATE} staticlib:", f"{library_code.CRATE}:"))
    return crate


def write_kit(kit: pathlib.Path, folder: pathlib.Path) -> pathlib.Path:
    """Makes a kit in a folder whose clang keeps what it compiles, and returns its `rt`."""
    made = folder / "kit"
    (made / "bin").mkdir(parents=True)
    for item in kit.iterdir():
        if item.name not in ("bin", "toolchain"):
            (made / item.name).symlink_to(item)
    for item in (kit / "bin").iterdir():
        # A script finds its kit by its own place, where no link is followed to.
        shutil.copy(item, made / "bin") if item.name in SCRIPTS else (made / "bin" / item.name).symlink_to(item)
    (made / "toolchain").symlink_to(library_code.write_toolchain(kit, folder))
    return made / "bin" / "rt"


def renamed(text: str) -> str:
    """Returns the text of the IR with the names of its functions for C, and without instruments."""
    for name in library_code.EXPORTS:
        called = re.escape(f'@"{library_code.CRATE}::{library_code.PREFIX}{name}"')
        start = re.compile(rf"^define internal (.*){called}\(", re.MULTILINE)
        text, count = start.subn(rf"define \1@{library_code.PREFIX}{name}(", text)
        if count != 1:
            raise Failed(f"the IR has {count} functions {library_code.PREFIX}{name}, not one")
        text = re.sub(called, f"@{library_code.PREFIX}{name}", text)
    return text.replace(INSTRUMENTED, "")


def without_main(text: str) -> str:
    """Returns the text of the IR with a `main` that no other file sees, so that the compiler leaves it out."""
    text, count = MAIN_CALL.subn(r"define internal \1", text)
    if count != 1:
        raise Failed(f"the IR has {count} functions main, not one")
    return text


def unproved_ir(kit: pathlib.Path, folder: pathlib.Path) -> pathlib.Path:
    """Compiles the library without proof, in a folder, and returns the file of its IR."""
    kept, held = folder / "kept", folder / "held"
    kept.mkdir()
    held.mkdir()
    unproved_program.copy_sources(folder)
    # `rt try` may run the program as another user.
    os.chmod(folder, 0o755)
    rt = write_kit(kit, kept)
    words = [str(rt), "try"]
    done = subprocess.run(
        words, cwd=write_program(folder), env={**os.environ, "TMPDIR": str(held)}, stdin=subprocess.DEVNULL,
        capture_output=True, text=True, errors="replace",
    )  # fmt: skip
    found = sorted(kept.glob(library_code.KEPT), key=lambda file: file.stat().st_size)
    if not found:
        lines = (done.stdout + done.stderr).splitlines()[-MOST_LINES:]
        raise Failed("\n".join(["the library is not compiled", *lines]))
    return found[-1]
