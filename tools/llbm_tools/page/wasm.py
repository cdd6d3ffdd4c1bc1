"""Makes the page that runs the machine in a browser: the module of WebAssembly, and the files around it.

In: the repository around this folder, in which `rt ci` has run, or --libraries FOLDER for another one in which it has;
the kit that README.md names; and `wasm-opt`, which is in Debian's package `binaryen`. The library for C is proved
first, which takes a minute or two and 4 GB of memory, and its IR is kept; the kit's clang and linker and `wasm-opt`
make a module of it, with a heap in C. No proof covers these last steps: docs/PAGE.md says more. With --unproved the
library is compiled without proof, which needs no `rt ci`; the module says so, and so does the page. With --module FILE
that module is taken, and none is made.

Out: in the folder -o FOLDER, out/page of the repository by default, the files of page/, the module as llbm.wasm, the
examples, and the causes of faults. Files of these names are replaced. On standard output a line with the sizes of the
module, as it is and as gzip packs it. A web server of static files serves the folder.

Exit status: 0 the page is made; 2 the command line is refused, or something that is needed is missing: standard error
names it; 3 the library is not proved, the module was not made, or a read or a write failed; 130 interrupted.
"""

import argparse
import gzip
import pathlib
import shutil
import sys
import tempfile

from llbm_tools import common, paths
from llbm_tools.command_line import Parser
from llbm_tools.compiling import library_code, unproved_code, unproved_program
from llbm_tools.page import assets, wasm_module
from llbm_tools.streams import Refused, exit_status

LOWERING = "wasm-opt"
MAGIC = b"\0asm\1\0\0\0"
PLACE = paths.ROOT / "out" / "page"


def made_module(options: argparse.Namespace) -> bytes:
    """Makes the module."""
    lowering = shutil.which(LOWERING)
    kit = library_code.kit_at(shutil.which("rt"))
    if not lowering:
        raise Refused(f"a program of Debian's package binaryen is not installed: {LOWERING}")
    crates = library_code.crates_in(paths.ROOT)
    with tempfile.TemporaryDirectory(prefix="llbm-wasm-") as folder:
        place = pathlib.Path(folder)
        maker = wasm_module.Maker(kit, lowering, place)
        if options.unproved:
            unproved_program.check_kit()
            made = maker.module(unproved_code.unproved_ir(kit, place), unproved_code.renamed)
        else:
            made = maker.module(library_code.proved_ir(crates, kit, options.libraries.absolute(), place))
        return wasm_module.with_proof(made, not options.unproved)


def make(options: argparse.Namespace) -> None:
    """Makes the page, and prints the sizes of its module."""
    common.check_open(sys.stdout, "standard output")
    module = options.module.read_bytes() if options.module else made_module(options)
    if not module.startswith(MAGIC):
        raise Refused(f"not a module of WebAssembly: {options.module}")
    assets.write(options.folder, module)
    packed = gzip.compress(module, 9, mtime=0)
    print(f"{options.folder / assets.MODULE}: {len(module):,} bytes, {len(packed):,} packed by gzip")
    sys.stdout.flush()


def parse_options() -> argparse.Namespace:
    """Parses the command line."""
    parser = Parser(description="Makes the page that runs the machine in a browser.")
    parser.add_argument(
        "-o", dest="folder", metavar="FOLDER", type=pathlib.Path, default=PLACE, help="default: out/page"
    )
    parser.add_argument("--module", metavar="FILE", type=pathlib.Path, help="a module that was made before")
    parser.add_argument("--unproved", action="store_true", help="compile the library without proof; no rt ci is needed")
    parser.add_argument(
        "--libraries", metavar="FOLDER", type=pathlib.Path, default=paths.ROOT, help="where rt ci has run"
    )
    return parser.parse_args()


def main() -> int:
    """Runs the tool, and returns its exit status."""
    options = parse_options()
    return exit_status(lambda: make(options))
