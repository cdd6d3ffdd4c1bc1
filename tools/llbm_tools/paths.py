"""Where the repository or the installation, its tools, and the program are."""

import os
import pathlib

TOOLS = pathlib.Path(__file__).resolve().parent.parent
ROOT = TOOLS.parent

# The program that the proof of everything leaves, and the one that `unproved-program` makes.
PROVED = ROOT / "crates" / "llbm" / "out" / "llbm"
UNPROVED = ROOT / "out" / "llbm-unproved"
# The program with BuildKit's rules, which `daemon` makes.
RULES = ROOT / "out" / "llbm-rules"
# The daemon, which `daemon` makes, and what `library` makes: the one that is proved comes first.
DAEMON = ROOT / "out" / "llbmd"
LIBRARIES = (ROOT / "out" / "libllbm.a", ROOT / "out" / "libllbm-unproved.a")
# What is fetched or built and has symbolic links: `rt ci` refuses a repository with any, below out/ too.
USER_CACHE = pathlib.Path(os.environ.get("XDG_CACHE_HOME") or os.path.expanduser("~/.cache"))
CACHE = pathlib.Path(os.environ.get("LLBM_CACHE") or USER_CACHE / "llbm")
# The list of an installation, its page or that which `wasm` makes, and its program.
INSTALLED = ROOT / "installed"
PAGE = ROOT / "page" if INSTALLED.is_file() else ROOT / "out" / "page"
INSTALLED_PROGRAM = ROOT.parent.parent / "bin" / "llbm"
INSTALLED_RULES = INSTALLED_PROGRAM.with_name("llbm-rules")
