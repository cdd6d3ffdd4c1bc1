"""Tries the bindings of the library in C, Python, Rust and Go: the tests in bindings/, as a user would run them.

In: bindings/, examples/ and docs/EMBEDDING.md of the repository around this folder, and out/libllbm.a, as `llbm-tools
library` builds it, or ARCHIVE, such as out/libllbm-unproved.a. They are copied into a temporary folder, in which
everything is compiled and run. Tests of frontends also ask the tools of the repository and, if they are there, the
program --llbm PROGRAM or that of the repository, and out/llbm-rules.

- `page`: each block of docs/EMBEDDING.md below a line that names a file is in that file; both headers are the same.
- `c`: the example prints what it should, and what is tried in misuse.c passes.
- `sanitizer`: the same, compiled with the address sanitizer and the sanitizer of undefined behavior.
- `valgrind`: the same, under valgrind, which finds no fault and no leak.
- `python`, `rust`, `go`: their tests, without a network. A shared object is linked for Python and Go. Go is that of
  Debian's packages, if `dev/dev daemon` has unpacked them, and then the tests with BuildKit's client are run too.
- `pytest`: the tests in Python again, by the command `pytest`, and with the option and the fixtures for it.
- `installed`: in the layout of an installation the example in C, Python and Rust find the library without a variable.
- `go-get`: `go get` fetches the binding and llbmtest from a host of git in this process, and a program runs with it.

Out: on standard output a line for each that passed or was skipped, since its compiler is not there, and the output of
each that failed; the last line is `N passed, M failed, K skipped`.

Exit status: 0 nothing failed; 1 something did; 2 the command line is refused, or there is no archive; 3 the copy
failed; 130 interrupted.
"""

import os
import pathlib
import re
import shutil
import subprocess
import sys
import tempfile
from collections.abc import Callable, Mapping
from typing import NamedTuple

from llbm_tools.command_line import Parser
from llbm_tools.commands import USERS_DOOR
from llbm_tools.compiling import go_host
from llbm_tools.compiling.library import ARCHIVE
from llbm_tools.counts import Counts
from llbm_tools.daemon import debian_packages, go_building
from llbm_tools.paths import PROVED, ROOT, RULES, UNPROVED
from llbm_tools.streams import Refused, exit_status

PATIENCE = 3000
PAGE = "docs/EMBEDDING.md"
HEADERS = ("bindings/llbm.h", "bindings/go/llbm.h")
# Where Go looks for the module, and for the tests of a frontend.
MODULE, FRONTEND = go_host.BINDING, "llbm.example/frontend"
BLOCK = re.compile(r"^`(bindings/[^`]+)`:\n\n((?: {4}.*\n|\n)+)", re.MULTILINE)
WARNINGS = ["-std=gnu11", "-Wall", "-Wextra", "-Werror", "-g", "-O1"]
SANITIZED = ["-fsanitize=address,undefined", "-fno-sanitize-recover=all"]
REFUSING = ["-pthread", "-Wl,--wrap=malloc,--wrap=realloc,--wrap=free"]
VALGRIND = ["valgrind", "--quiet", "--leak-check=full", "--errors-for-leak-kinds=all", "--error-exitcode=99"]


class Wrong(Exception):
    """A trial failed; the argument says how."""


def call(
    words: list[str], folder: pathlib.Path, text: bytes = b"", given: Mapping[str, str] | None = None
) -> bytes:
    """Runs a command in a folder, and returns its standard output; it has to end with status 0 in time."""
    environment = {**os.environ, **(given or {})}
    try:
        done = subprocess.run(words, cwd=folder, input=text, capture_output=True, timeout=PATIENCE, env=environment)
    except subprocess.TimeoutExpired as fault:
        raise Wrong(f"no answer in {PATIENCE} seconds: {words[0]}") from fault
    if done.returncode:
        said = (done.stdout + done.stderr).decode("utf-8", "replace")
        raise Wrong(f"ended with status {done.returncode}: {' '.join(words)}\n{said}")
    return done.stdout


def check_page(top: pathlib.Path) -> None:
    """Checks that each block of the page is in the file that the line above it names."""
    blocks = BLOCK.findall((top / PAGE).read_text("utf-8"))
    if not blocks:
        raise Wrong(f"there is no block of a file: {PAGE}")
    for name, block in blocks:
        lines = [line.strip() for line in block.splitlines() if line.strip()]
        there = [line.strip() for line in (top / name).read_text("utf-8").splitlines() if line.strip()]
        if not any(there[at : at + len(lines)] == lines for at in range(len(there))):
            raise Wrong(f"a block is not in {name}: {PAGE}: {lines[0]}")


def check_texts(top: pathlib.Path) -> None:
    """Checks the page, and that Go's module, which is fetched by itself, has the header of the library."""
    check_page(top)
    one, other = ((top / name).read_text("utf-8") for name in HEADERS)
    if one != other:
        raise Wrong(f"these differ: {' and '.join(HEADERS)}")


def settings(top: pathlib.Path) -> dict[str, str]:
    """Links the shared object, and returns the variables that name it, and what tests of a frontend ask."""
    shared = top / "out" / "libllbm.so"
    words = ["-Wl,--whole-archive", str(top / "out" / "libllbm.a"), "-Wl,--no-whole-archive"]
    call(["cc", "-shared", "-o", str(shared), *words], top)
    program = os.environ.get("LLBM", "") or next((str(one) for one in (PROVED, UNPROVED) if one.is_file()), "")
    rules = {"LLBM_RULES": str(RULES)} if RULES.is_file() else {}
    return {"LIBLLBM": str(shared), "LLBM": program, "LLBM_TOOLS": str(ROOT / USERS_DOOR), **rules}


def try_c(top: pathlib.Path, flags: list[str], before: list[str]) -> None:
    """Compiles and runs the programs in C."""
    folder = top / "bindings" / "c"
    examples = top / "examples"
    archive = str(top / "out" / "libllbm.a")
    compiler = ["cc", *WARNINGS, *flags, "-I.."]
    call([*compiler, "-o", "example", "example.c", archive], folder)
    call([*compiler, *REFUSING, "-o", "misuse", "misuse.c", archive], folder)
    given = [str(examples / "tour.text"), str(examples / "tour.tree")]
    said = call([*before, "./example", given[0], "source", given[1]], folder, (examples / "tour.commands").read_bytes())
    answers = (examples / "tour.answers").read_bytes()
    result = b"".join(answers.partition(b"\nend\n")[2:])
    if said != result + answers:
        raise Wrong(f"the example prints other lines:\n{said.decode('utf-8', 'replace')}")
    print(call([*before, "./misuse", *given], folder).decode(), end="")


def try_python(top: pathlib.Path) -> None:
    """Runs the tests in Python."""
    words = [sys.executable, "-m", "unittest", "test_llbm", "test_testing"]
    call(words, top / "bindings" / "python", given=settings(top))


def try_pytest(top: pathlib.Path) -> None:
    """Runs the tests in Python by pytest, whose Python may be another one."""
    words = ["pytest", "-q", "-rs", "-p", "no:cacheprovider", "test_llbm.py", "test_testing.py"]
    said = call(words, top / "bindings" / "python", given=settings(top))
    if b"there is no pytest" in said:
        raise Wrong(f"pytest does not find itself:\n{said.decode('utf-8', 'replace')}")


def try_rust(top: pathlib.Path) -> None:
    """Runs the tests in Rust."""
    call(["cargo", "test", "--offline", "--quiet"], top / "bindings" / "rust", given=settings(top))


# What a user of an installation writes: it prints the version of the library.
IN_PYTHON = "import llbm; print(llbm.version())"
IN_RUST = 'fn main() { println!("{}", llbm::version()); }\n'
USER = '[package]\nname = "user"\nversion = "0.1.0"\nedition = "2021"\n\n[dependencies]\nllbm = { path = "%s" }\n'


def try_installed(top: pathlib.Path) -> None:
    """Lays the files out as an installation has them, and calls the library there from C, Python and Rust."""
    there, user = top / "installed", top / "of-user"
    settings(top)
    shutil.copytree(top / "bindings", there / "lib" / "llbm" / "bindings", ignore=shutil.ignore_patterns("target"))
    for place in (there / "include", user / "src"):
        place.mkdir(parents=True)
    shutil.copy(top / HEADERS[0], there / "include")
    for name in ("libllbm.a", "libllbm.so"):
        shutil.copy(top / "out" / name, there / "lib")
    shutil.copy(top / "bindings" / "c" / "example.c", user)
    call(["cc", *WARNINGS, f"-I{there}/include", "-o", "example", "example.c", f"-L{there}/lib", "-lllbm"], user)
    (user / "Cargo.toml").write_text(USER % (there / "lib" / "llbm" / "bindings" / "rust"), "utf-8")
    (user / "src" / "main.rs").write_text(IN_RUST, "utf-8")
    without = {"LIBLLBM": "", "PYTHONPATH": str(there / "lib" / "llbm" / "bindings" / "python")}
    said = [call([sys.executable, "-c", IN_PYTHON], user, given=without)]
    said.append(call(["env", "-u", "LLBM_LIB", "cargo", "run", "--offline", "--quiet"], user))
    if said[0] != said[1] or not said[0].startswith(b"llbm "):
        raise Wrong(f"these are no versions of one library: {said}")


def has_packages() -> bool:
    """Returns whether Debian's packages are unpacked, with Go and with BuildKit's client."""
    names = debian_packages.names_in(debian_packages.NAMES.read_text("utf-8"))
    return debian_packages.are_there(debian_packages.FOLDER, names)


def try_go(top: pathlib.Path) -> None:
    """Runs the tests in Go: with Debian's packages all of them, else those that need no other module."""
    module = top / "bindings" / "go"
    if not has_packages():
        offline = {"GOPROXY": "off", "GOTOOLCHAIN": "local", "GOCACHE": str(top / "go-cache")}
        call(["go", "test", "-count=1", "."], module, given={**offline, "CGO_ENABLED": "1", **settings(top)})
        return
    sources = top / "go-path" / "src"
    # The tests look for the examples where they are in the repository, two folders above them.
    shutil.copytree(top / "examples", sources / go_host.REPOSITORY / "examples")
    for name, place in ((MODULE, module), (FRONTEND, top / "examples" / "from-buildkit" / "frontend-test")):
        shutil.copytree(place, sources / name)
    go = go_building.with_packages(debian_packages.FOLDER, top / "go-path")
    given = {**go.environment, **settings(top), "CGO_ENABLED": "1"}
    call([go.command, "test", "-count=1", MODULE, f"{MODULE}/llbmtest", FRONTEND], sources / MODULE, given=given)


def try_go_get(top: pathlib.Path) -> None:
    """Fetches the modules with `go get`, as a user does, and runs a program of that user."""
    go, environment = "go", dict(os.environ)
    if has_packages():
        packages = go_building.with_packages(debian_packages.FOLDER)
        go, environment = packages.command, packages.environment
    environment |= {"GOPATH": str(top / "fetched"), "GO111MODULE": "on", "GOFLAGS": "-modcacherw", "CGO_ENABLED": "1"}
    environment |= {"GOCACHE": environment.get("GOCACHE", str(top / "go-cache")), **settings(top)}
    repository, user = top / "host", top / "user"
    go_host.make_repository(top / "bindings", repository)
    user.mkdir()
    (user / "go.mod").write_text("module user.example/user\n\ngo 1.21\n", "utf-8")
    (user / "main.go").write_text(go_host.PROGRAM, "utf-8")
    with go_host.host(repository) as given:
        environment |= given
        call([go, "get", f"{go_host.BINDING}@{go_host.VERSION}"], user, given=environment)
        # What llbmtest asks for, BuildKit's client, is fetched by nobody here.
        call([go, "mod", "download", f"{go_host.TESTING}@{go_host.VERSION}"], user, given=environment)
    said = call([go, "run", "."], user, given=environment)
    if said != go_host.PRINTED:
        raise Wrong(f"the program prints another tree:\n{said.decode('utf-8', 'replace')}")


class Trial(NamedTuple):
    """A trial: its name, the commands that it needs, and what is done."""

    name: str
    needs: list[str]
    work: Callable[[pathlib.Path], None]

    def missing(self) -> list[str]:
        """Returns the commands that are not there."""
        there = {"go"} if has_packages() else set()
        return [name for name in self.needs if name not in there and not shutil.which(name)]


TRIALS = [
    Trial("page", [], check_texts),
    Trial("c", ["cc"], lambda top: try_c(top, [], [])),
    Trial("sanitizer", ["cc"], lambda top: try_c(top, SANITIZED, [])),
    Trial("valgrind", ["cc", "valgrind"], lambda top: try_c(top, [], VALGRIND)),
    Trial("python", ["cc"], try_python),
    Trial("pytest", ["cc", "pytest"], try_pytest),
    Trial("rust", ["cc", "cargo", "rustc"], try_rust),
    Trial("installed", ["cc", "cargo", "rustc"], try_installed),
    Trial("go", ["cc", "go"], try_go),
    Trial("go-get", ["cc", "git", "go"], try_go_get),
]


def copy_into(top: pathlib.Path, archive: pathlib.Path) -> None:
    """Copies what the trials read into a folder."""
    left_out = shutil.ignore_patterns("target", "__pycache__")
    for name in ("bindings", "examples"):
        shutil.copytree(ROOT / name, top / name, ignore=left_out)
    (top / "docs").mkdir()
    shutil.copy(ROOT / PAGE, top / PAGE)
    (top / "out").mkdir()
    shutil.copy(archive, top / "out" / "libllbm.a")


def try_all(archive: pathlib.Path, names: list[str]) -> int:
    """Does the trials, prints their results, and returns the exit status."""
    passed, failed, skipped = 0, 0, 0
    with tempfile.TemporaryDirectory(prefix="llbm-bindings-") as folder:
        top = pathlib.Path(folder)
        copy_into(top, archive)
        for trial in TRIALS:
            if names and trial.name not in names:
                continue
            if missing := trial.missing():
                skipped += 1
                print(f"{trial.name}: skipped, there is no {missing[0]}", flush=True)
                continue
            try:
                trial.work(top)
                passed += 1
                print(f"{trial.name}: passed", flush=True)
            except Wrong as fault:
                failed += 1
                print(f"{trial.name}: failed: {fault}", flush=True)
    counts = Counts(passed, failed, skipped)
    print(counts.line())
    return counts.status()


def main() -> int:
    """Runs the tool, and returns its exit status."""
    parser = Parser(description="Tries the bindings of the library.")
    parser.add_argument("archive", nargs="?", metavar="ARCHIVE", type=pathlib.Path, default=ARCHIVE)
    names = [trial.name for trial in TRIALS]
    parser.add_argument("--only", metavar="NAME", action="append", default=[], choices=names, help=", ".join(names))
    parser.add_argument("--llbm", metavar="PROGRAM", help="the program llbm")
    options = parser.parse_args()
    if options.llbm:
        os.environ["LLBM"] = os.path.abspath(options.llbm)

    def work() -> int:
        if not options.archive.is_file():
            raise Refused(f"there is no archive: {options.archive}; llbm-tools library makes one, --unproved too")
        return try_all(options.archive, options.only)

    return exit_status(work)
