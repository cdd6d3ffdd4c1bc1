"""A module of WebAssembly from the IR that the kit's compiler writes for its usual target.

Two lines of the IR, the data layout and the triple, are changed, and what its functions say of a processor. The kit's
clang compiles it and the heap for a memory of 64 bits, the kit's linker links them, and binaryen's `wasm-opt` lowers
the module to a memory of 32 bits, which every browser takes. No proof covers any of this.
"""

import pathlib
import re
from collections.abc import Callable, Iterator

from llbm_tools.compiling.library_code import EXPORTS, PREFIX, run, text_of
from llbm_tools.streams import Failed

HEAP = pathlib.Path(__file__).with_name("module_heap.c")

MODULE = "wasm64-unknown-unknown"
LAYOUT = 'target datalayout = "e-m:e-p:64:64-p10:8:8-p20:8:8-i64:64-i128:128-n32:64-S128-ni:1:10:20"'
CHANGED = (
    (re.compile(r"^target datalayout = .*$", re.MULTILINE), LAYOUT),
    (re.compile(r"^target triple = .*$", re.MULTILINE), f'target triple = "{MODULE}"'),
)
# What the functions of the IR say of the processor: its name, its features, and probes of the stack.
PROCESSOR, OF_MODULE = re.compile(r'"target-cpu"="[^"]*"'), "lime1"
FEATURES_OF_PROCESSOR = re.compile(r' "(?:probe-stack|stack-probe-size|target-features|tune-cpu)"="[^"]*"')
STACK = 8 << 20

COMPILED = (
    f"-mcpu={OF_MODULE}", "-O3", "-ffunction-sections", "-fdata-sections", "--no-default-config",
    "-mllvm", "-expand-div-rem-bits=64", "-mllvm", "-expand-fp-convert-bits=64", "-mllvm", "-trap-unreachable",
)  # fmt: skip
FEATURES = ("memory64", "bulk-memory", "sign-ext", "mutable-globals", "nontrapping-float-to-int")

# A custom section, in which a module says whether the code that it was made from was proved.
PROOF, PROVED, NOT_PROVED = "llbm.proof", "proved", "not proved"
CUSTOM = 0

MAGIC = 8
TABLE, MEMORY, ELEMENTS = 4, 5, 9


def retargeted(text: str) -> str:
    """Returns the text of an IR for the module's target."""
    for pattern, line in CHANGED:
        text, count = pattern.subn(lambda _, line=line: line, text)  # type: ignore[misc]
        if count != 1:
            raise Failed(f"the IR has {count} lines like {pattern.pattern}, not one")
    return PROCESSOR.sub(f'"target-cpu"="{OF_MODULE}"', FEATURES_OF_PROCESSOR.sub("", text))


def number_at(data: bytes, at: int) -> tuple[int, int]:
    """Returns a number in LEB128, and the place after it."""
    number = shift = 0
    while True:
        byte = data[at]
        at += 1
        number |= (byte & 0x7F) << shift
        shift += 7
        if byte < 0x80:
            return number, at


def sections(data: bytes) -> Iterator[tuple[int, bytes]]:
    """Yields the sections of a module: the number and all bytes of each."""
    at = MAGIC
    while at < len(data):
        length, start = number_at(data, at + 1)
        yield data[at], data[at : start + length]
        at = start + length


def without_empty_table(data: bytes) -> bytes:
    """Returns a module without its table if no section fills one: a table of 64 bits is not read everywhere."""
    found = list(sections(data))
    if any(number == ELEMENTS for number, _ in found):
        return data
    return data[:MAGIC] + b"".join(part for number, part in found if number != TABLE)


def varint(number: int) -> bytes:
    """Returns a number in LEB128."""
    found = bytearray()
    while number > 0x7F:
        found.append(number & 0x7F | 0x80)
        number >>= 7
    return bytes([*found, number])


def text_bytes(text: str) -> bytes:
    """Returns a text with its length before it."""
    return varint(len(text.encode())) + text.encode()


def without_proof(data: bytes) -> bytes:
    """Returns a module that says nothing of its proof."""
    kept = [part for number, part in sections(data) if number != CUSTOM or text_bytes(PROOF) not in part]
    return data[:MAGIC] + b"".join(kept)


def with_proof(data: bytes, is_proved: bool) -> bytes:
    """Returns a module that says whether its code was proved."""
    body = text_bytes(PROOF) + (PROVED if is_proved else NOT_PROVED).encode()
    return without_proof(data) + bytes([CUSTOM]) + varint(len(body)) + body


def with_most_memory(data: bytes, more: int) -> bytes:
    """Returns a module, with one memory, that can grow by this number of pages at most; it had no limit before."""
    found = data[:MAGIC]
    for number, part in sections(data):
        if number == MEMORY:
            _, at = number_at(part, 1)
            least, _ = number_at(part, at + 2)
            body = b"\1\1" + varint(least) + varint(least + more)
            part = bytes([MEMORY]) + varint(len(body)) + body
        found += part
    return found


class Maker:
    """Makes a module in a folder, with the programs of a kit and `wasm-opt`."""

    def __init__(self, kit: pathlib.Path, lowering: str, folder: pathlib.Path) -> None:
        self.clang = kit / "toolchain" / "bin" / "clang"
        self.lowering = lowering
        self.folder = folder
        # The linker is one program for several formats, and goes by the name that it is called by.
        self.linker = folder / "wasm-ld"
        self.linker.symlink_to((kit / "toolchain" / "bin" / "ld.lld").resolve())

    def object_of(self, ir: pathlib.Path, change: Callable[[str], str]) -> pathlib.Path:
        """Compiles an IR, whose text is changed first, for the module's target, and returns the file of the object."""
        changed, made = self.folder / "module.ll", self.folder / "module.o"
        changed.write_text(retargeted(change(text_of(self.clang, ir, self.folder))), "utf-8")
        run([self.clang, f"--target={MODULE}", *COMPILED, "-c", "-x", "ir", changed, "-o", made], "the module's code")
        return made

    def heap(self) -> pathlib.Path:
        """Compiles the heap, and returns the file of the object."""
        made = self.folder / "heap.o"
        words = [f"-mcpu={OF_MODULE}", "-O3", "-ffreestanding", "-fno-builtin", "-Wall", "-Wextra", "-Werror"]
        allowed = ["-Wno-incompatible-library-redeclaration"]
        run([self.clang, f"--target={MODULE}", *words, *allowed, "-c", HEAP, "-o", made], "the heap")
        return made

    def module(self, ir: pathlib.Path, change: Callable[[str], str] = str) -> bytes:
        """Returns the module of an IR, whose text is changed first. Its stack is at the lowest addresses, so that one
        that is too deep traps."""
        linked, plain, made = (self.folder / name for name in ("linked.wasm", "plain.wasm", "made.wasm"))
        exports = [f"--export={PREFIX}{name}" for name in EXPORTS]
        stack = ["--stack-first", "-z", f"stack-size={STACK}"]
        objects = [self.object_of(ir, change), self.heap()]
        library = ["-mwasm64", "--no-entry", "--gc-sections"]
        run([self.linker, *library, *stack, *exports, *objects, "-o", linked], "linking")
        plain.write_bytes(without_empty_table(linked.read_bytes()))
        features = [f"--enable-{name}" for name in FEATURES]
        run([self.lowering, plain, *features, "--memory64-lowering", "-O2", "-o", made], "wasm-opt")
        return made.read_bytes()
