"""Makes a new result from the last one if nothing but contents of files has changed: the program need not run again.

It would get the texts that it got, with the same tokens, and print what it printed. That this serves the new contents
as it served the old ones is the law `board_serves_each_table` of crates/llb_laws: if tokens stand for contents by one
table, the result with each token replaced by its content in any other table is that of a run on those contents. What
the law asks was seen to by the last build, which was asked for the same (`Memory.load`) and gave by value what has to
be so (`plans`), and by `keeps_tokens`, which each file that is in another state has to pass before there is a
renewal: each source is what it was but for contents that have tokens (`AreSpelled`).
"""

import binascii
import os
from collections.abc import Iterable

from llbm_tools.building import build_folders, child_processes, replaced_results
from llbm_tools.building.build_requests import Named, Request
from llbm_tools.building.kept_builds import Build, forget, state_at
from llbm_tools.building.kept_changes import Changes, Memory
from llbm_tools.building.result_texts import Line, read_line
from llbm_tools.common import say
from llbm_tools.trees import content_tokens
from llbm_tools.trees.content_tokens import Copier, Table, pieces_of, token
from llbm_tools.trees.kept_sources import Kept, Structure, bytes_of


def token_of(last: Build, number: int) -> tuple[int, Kept, int]:
    """Returns the source of a token, and its place in what was kept; if it is of no directory, raises Structure."""
    for source, kept in enumerate(last.sources):
        if isinstance(kept, Kept) and number in kept.numbers:
            return source, kept, kept.numbers.index(number)
    raise Structure


def size_of(last: Build, number: int) -> int:
    """Returns the size that the content of a token had in the last build."""
    _, kept, place = token_of(last, number)
    return kept.state(place)[1]


def lines_with(text: bytes, numbers: Iterable[int]) -> dict[bytes, Line]:
    """Returns the files of a result's text whose contents have one of these tokens, by path."""
    found: dict[bytes, Line] = {}
    for number in numbers:
        word = token(number)
        at = text.find(word.hex().encode())
        while at >= 0:
            start, end = text.rfind(b"\n", 0, at) + 1, text.index(b"\n", at) + 1
            line = read_line(text[start:end])
            if number in pieces_of(binascii.unhexlify(line.content or b"")):
                found[line.path] = line
            at = text.find(word.hex().encode(), end)
    return found


class Renewal:
    """The files of a result whose contents have changed, where their contents are now, and the size of all contents."""

    def __init__(self, changes: Changes, sources: list[Named]) -> None:
        self.last = changes.last
        self.sources = sources
        self.table = Table()
        self.roots: dict[int, int] = {}
        self.tokens: dict[int, bytes] = {}
        self.bytes = self.last.bytes
        self.lines = [self.renewed(line) for line in lines_with(bytes_of(self.last.text), changes.numbers()).values()]

    def renewed(self, line: Line) -> Line:
        """Returns a file with the tokens that its contents have in the table of this build."""
        pieces = list(pieces_of(binascii.unhexlify(line.content or b"")))
        content = b"".join(one if isinstance(one, bytes) else self.token(one) for one in pieces)
        before = sum(len(one) if isinstance(one, bytes) else size_of(self.last, one) for one in pieces)
        self.bytes += Copier(self.table).size(content) - before
        return line._replace(content=binascii.hexlify(content))

    def token(self, number: int) -> bytes:
        """Returns the token of a content in the table of this build, by its token in the last one."""
        if number not in self.tokens:
            source, kept, place = token_of(self.last, number)
            path, name = kept.file(place)
            root = self.root(source)
            directory = self.table.add_directory(root, path)
            below = os.open(path[1:] or b".", content_tokens.DIRECTORY, dir_fd=self.table.roots[root][0])
            try:
                found = os.stat(name, dir_fd=below, follow_symlinks=False)
            finally:
                os.close(below)
            self.tokens[number] = token(self.table.add_file(directory, name, found))
        return self.tokens[number]

    def root(self, source: int) -> int:
        """Returns the number of the directory of a source in the table."""
        if source not in self.roots:
            place = self.sources[source].place
            self.roots[source] = self.table.add_root(os.open(place, os.O_RDONLY | os.O_DIRECTORY), place)
        return self.roots[source]

    def close(self) -> None:
        """Closes the directories of the sources."""
        self.table.close()


def replace_lines(renewal: Renewal, request: Request, memory: Memory, folder: str) -> None:
    """Writes the files whose contents have changed."""
    new = {line.path: line for line in renewal.lines}
    place = replaced_results.common_place(new)
    below = replaced_results.lines_at(bytes_of(renewal.last.text), place)
    part = replaced_results.Part(place, [new.get(line.path, line) for line in below], set(new))
    forget(memory.place)
    replaced_results.replace(part, request.result, folder, renewal.table, request.options.mtime)


def renew(request: Request, memory: Memory, changes: Changes) -> bool:
    """Puts the changed contents into the last result, and returns whether that was possible.

    A result that gets too large has to be refused, so it is made, and measured, as a whole.
    """
    with child_processes.held_back():
        folder = build_folders.made(build_folders.RESULT, request.above)
    try:
        renewal = Renewal(changes, request.sources)
        try:
            if renewal.bytes > request.options.largest:
                return False
            if renewal.lines:
                replace_lines(renewal, request, memory, folder)
            else:
                say(f"{request.result} stays as it is")
        finally:
            renewal.close()
    except (Structure, OSError):
        return False
    finally:
        child_processes.remove(folder)
    renewed = changes.renewed(memory.began) or changes.last
    memory.store(renewed._replace(result=state_at(request.result), bytes=renewal.bytes))
    return True
