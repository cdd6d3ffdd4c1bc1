"""Reads from a page in Markdown which commands it shows, and what it shows of their runs."""

import os
import re
from collections.abc import Iterator
from typing import NamedTuple

from llbm_tools.paths import ROOT

PROGRAMS = ("crates/llbm/out/llbm", "out/llbm-unproved")

CHANGE = re.compile(r"\(cd ([\w./-]+) && ")
STATUS = re.compile(r"status ([0-9]+)")
HERE = re.compile(r"<<(-?)\s*(['\"]?)(\w+)\2")
INPUT = re.compile(r"cat > \S+ <<")

PROMPT, TYPED, ERROR = "$ ", ">", "!"


class Part(NamedTuple):
    """A paragraph or a block of a page; the number of its first line, and its lines without the indent."""

    is_block: bool
    is_indented: bool
    number: int
    lines: list[str]


class Reply(NamedTuple):
    """A line that is typed to a command that runs, and what the command then prints."""

    typed: str
    output: str


class Shown(NamedTuple):
    """Commands, and what the page shows of their run; the output and the errors are None if none are shown.

    If lines are typed, the output is what is printed before the first one is typed.
    """

    number: int
    commands: str
    output: str | None
    errors: str | None
    status: int
    replies: tuple[Reply, ...] = ()

    def is_input(self) -> bool:
        """Returns whether the command only makes a file for later commands."""
        return bool(INPUT.match(self.commands)) and not (self.output or self.errors or self.status)


def parts_of(text: str) -> list[Part]:
    """Returns the paragraphs and the blocks of a page; indented lines with empty lines between them are one block."""
    parts: list[Part] = []
    for part in pieces_of(text):
        last = parts[-1] if parts else None
        if last and part.is_indented and last.is_indented:
            gap = part.number - last.number - len(last.lines)
            parts[-1] = last._replace(lines=[*last.lines, *[""] * gap, *part.lines])
        else:
            parts.append(part)
    return parts


def pieces_of(text: str) -> Iterator[Part]:
    """Yields the paragraphs of a page, the blocks between fences, and indented lines."""
    lines: list[str] = []
    is_fenced, number = False, 1
    for place, line in enumerate([*text.split("\n"), ""], 1):
        is_fence = line.startswith("```")
        if is_fence or (not is_fenced and not line.strip()):
            if lines:
                is_indented = not is_fenced and is_code(lines)
                cut = [line[4:] for line in lines] if is_indented else lines
                yield Part(is_fenced or is_indented, is_indented, number, cut)
            lines, is_fenced = [], is_fenced != is_fence
        else:
            number = number if lines else place
            lines.append(line)


def is_code(lines: list[str]) -> bool:
    """Returns whether lines are indented like a block."""
    return all(line.startswith("    ") for line in lines)


def is_command(line: str) -> bool:
    """Returns whether a line begins with a program of this repository, or with `rt`."""
    change = CHANGE.match(line)
    folder = ROOT / change[1] if change else ROOT
    word = line[change.end() if change else 0 :].split(" ", 1)[0]
    if word in (*PROGRAMS, "rt"):
        return True
    return "/" in word and not word.startswith("/") and os.access(folder / word, os.X_OK) and (folder / word).is_file()


def command_at(lines: list[str], place: int) -> int:
    """Returns the place after the command that begins at a place.

    It goes on after a backslash at the end of its line, and has the lines up to each `END` that `<< END` names.
    """
    ends: list[tuple[str, str]] = []
    while place < len(lines):
        line = lines[place]
        place += 1
        if ends and (line.lstrip("\t") if ends[0][0] else line) == ends[0][1]:
            ends.pop(0)
        elif not ends:
            ends = [(found[1], found[3]) for found in HERE.finditer(line)]
            if line.endswith("\\"):
                continue
        if not ends:
            break
    return place


def prompted(part: Part) -> Iterator[Shown]:
    """Yields the commands of a block whose lines begin with `$ `, each with the output below it."""
    place = 0
    while place < len(part.lines):
        end = command_at(part.lines, place)
        following = (at for at in range(end, len(part.lines)) if part.lines[at].startswith(PROMPT))
        last = next(following, len(part.lines))
        commands = "\n".join(part.lines[place:end])[len(PROMPT) :]
        yield with_lines(Shown(part.number + place, commands, "", "", 0), part.lines[end:last])
        place = last


def with_lines(shown: Shown, lines: list[str]) -> Shown:
    """Returns a command with the lines below it: output, lines that are typed, lines with `! `, and a status."""
    left = list(lines)
    if left and (found := STATUS.fullmatch(left[-1])):
        shown = shown._replace(status=int(found[1]))
        left.pop()
    errors: list[str] = []
    while left and (left[-1] == ERROR or left[-1].startswith(f"{ERROR} ")):
        errors.insert(0, left.pop()[2:])
    outputs: list[tuple[str | None, list[str]]] = [(None, [])]
    for line in left:
        if line == TYPED or line.startswith(f"{TYPED} "):
            outputs.append((line[2:], []))
        else:
            outputs[-1][1].append(line)
    replies = tuple(Reply(typed, ended(printed)) for typed, printed in outputs if typed is not None)
    return shown._replace(output=ended(outputs[0][1]), errors=ended(errors), replies=replies)


def ended(lines: list[str]) -> str:
    """Returns lines as a text."""
    return "".join(line + "\n" for line in lines)


def is_block_of_commands(lines: list[str]) -> bool:
    """Returns whether the first line of a block that does not only make directories is a command."""
    return is_command(next((line for line in lines if not line.startswith("mkdir ")), ""))


def shown_by(parts: list[Part]) -> Iterator[Shown]:
    """Yields the commands that a page shows, in order."""
    for part in parts:
        if part.is_block and part.lines[0].startswith(PROMPT):
            yield from prompted(part)
        elif part.is_block and is_block_of_commands(part.lines):
            yield Shown(part.number, "\n".join(part.lines), None, None, 0)
