"""Tests of the table of the program's command line: its pages of help, completions and the page of the manual."""

import os
import pathlib
import shutil
import subprocess
import unittest

from llbm_tools.running import command_words as table
from tests import base
from tests.base import Folder

NUMBERS = ["6", "60", "61", "62", "63", "64"]


def aligned(rows):
    """Returns rows of two columns, with spaces between them as `clap` sets them."""
    width = max(len(first) for first, _ in rows)
    return "".join(f"  {first:<{width}}  {second}\n" for first, second in rows)


def options_of(options):
    """Returns the rows of options, as `clap` shows them."""
    indent = "    " if any(option.short for option in options) else ""
    rows = []
    for option in options:
        short = f"-{option.short}, " if option.short else indent
        rows.append((f"{short}--{option.long}" + (f" <{option.value}>" if option.value else ""), option.about))
    return f"\nOptions:\n{aligned(rows)}"


def page_of(command):
    """Returns the page of help on a command."""
    options = [] if command.options == (table.HELP,) else ["[OPTIONS]"]
    usage = " ".join(["llbm", command.name, *options, *(argument.shown for argument in command.arguments)])
    arguments = f"\nArguments:\n{aligned(list(command.arguments))}" if command.arguments else ""
    return f"{command.about}\n\nUsage: {usage}\n{arguments}{options_of(command.options)}"


def page():
    """Returns the page of help on the program."""
    commands = aligned([(command.name, command.about) for command in table.COMMANDS])
    head = f"{table.ABOUT}\n\nUsage: llbm [COMMAND]\n\nCommands:\n{commands}"
    return f"{head}{options_of(table.OPTIONS)}\n{table.USUALLY}\n"


class Pages(unittest.TestCase):
    """The program's pages of help say what the table says."""

    def help(self, *words):
        """Returns the page of help that the program prints for these words."""
        if base.llbm is None:
            self.skipTest("the program llbm is needed (--llbm PROGRAM)")
        done = subprocess.run([base.llbm, *words, "--help"], capture_output=True, text=True)
        line, _, text = done.stderr.partition("\n")
        self.assertEqual((done.returncode, line), (2, "fault 183"))
        return text

    def test_the_page_of_the_program_is_that_of_the_table(self):
        self.assertEqual(self.help(), page())

    def test_the_page_of_each_command_is_that_of_the_table(self):
        for command in table.COMMANDS:
            self.assertEqual(self.help(command.name), page_of(command))


class Bash(Folder):
    """The completion for bash."""

    def complete(self, *words, before=None):
        """Returns what the last word is completed to, in a folder with two files."""
        at = pathlib.Path(os.fsdecode(self.folder))
        for name in ("file.tree", "other"):
            (at / name).write_text("")
        place = self.file(b"completion", table.for_bash().encode())
        script = (
            'source "$0"; current=$1 before=$2; shift 2; COMP_WORDS=("$@"); COMP_CWORD=$(($# - 1)); '
            '_llbm llbm "$current" "$before"; for one in "${COMPREPLY[@]}"; do echo "$one"; done'
        )
        current = "" if words[-1] == "=" else words[-1]
        command = ["bash", "-c", script, place, current, before or words[-2], *words]
        done = subprocess.run(command, cwd=at, capture_output=True, text=True)
        self.assertEqual((done.returncode, done.stderr), (0, ""), words)
        return sorted(set(done.stdout.splitlines()) - {"completion"})

    def test_commands_and_options_are_completed(self):
        first = sorted(["run", "show", "step", "asm", "dis", "-h", "--help", "-V", "--version"])
        self.assertEqual(self.complete("llbm", ""), first)
        self.assertEqual(self.complete("llbm", "s"), ["show", "step"])
        self.assertEqual(self.complete("llbm", "run", "-"), ["--help", "--workers", "-h"])
        of_show = ["--agrees", "--findings", "--help", "--matches", "--older", "--ops", "--plan", "-h"]
        self.assertEqual(self.complete("llbm", "show", "-"), of_show)
        self.assertEqual(self.complete("llbm", "nosuch", ""), [])

    def test_numbers_of_workers_are_completed(self):
        self.assertEqual(self.complete("llbm", "run", "--workers", "6"), NUMBERS)
        self.assertEqual(self.complete("llbm", "step", "--workers", "=", "6"), NUMBERS)

    def test_files_are_completed(self):
        self.assertEqual(self.complete("llbm", "step", "f"), ["file.tree"])
        self.assertEqual(self.complete("llbm", "run", "src", "=", "f"), ["file.tree"])
        self.assertEqual(self.complete("llbm", "run", "src", "="), ["file.tree", "other"])
        self.assertEqual(self.complete("llbm", "show", "f"), [])


class Texts(Folder):
    """The other completions, and the page of the manual."""

    def test_every_word_of_the_table_is_in_each_completion(self):
        for text, dashes in [(table.for_bash(), "--"), (table.for_zsh(), "--"), (table.for_fish(), "-l ")]:
            for command in table.COMMANDS:
                self.assertIn(command.name, text)
                for option in command.options:
                    self.assertIn(dashes + option.long, text)

    def test_shells_accept_the_completions(self):
        for shell, text in [("bash", table.for_bash()), ("zsh", table.for_zsh()), ("fish", table.for_fish())]:
            if shutil.which(shell):
                done = subprocess.run([shell, "-n", self.file(b"text", text.encode())], capture_output=True)
                self.assertEqual((done.returncode, done.stderr), (0, b""), shell)

    def test_the_manual_has_every_command_and_no_fault(self):
        text = table.manual("1.0")
        for command in table.COMMANDS:
            self.assertIn(f".SS llbm {command.name}", text)
        if shutil.which("groff"):
            command = ["groff", "-man", "-Tutf8", "-ww", "-z", self.file(b"page", text.encode())]
            done = subprocess.run(command, capture_output=True)
            self.assertEqual((done.returncode, done.stdout, done.stderr), (0, b"", b""))
