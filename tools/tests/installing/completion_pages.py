"""Tests of the completions and the pages of the manual that are made from the parsers of the tools."""

import argparse
import os
import pathlib
import shutil
import subprocess
import sys
import unittest

from llbm_tools.commands import old_name
from llbm_tools.installing import installation, tool_pages
from llbm_tools.installing.tool_parsers import Argument, Option, Tool, Value, tool_of
from tests import base
from tests.base import Folder

FILE, FORM = Value("FILE", ()), Value("FORM", ("gzip", "xz"))
MADE = Tool(
    "llbm-x", "llbm-x [-h] [--file FILE] FILE", "Does: it's [this].",
    "Does.\n\nIn: a\n`b`.\n\n- c\n- d\n\nExit status: 0 e.\n",
    (
        Option(("-h", "--help"), (), "show help"), Option(("--file",), (FILE,), "it's a [file]: this one"),
        Option(("--pack",), (FORM,), "how"), Option(("--count",), (Value("N", ()),), "how many"),
    ),
    (Argument(FILE, False, "the file"), Argument(Value("NAME=PATH", ()), True, "a source")),
)  # fmt: skip


class Parsers(unittest.TestCase):
    """The parsers of the tools."""

    def test_every_installed_tool_has_its_own_options_and_arguments(self):
        for command in installation.installed_commands():
            name, tool = command.words, tool_of(command)
            help_page = base.run(name, "--help").stdout.decode()
            self.assertEqual((tool.name, tool.options[0].words), (command.link(), ("-h", "--help")))
            for option in tool.options:
                self.assertIn(", ".join(option.words[:1]), help_page, name)
                self.assertTrue(option.about, (name, option.words))
            for argument in tool.arguments:
                self.assertIn(argument.value.shown, help_page, name)
            self.assertIn("Exit status:", tool.text, name)

    def test_the_parser_of_a_tool_is_read_in_full(self):
        tool = tool_of(old_name("tar-of-tree"))
        words = [("-h", "--help"), ("--version",), ("--mtime",), ("--links",), ("--pack",)]
        self.assertEqual([option.words for option in tool.options], words)
        self.assertEqual(tool.options[4].values, (Value("FORM", ("gzip", "bzip2", "xz", "zstd")),))
        self.assertEqual([argument.value for argument in tool.arguments], [Value("ARCHIVE", ())])
        between = {option.words: option for option in tool_of(old_name("dump")).options}[("--between",)]
        self.assertEqual([value.shown for value in between.values], ["V", "W"])
        self.assertEqual(tool_of(old_name("explain-run")).arguments[1].value, Value("NAME=PATH", ()))

    def test_nothing_is_left_changed(self):
        before = argparse.ArgumentParser.parse_args, list(sys.argv)
        tool_of(old_name("lint"))
        self.assertEqual((argparse.ArgumentParser.parse_args, sys.argv), before)


class Bash(Folder):
    """The completion for bash."""

    def complete(self, *words, before=None):
        """Returns what the last word is completed to, in a folder with two files."""
        at = pathlib.Path(os.fsdecode(self.folder))
        for name in ("file.tree", "other"):
            (at / name).write_text("")
        place = self.file(b"completion", tool_pages.for_bash(MADE).encode())
        script = (
            'source "$0"; current=$1 before=$2; shift 2; COMP_WORDS=("$@"); COMP_CWORD=$(($# - 1)); '
            '_llbm_x llbm-x "$current" "$before"; for one in "${COMPREPLY[@]}"; do echo "$one"; done'
        )
        current = "" if words[-1] == "=" else words[-1]
        command = ["bash", "-c", script, place, current, before or words[-2], *words]
        done = subprocess.run(command, cwd=at, capture_output=True, text=True)
        self.assertEqual((done.returncode, done.stderr), (0, ""), words)
        return sorted(set(done.stdout.splitlines()) - {"completion"})

    def test_options_values_and_files_are_completed(self):
        self.assertEqual(self.complete("llbm-x", "--"), ["--count", "--file", "--help", "--pack"])
        self.assertEqual(self.complete("llbm-x", ""), ["file.tree", "other"])
        self.assertEqual(self.complete("llbm-x", "--file", "f"), ["file.tree"])
        self.assertEqual(self.complete("llbm-x", "--pack", ""), ["gzip", "xz"])
        self.assertEqual(self.complete("llbm-x", "--pack", "=", "g"), ["gzip"])
        self.assertEqual(self.complete("llbm-x", "--count", ""), [])
        self.assertEqual(self.complete("llbm-x", "f", "src", "=", "o"), ["other"])


class Pages(Folder):
    """What is made for all tools."""

    def tools(self):
        """Returns the tool of these tests and all that are installed."""
        return [MADE, *map(tool_of, installation.installed_commands())]

    def test_words_for_zsh_and_fish_are_escaped(self):
        zsh, fish = tool_pages.for_zsh(MADE), tool_pages.for_fish(MADE)
        self.assertIn(r"  '--file[it'\''s a \[file\]\: this one]:FILE:_files'", zsh)
        self.assertIn("  '--pack[how]:FORM:(gzip xz)'", zsh)
        self.assertIn("""  '*:NAME=PATH:{compset -P "*="; _files}'""", zsh)
        self.assertIn(r"complete -c llbm-x -l file -r -d 'it\'s a [file]: this one'", fish)
        self.assertIn("complete -c llbm-x -l pack -x -a 'gzip xz' -d 'how'", fish)

    def test_shells_accept_the_completions(self):
        forms = [("bash", tool_pages.for_bash), ("zsh", tool_pages.for_zsh), ("fish", tool_pages.for_fish)]
        for shell, make in forms:
            for tool in self.tools() if shutil.which(shell) else []:
                place = self.file(b"text", make(tool).encode())
                done = subprocess.run([shell, "-n", place], capture_output=True)
                self.assertEqual((done.returncode, done.stderr), (0, b""), (shell, tool.name))

    def test_the_manual_has_the_head_of_the_module_and_the_options(self):
        lines = tool_pages.manual(MADE, "1.0").splitlines()
        self.assertEqual(lines[0], r'.TH LLBM\-X 1 "" "llbm 1.0" "User Commands"')
        self.assertIn(r"llbm\-x \- does: it\(aqs [this]", lines)
        for paragraph in ("In: a b.", r"\- c", r"\- d"):
            self.assertEqual(lines[lines.index(paragraph) - 1], ".PP")
        self.assertEqual(lines[lines.index(".SH EXIT STATUS") + 1], "0 e.")
        self.assertEqual(lines[lines.index(r"\fB\-\-pack\fR \fIFORM\fR") + 1], "How.")

    def test_pages_of_the_manual_have_no_fault(self):
        for tool in self.tools() if shutil.which("groff") else []:
            page = self.file(b"page", tool_pages.manual(tool, "1.0").encode())
            done = subprocess.run(["groff", "-man", "-Tutf8", "-ww", "-z", page], capture_output=True)
            self.assertEqual((done.returncode, done.stdout, done.stderr), (0, b"", b""), tool.name)
