"""Completions for three shells, and a page of the manual: of a command as its parser has it, and of the users' door."""

import re
from collections.abc import Iterable, Iterator

from llbm_tools.commands import Command
from llbm_tools.installing.tool_parsers import Argument, Option, Tool, Value
from llbm_tools.running.command_words import roff

BASH = """# Completion of @NAME@ for bash: options, their values, and files.
@FUNCTION@() {
  local current=${2#=} before=$3
  COMPREPLY=()
  if [ "$before" = = ]; then
    before=${COMP_WORDS[COMP_CWORD - 2]}=
  elif [ "${COMP_WORDS[COMP_CWORD]}" = = ]; then
    before+='='
  fi
  case ${before%=} in
@CASES@
  esac
  case $before in
    *=) mapfile -t COMPREPLY < <(compgen -f -- "$current") ;;
    *)
      if [[ $current = -* ]]; then
        mapfile -t COMPREPLY < <(compgen -W '@OPTIONS@' -- "$current")
      else
        @ARGUMENTS@
      fi
      ;;
  esac
}
complete -o filenames -F @FUNCTION@ @NAME@
"""
FILES_IN_BASH = 'mapfile -t COMPREPLY < <(compgen -f -- "$current")'

EXIT_STATUS = "Exit status:"


def function_of(tool: Tool) -> str:
    """Returns the name of the function that completes a tool."""
    return "_" + tool.name.replace("-", "_")


def words_in_bash(choices: tuple[str, ...]) -> str:
    """Returns the command that completes one of some words."""
    return f"mapfile -t COMPREPLY < <(compgen -W '{' '.join(choices)}' -- \"$current\")"


def value_in_bash(value: Value) -> str:
    """Returns the command that completes a value."""
    if value.choices:
        return words_in_bash(value.choices)
    return FILES_IN_BASH if value.is_file() else ":"


def for_bash(tool: Tool) -> str:
    """Returns the completion for bash."""
    cases = [
        f"    {' | '.join(option.words)}) {value_in_bash(option.values[0])}; return ;;"
        for option in tool.options if option.values
    ]  # fmt: skip
    words = " ".join(word for option in tool.options for word in option.words)
    choices = tuple(choice for argument in tool.arguments for choice in argument.value.choices)
    takes_files = any(argument.value.is_file() for argument in tool.arguments)
    text = BASH.replace("@ARGUMENTS@", FILES_IN_BASH if takes_files else words_in_bash(choices) if choices else ":")
    text = text.replace("@CASES@", "\n".join(cases) or "    *) ;;").replace("@OPTIONS@", words)
    return text.replace("@FUNCTION@", function_of(tool)).replace("@NAME@", tool.name)


def in_zsh(text: str) -> str:
    """Returns a text as a part of a word of `_arguments` in single quotes."""
    return re.sub(r"([\[\]:\\])", r"\\\1", text).replace("'", "'\\''")


def action_in_zsh(value: Value) -> str:
    """Returns how zsh completes a value."""
    if value.choices:
        return f"({' '.join(value.choices)})"
    if value.is_named():
        return '{compset -P "*="; _files}'
    return "_files" if value.is_file() else ""


def option_in_zsh(option: Option) -> str:
    """Returns an option as a word of `_arguments`."""
    values = "".join(f":{in_zsh(value.shown)}:{action_in_zsh(value)}" for value in option.values)
    about = f"[{in_zsh(option.about)}]{values}"
    if len(option.words) == 1:
        return f"'{option.words[0]}{about}'"
    return f"'({' '.join(option.words)})'{{{','.join(option.words)}}}'{about}'"


def argument_in_zsh(place: int, argument: Argument) -> str:
    """Returns an argument as a word of `_arguments`."""
    number = "*" if argument.is_repeated else str(place)
    return f"'{number}:{in_zsh(argument.value.shown)}:{action_in_zsh(argument.value)}'"


def for_zsh(tool: Tool) -> str:
    """Returns the completion for zsh."""
    words = [option_in_zsh(option) for option in tool.options]
    words += [argument_in_zsh(place, argument) for place, argument in enumerate(tool.arguments, 1)]
    lines = " \\\n".join(f"  {word}" for word in words)
    return f"#compdef {tool.name}\n# Completion of {tool.name} for zsh.\n_arguments \\\n{lines}\n"


def in_fish(text: str) -> str:
    """Returns a text in single quotes."""
    return "'" + text.replace("\\", "\\\\").replace("'", "\\'") + "'"


def option_in_fish(option: Option, name: str) -> str:
    """Returns the line of an option."""
    words = [f"-l {word[2:]}" if word.startswith("--") else f"-s {word[1:]}" for word in option.words]
    values = []
    for value in option.values[:1]:
        words_of_value = f"-x -a {in_fish(' '.join(value.choices))}"
        values.append(words_of_value if value.choices else "-r" if value.is_file() else "-x")
    return " ".join(["complete", "-c", name, *words, *values, "-d", in_fish(option.about)])


def for_fish(tool: Tool) -> str:
    """Returns the completion for fish; it completes files by itself."""
    lines = [f"# Completion of {tool.name} for fish.", *(option_in_fish(option, tool.name) for option in tool.options)]
    choices = [choice for argument in tool.arguments for choice in argument.value.choices]
    if choices:
        lines.append(f"complete -c {tool.name} -a {in_fish(' '.join(choices))}")
    if not any(argument.value.is_file() for argument in tool.arguments):
        lines.append(f"complete -c {tool.name} -f")
    return "\n".join(lines) + "\n"


def paragraphs_of(text: str) -> Iterator[str]:
    """Yields the paragraphs of a module's head but the first, each as one line; an item of a list is a paragraph."""
    for part in text.strip().split("\n\n")[1:]:
        for item in re.split(r"\n(?=- )", part):
            yield " ".join(item.split())


def described(shown: str, about: str) -> list[str]:
    """Returns the lines of an option or an argument."""
    return [".TP", shown, roff(sentence_of(about))]


def sentence_of(text: str) -> str:
    """Returns a text as a sentence: it begins with a capital, and ends with a full stop."""
    return text[:1].upper() + text[1:] + ("" if text.endswith(".") else ".")


def option_in_manual(option: Option) -> list[str]:
    """Returns the lines of an option."""
    values = "".join(f" \\fI{roff(value.shown)}\\fR" for value in option.values)
    return described(f"\\fB{roff(', '.join(option.words))}\\fR{values}", option.about)


def manual(tool: Tool, version: str) -> str:
    """Returns the page of the manual of a tool, for a version of the program."""
    about = tool.about.rstrip(".")
    lines = [
        f'.TH {roff(tool.name.upper())} 1 "" "llbm {version}" "User Commands"', ".SH NAME",
        f"{roff(tool.name)} \\- {roff(about[:1].lower() + about[1:])}", ".SH SYNOPSIS", roff(tool.usage),
        ".SH DESCRIPTION", roff(tool.about),
    ]  # fmt: skip
    statuses = []
    for paragraph in paragraphs_of(tool.text):
        if paragraph.startswith(EXIT_STATUS):
            statuses.append(paragraph.removeprefix(EXIT_STATUS).strip())
        else:
            lines += [".PP", roff(paragraph)]
    if tool.arguments:
        lines.append(".SH ARGUMENTS")
    for argument in tool.arguments:
        lines += described(f"\\fI{roff(argument.value.shown)}\\fR", argument.about)
    lines.append(".SH OPTIONS")
    for option in tool.options:
        lines += option_in_manual(option)
    lines += [line for status in statuses for line in (".SH EXIT STATUS", roff(sentence_of(status)))]
    return "\n".join([*lines, ".SH SEE ALSO", "\\fBllbm\\fR(1)"]) + "\n"


DOOR_IN_BASH = """# Completion of llbm-tools for bash: the words of its commands, and then what the command takes.
_llbm_tools() {
  local words= next place
  for ((place = 1; place < COMP_CWORD; place++)); do
    next="${words:+$words }${COMP_WORDS[place]}"
    case "|@COMMANDS@|" in
      *"|$next|"* | *"|$next "*) words=$next ;;
      *) break ;;
    esac
  done
  if ((place == COMP_CWORD)); then
    case $words in
@CASES@
    esac
  fi
  local command=llbm-${words// /-}
  local complete=_${command//-/_}
  declare -F "$complete" > /dev/null || . "${BASH_SOURCE[0]%/*}/$command" 2> /dev/null || return 0
  "$complete" "$command" "$2" "$3"
}
complete -o filenames -F _llbm_tools llbm-tools
"""
DOOR_IN_ZSH = """#compdef llbm-tools
# Completion of llbm-tools for zsh: the words of its commands, and then what the command takes.
local said= next place
for ((place = 2; place < CURRENT; place++)); do
  next="${said:+$said }${words[place]}"
  case "|@COMMANDS@|" in
    *"|$next|"* | *"|$next "*) said=$next ;;
    *) break ;;
  esac
done
if ((place == CURRENT)); then
  case $said in
@CASES@
  esac
fi
local command=llbm-${said// /-}
words=($command "${(@)words[place,-1]}")
((CURRENT -= place - 2))
_call_function ret "_$command"
"""


def words_after(commands: Iterable[Command]) -> dict[str, list[str]]:
    """Returns for the words with which a command can begin, and for none, the words that can follow."""
    found: dict[str, list[str]] = {}
    for words in (command.words.split(" ") for command in commands):
        for place, word in enumerate(words):
            following = found.setdefault(" ".join(words[:place]), [])
            if word not in following:
                following.append(word)
    return found


def door_for_bash(commands: list[Command]) -> str:
    """Returns the completion of the users' door for bash."""
    add = 'mapfile -t COMPREPLY < <(compgen -W "{}" -- "$2"); [ -z "$words" ] && return'
    lines = [f'      "{begin}") {add.format(" ".join(words))} ;;' for begin, words in words_after(commands).items()]
    return with_commands(DOOR_IN_BASH, commands, lines)


def door_for_zsh(commands: list[Command]) -> str:
    """Returns the completion of the users' door for zsh."""
    lines = [f'    "{begin}") compadd -- {" ".join(words)} ;;' for begin, words in words_after(commands).items()]
    return with_commands(DOOR_IN_ZSH, commands, lines)


def with_commands(text: str, commands: list[Command], cases: list[str]) -> str:
    """Returns a text with the words of all commands, and the lines for what can follow them."""
    return text.replace("@COMMANDS@", "|".join(one.words for one in commands)).replace("@CASES@", "\n".join(cases))


def door_for_fish(commands: list[Command]) -> str:
    """Returns the completion of the users' door for fish, which completes files by itself."""
    lines = ["# Completion of llbm-tools for fish: the words of its commands."]
    for begin, words in words_after(commands).items():
        typed = " ".join(["llbm-tools", *begin.split()])
        lines.append(f"complete -c llbm-tools -n 'test \"(commandline -opc)\" = \"{typed}\"' -a '{' '.join(words)}'")
    return "\n".join(lines) + "\n"


def door_manual(tables: dict[str, list[Command]], version: str) -> str:
    """Returns the page of the manual of the users' door."""
    lines = [
        f'.TH LLBM\\-TOOLS 1 "" "llbm {version}" "User Commands"', ".SH NAME",
        "llbm\\-tools \\- the tools around llbm", ".SH SYNOPSIS", "llbm\\-tools COMMAND [WORD ..]", ".SH DESCRIPTION",
        "Starts a command by its words. Each has a page of its own, as llbm\\-build(1) or llbm\\-tree\\-from\\-tar(1).",
    ]  # fmt: skip
    for about, commands in tables.items():
        lines.append(f".SH {about.upper()}")
        for command in commands:
            lines += [".TP", f"\\fB{roff(command.words)}\\fR", roff(sentence_of(command.about))]
    return "\n".join([*lines, ".SH SEE ALSO", "\\fBllbm\\fR(1)"]) + "\n"
