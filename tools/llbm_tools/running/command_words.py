"""The command line of the program as a table, and completions for three shells and a page of the manual made of it.

The table has what `llbm --help` and the help of each command say; a test compares them.
"""

from typing import NamedTuple

MOST_WORKERS = 64
ABOUT = "Solves graphs of BuildKit's LLB"
USUALLY = "Without a command the definition is run by one worker, on no local sources."


class Option(NamedTuple):
    """An option: its long form, its short form if it has one, the name of its value if it takes one, and its help."""

    long: str
    short: str
    value: str
    about: str

    def words(self) -> list[str]:
        """Returns the words that name the option."""
        return [f"-{self.short}", f"--{self.long}"] if self.short else [f"--{self.long}"]


class Argument(NamedTuple):
    """An argument, as the usage of its command shows it, and its help."""

    shown: str
    about: str


class Command(NamedTuple):
    """A command: its name, its help, its options and its arguments, in the order of its help page."""

    name: str
    about: str
    options: tuple[Option, ...]
    arguments: tuple[Argument, ...] = ()


def workers(usual: int) -> Option:
    """Returns the option for the number of workers."""
    return Option("workers", "", "N", f"The number of workers, 1 to {MOST_WORKERS}; without it, {usual}")


LOOKS = Option("looks", "", "", "Answer looks at workers, caches and the graph")
ENDS = Option("ends", "", "", "End each reply with an empty line")
FINDINGS = Option("findings", "", "", "Print all faults of the definition instead")
PLAN = Option("plan", "", "", "Print for each vertex whether what it reads goes by value")
MATCHES = Option("matches", "", "OLD", "Print for each vertex which vertex of the definition OLD it matches")
OPS = Option("ops", "", "", "Print the ops of all entries that can be read instead")
AGREES = Option("agrees", "", "NEW", "Print for each vertex whether it reads the same of the tree NEW and of each OLD")
OLDER = Option("older", "", "NAME=OLD", "The older tree of the local source NAME, with --agrees")
HELP = Option("help", "h", "", "Print help")
VERSION = Option("version", "V", "", "Print version")
LOCAL = Argument("[NAME=FILE]...", "The tree of the local source NAME, as its text in FILE")
FILE = Argument("<FILE>", "The definition")

OPTIONS = (HELP, VERSION)
COMMANDS = (
    Command(
        "run", "Runs the definition on standard input, and prints the tree of its result", (workers(1), HELP), (LOCAL,)
    ),
    Command(
        "show", "Prints the graph of the definition on standard input",
        (FINDINGS, PLAN, MATCHES, OPS, AGREES, OLDER, HELP),
    ),
    Command(
        "step", "Steps through the run of a definition, by commands on standard input", (workers(2), LOOKS, ENDS, HELP),
        (FILE, LOCAL),
    ),
    Command("asm", "Writes the definition of the entries in the text on standard input", (HELP,)),
    Command("dis", "Prints the entries of the definition on standard input, as text", (HELP,)),
)

# `=` is a word of its own in COMP_WORDS, so the word before what is completed after `NAME=` or `--workers=` is `=`.
BASH = """# Completion of llbm for bash: commands, options, numbers of workers, and files after NAME=.
_llbm() {
  local current=${2#=} before=$3 words='@FIRST@' takes_files=0
  if [ "$COMP_CWORD" -gt 1 ]; then
    case ${COMP_WORDS[1]} in
@CASES@
    esac
  fi
  if [ "$before" = = ]; then
    before=${COMP_WORDS[COMP_CWORD - 2]}=
  elif [ "${COMP_WORDS[COMP_CWORD]}" = = ]; then
    before+='='
  fi
  case $before in
    --workers | --workers=) mapfile -t COMPREPLY < <(compgen -W "$(echo {1..@MOST@})" -- "$current") ;;
    *=) mapfile -t COMPREPLY < <(compgen -f -- "$current") ;;
    *)
      if [[ $takes_files = 1 && $current != -* ]]; then
        mapfile -t COMPREPLY < <(compgen -f -- "$current")
      else
        mapfile -t COMPREPLY < <(compgen -W "$words" -- "$current")
      fi
      ;;
  esac
}
complete -o filenames -F _llbm llbm
"""

ZSH = """#compdef llbm
# Completion of llbm for zsh: commands, options, numbers of workers, and files after NAME=.
_llbm_local() {
  if compset -P '*='; then _files; else _message 'NAME=FILE: a local source'; fi
}
_llbm() {
  local state line
  local -a commands=(
@COMMANDS@
  )
  _arguments -C \\
@OPTIONS@
    '1: :->command' '*:: :->words'
  case $state in
    command) _describe command commands ;;
    words)
      case $line[1] in
@CASES@
      esac
      ;;
  esac
}
_llbm "$@"
"""

EXIT_STATUS = (
    ("0", "The result, the graph, the text or the definition is written, or the session has ended."),
    ("1", "A vertex failed: standard error has a line `failed V ..`."),
    ("2", "The definition, a text or the command line is refused: standard error has a line `fault ..`."),
    ("3", "A read, a write or memory failed."),
)
LIMITS = (
    "A definition, a text or a tree has at most 64 MiB. "
    "A definition has at most 65,536 entries, and a repeated field of an entry at most 1,024 members."
)


def first_words() -> str:
    """Returns the words that may be the first one."""
    return " ".join([*(command.name for command in COMMANDS), *option_words(OPTIONS)])


def option_words(options: tuple[Option, ...]) -> list[str]:
    """Returns the words of some options."""
    return [word for option in options for word in option.words()]


def for_bash() -> str:
    """Returns the completion for bash."""
    cases = []
    for command in COMMANDS:
        words, takes_files = " ".join(option_words(command.options)), int(bool(command.arguments))
        cases.append(f"      {command.name}) words='{words}' takes_files={takes_files} ;;")
    cases.append("      *) words='' ;;")
    text = BASH.replace("@FIRST@", first_words()).replace("@MOST@", str(MOST_WORKERS))
    return text.replace("@CASES@", "\n".join(cases))


def zsh_option(option: Option) -> str:
    """Returns an option as a word of `_arguments`."""
    value = f":{option.value}:({{1..{MOST_WORKERS}}})" if option.value else ""
    if option.short:
        return f"'(-{option.short} --{option.long})'{{-{option.short},--{option.long}}}'[{option.about}]'"
    return f"'--{option.long}=[{option.about}]{value}'"


def zsh_words(command: Command) -> str:
    """Returns the options and arguments of a command as words of `_arguments`."""
    words = [zsh_option(option) for option in command.options]
    for place, argument in enumerate(command.arguments, 1):
        action = "_llbm_local" if argument is LOCAL else "_files"
        words.append(f"'{'*' if argument is LOCAL else place}:{argument.about}:{action}'")
    return " ".join(words)


def for_zsh() -> str:
    """Returns the completion for zsh."""
    commands = "\n".join(f"    '{command.name}:{command.about}'" for command in COMMANDS)
    options = "\n".join(f"    {zsh_option(option)} \\" for option in OPTIONS)
    cases = "\n".join(f"        {command.name}) _arguments {zsh_words(command)} ;;" for command in COMMANDS)
    return ZSH.replace("@COMMANDS@", commands).replace("@OPTIONS@", options).replace("@CASES@", cases)


def fish_option(option: Option, condition: str) -> str:
    """Returns the line for an option where a condition holds."""
    short = f" -s {option.short}" if option.short else ""
    value = f" -x -a '(seq {MOST_WORKERS})'" if option.value else ""
    return f"complete -c llbm -n '{condition}' -l {option.long}{short}{value} -d '{option.about}'"


def for_fish() -> str:
    """Returns the completion for fish; it completes files after `NAME=` by itself."""
    lines = ["# Completion of llbm for fish: commands, options, numbers of workers, and files.", "complete -c llbm -f"]
    for command in COMMANDS:
        lines.append(f"complete -c llbm -n __fish_use_subcommand -a {command.name} -d '{command.about}'")
    lines += [fish_option(option, "__fish_use_subcommand") for option in OPTIONS]
    for command in COMMANDS:
        condition = f"__fish_seen_subcommand_from {command.name}"
        lines += [fish_option(option, condition) for option in command.options]
        if command.arguments:
            lines.append(f"complete -c llbm -n '{condition}' -F")
    return "\n".join(lines) + "\n"


def roff(text: str) -> str:
    """Returns a text for a page of the manual, in which no character has another meaning."""
    escaped = text.replace("\\", "\\e").replace("-", "\\-").replace("'", "\\(aq").replace("`", "")
    return "\\&" + escaped if escaped.startswith(".") else escaped


def usage(command: Command) -> str:
    """Returns the usage of a command, as its help page shows it."""
    options = [] if command.options == (HELP,) else ["[OPTIONS]"]
    return " ".join(["llbm", command.name, *options, *(argument.shown for argument in command.arguments)])


def manual_of(command: Command) -> list[str]:
    """Returns the lines of the manual on a command."""
    lines = [".SS " + roff(usage(command)), roff(command.about) + "."]
    for argument in command.arguments:
        lines += [".TP", f"\\fB{roff(argument.shown)}\\fR", roff(argument.about) + "."]
    for option in command.options:
        value = f" \\fI{option.value}\\fR" if option.value else ""
        lines += [".TP", f"\\fB{roff(', '.join(option.words()))}\\fR{value}", roff(option.about) + "."]
    return lines


def manual(version: str) -> str:
    """Returns the page of the manual for a version of the program."""
    lines = [
        f'.TH LLBM 1 "" "llbm {version}" "User Commands"', ".SH NAME", "llbm \\- " + roff(ABOUT[0].lower() + ABOUT[1:]),
        ".SH SYNOPSIS", "\\fBllbm\\fR [\\fICOMMAND\\fR]", ".SH DESCRIPTION", roff(USUALLY),
        "The pages that ask for help or for the version are printed on standard error, below a line of fault 183.",
        ".SH COMMANDS",
    ]
    for command in COMMANDS:
        lines += manual_of(command)
    lines.append(".SH OPTIONS")
    for option in OPTIONS:
        lines += [".TP", f"\\fB{roff(', '.join(option.words()))}\\fR", roff(option.about) + "."]
    lines += [".SH EXIT STATUS", *(line for status, meaning in EXIT_STATUS for line in (".TP", status, roff(meaning)))]
    lines += [".SH LIMITS", LIMITS, ".SH SEE ALSO", "\\fBllbm\\-explain\\fR explains a line of a fault or a failure."]
    return "\n".join(lines) + "\n"
