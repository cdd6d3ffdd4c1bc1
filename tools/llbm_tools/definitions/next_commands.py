"""Names the commands that help where the program refuses a definition of another frontend."""

import re

from llbm_tools import commands

# The faults of rows that adopting can mend.
ADOPTED = re.compile(r"fault (?:86|88|89) ")


def hint_of(line: str) -> str:
    """Returns which commands help with a line of the program; empty if none does more than the line's explanation."""
    if not ADOPTED.match(line):
        return ""
    return f"{commands.shown('lint')} prints all, {commands.shown('adopt')} rewrites what can be"
