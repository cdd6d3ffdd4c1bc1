"""Commands of the program that say something of a definition on their standard input."""

import subprocess

from llbm_tools.streams import REFUSED, Failed, check_program


class Answer:
    """What the program printed, and whether it has refused the definition."""

    def __init__(self, text: str, is_refused: bool) -> None:
        self.text = text
        self.is_refused = is_refused


def ask(program: str, *words: str, given: bytes) -> Answer:
    """Returns the answer of a command; raises Refused if the program is not llbm, and Failed if it has failed."""
    try:
        done = subprocess.run([program, *words], input=given, capture_output=True)
    except OSError:
        check_program(program)
        raise
    is_refused = done.returncode == REFUSED
    # An accepted definition has no findings: nothing is then printed, as by a program that is another one.
    if not done.stdout or not is_refused and done.returncode:
        check_program(program)
    if not is_refused and (done.returncode or done.stderr):
        said = done.stderr.decode("utf-8", "backslashreplace").strip()
        raise Failed(f"the program ended {' '.join(words[:2])} with status {done.returncode}: {said}")
    return Answer(done.stdout.decode("utf-8", "backslashreplace"), is_refused)
