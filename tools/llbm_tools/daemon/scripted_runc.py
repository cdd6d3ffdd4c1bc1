"""A program in the place of runc with which executions of BuildKit's daemon run scripts of llbm, as llbmd's do.

In: the words of runc, and in the environment LLBM_RUNC, the program runc, LLBM_APPLETS, the static program that runs
scripts (daemon/buildkitd/applets), and LLBM_RULES, a file with rules, or none there; where it is `skip`, what is no
script does nothing. A container that is started gets the program in its /dev, which is in memory, so its files are
those that the script makes, and the words are replaced by the rules. All else is as runc does it.
"""

import json
import os
import pathlib
import sys

from llbm_tools.definitions import adoption_rules

PLACE = "/dev/llbm-applets"
SKIP = "skip"


def words_of(args: list[str], rules: str) -> list[str]:
    """Returns the words that run instead of those of an execution."""
    if rules == SKIP:
        return [PLACE, "-skip", *args]
    lines = (line.strip() for line in rules.splitlines())
    found = [adoption_rules.rule_of(number, line) for number, line in enumerate(lines, 1) if line]
    rule = adoption_rules.rule_for(found, "", "", args)
    return [PLACE, *(rule.words if rule and rule.words else args)]


def script(place: pathlib.Path) -> None:
    """Lets a container, whose configuration is in a file, run a script."""
    config = json.loads(place.read_text("utf-8"))
    rules = pathlib.Path(os.environ["LLBM_RULES"])
    config["process"]["args"] = words_of(config["process"]["args"], rules.read_text("utf-8") if rules.exists() else "")
    program = {"destination": PLACE, "type": "bind", "source": os.environ["LLBM_APPLETS"], "options": ["bind", "ro"]}
    config["mounts"].append(program)
    place.write_text(json.dumps(config), "utf-8")


def main() -> None:
    """Runs runc."""
    words = sys.argv[1:]
    if "--bundle" in words and {"run", "create"} & set(words):
        script(pathlib.Path(words[words.index("--bundle") + 1], "config.json"))
    os.execv(os.environ["LLBM_RUNC"], [os.environ["LLBM_RUNC"], *words])


if __name__ == "__main__":
    main()
