"""Makes Dockerfiles without RUN at random, with their contexts.

They copy from the context and from stages, with owners, also by name, modes, patterns, `--parents` and `--link`, by
patterns and odd paths, into directories that are there and that are not, and through symbolic links; they change
directories and users; some have a .dockerignore, some heredocs, and some add archives, and files that are none.
"""

import json
import random
from typing import NamedTuple

from llbm_tools.daemon import random_archives
from llbm_tools.daemon.runs import link_to
from llbm_tools.daemon.random_definitions import TARGETS
from llbm_tools.trees.tree_maps import Entry, Path, Tree

NAMES = ["a", "b", "c", "d"]
PATTERNS = ["*", "?", "a*", "*b", "[a-c]", "[^a]", "*/*", "**", "[!a]", "\\a", "[", "\\\\a/*", "*[^/]b"]
FILE_MODES = [0o644, 0o644, 0o755, 0o600, 0o4755, 0o2711]
DIRECTORY_MODES = [0o755, 0o755, 0o700, 0o2775, 0o1777]
CONTENTS = [b"", b"x", b"y\n", b"\xff\x00"]
DESTS = [
    "/", "/", "/a", "/b/", "/n/", "/n", "/n/m/", "/n/m", ".", "./", "x", "x/", "../y", "/b/.", "/n/..", "/n//m/",
    "/a/../d/",
]  # fmt: skip
ROOTS = [".", "./", "/", "*", "./*", "../"]
OWNERS = ["7:8", "7", "0:0", "0", "1000:1000", "7:0", "app", "app:staff", "nobody", "7:staff"]
ACCOUNTS = {"/etc/passwd": "root:x:0:0::/:\napp:x:1000:1001::/:", "/etc/group": "root:x:0:\nstaff:x:50:"}
GIVEN_MODES = ["0644", "755", "0700", "600", "4755", "1777", "0"]
DIRECTORIES = ["/w", "/n/m", "sub", "/a", "..", "./x/../y", "/", "/b/"]
USERS = ["7:8", "7", "0", "app"]
IGNORED = ["a", "*", "*/b", "**/c", "!a", "!*/a", "a/**", "# a", "b/", "[ab]", "/a", "./d"]
EXCLUDED = ["a", "*", "*/b", "**/c", "[ab]", "a/**", "b/*"]
QUOTED = set(' "\\[$<#')
ARCHIVE = "archive"


class Made(NamedTuple):
    """A Dockerfile, and the tree of its context."""

    dockerfile: bytes
    context: Tree


class Maker:
    """Makes one Dockerfile."""

    def __init__(self, seed: str) -> None:
        self.random = random.Random(seed)
        self.context = self.tree()
        self.lines: list[str] = []
        self.dests: list[list[str]] = []

    def chance(self, part: float) -> bool:
        """Returns True in this part of the cases."""
        return self.random.random() < part

    def tree(self) -> Tree:
        """Returns a context with at most three levels, and at times a .dockerignore."""
        tree: Tree = {(): Entry(0o755, 0, 0)}
        below: list[Path] = [()]
        for _ in range(self.random.choice([2, 5, 9, 14])):
            path = (*self.random.choice(below), self.random.choice(NAMES).encode())
            if path in tree:
                continue
            is_directory = self.chance(0.5) and len(path) < 3
            content = None if is_directory else self.random.choice(CONTENTS).hex().encode()
            mode = self.random.choice(DIRECTORY_MODES if is_directory else FILE_MODES)
            tree[path] = Entry(mode, 0, 0, content)
            if not is_directory and self.chance(0.2):
                tree[path] = link_to(self.random.choice(TARGETS))
            if is_directory:
                below.append(path)
        if self.chance(0.2):
            tree[(ARCHIVE.encode(),)] = Entry(0o644, 0, 0, random_archives.make(self.random).hex().encode())
        if self.chance(0.3):
            lines = "\n".join(self.random.choices(IGNORED, k=self.random.choice([1, 2, 3])))
            tree[(b".dockerignore",)] = Entry(0o644, 0, 0, lines.encode().hex().encode())
        return tree

    def known(self) -> str:
        """Returns the path of something in the context."""
        return b"/".join(self.random.choice([path for path in self.context if path] or [(b"a",)])).decode()

    def source(self) -> str:
        """Returns the text of a path or a pattern."""
        text = self.known()
        match self.random.randrange(10):
            case 0:
                return self.random.choice(ROOTS)
            case 1:
                return self.random.choice(PATTERNS)
            case 2:
                return f"{text.rpartition('/')[0] or text}/{self.random.choice(PATTERNS)}"
            case 3:
                return text + self.random.choice(["/", "/.", "/*", "/..", "//", "/x"])
            case 4:
                return self.random.choice(["/", "./", "../", "x/../", "//"]) + text
        return text

    def dest(self) -> str:
        """Returns the text of a dest."""
        known = f"/{self.known()}{self.random.choice(['', '/', '/.'])}"
        return known if self.chance(0.2) else self.random.choice(DESTS)

    def flags(self) -> str:
        """Returns flags of a COPY."""
        text = f" --chown={self.random.choice(OWNERS)}" if self.chance(0.35) else ""
        text += f" --chmod={self.random.choice(GIVEN_MODES)}" if self.chance(0.3) else ""
        return text + (" --link" if self.chance(0.2) else "")

    def copy(self, stage: int) -> str:
        """Returns a COPY from the context or an earlier stage."""
        count = self.random.choice([1, 1, 1, 2, 3])
        start, sources, dest = "COPY" + self.flags(), [self.source() for _ in range(count)], self.dest()
        start += f" --exclude={self.random.choice(EXCLUDED)}" if self.chance(0.15) else ""
        if self.chance(0.1):
            start += " --parents"
        elif self.chance(0.15):
            start = start.replace("COPY", "ADD", 1)
        if start.startswith("COPY") and stage and self.chance(0.3):
            before = self.random.randrange(stage)
            start += f" --from={self.random.choice([f's{before}', str(before)])}"
            made = self.dests[before]
            sources = [self.random.choice(made)] if made and self.chance(0.7) else sources
        if len(sources) > 1 and not dest.endswith("/"):
            dest += "/"
        self.dests[-1].append(dest)
        words = [*sources, dest]
        is_plain = not any(set(word) & QUOTED for word in words)
        return f"{start} {' '.join(words) if is_plain else json.dumps(words)}"

    def heredoc(self) -> str:
        """Returns a COPY of a file whose content is in the Dockerfile."""
        body = self.random.choice(["text", "", "one\n\ttwo"])
        return f"COPY{self.flags()} <<EOF {self.dest()}\n{body}\nEOF"

    def add_stage(self, stage: int) -> None:
        """Adds a stage."""
        base = f"s{self.random.randrange(stage)}" if stage and self.chance(0.4) else "scratch"
        self.lines.append(f"FROM {base} AS s{stage}")
        self.dests.append([])
        if self.chance(0.3):
            self.lines += [f"COPY <<EOF {place}\n{text}\nEOF" for place, text in ACCOUNTS.items()]
        for _ in range(self.random.choice([1, 2, 3, 4])):
            match self.random.randrange(10):
                case 0:
                    self.lines.append(f"WORKDIR {self.random.choice(DIRECTORIES)}")
                case 1:
                    self.lines.append(f"USER {self.random.choice(USERS)}")
                case 2:
                    self.lines.append(self.heredoc())
                case 3 | 4 | 5 if (ARCHIVE.encode(),) in self.context:
                    self.lines.append(f"ADD{self.flags()} {ARCHIVE} {self.dest()}")
                case _:
                    self.lines.append(self.copy(stage))

    def made(self) -> Made:
        """Returns the Dockerfile and its context."""
        for stage in range(self.random.choice([1, 1, 2, 3])):
            self.add_stage(stage)
        return Made("\n".join([*self.lines, ""]).encode(), self.context)


def make(seed: str) -> Made:
    """Returns a Dockerfile; the same for the same seed."""
    return Maker(seed).made()
