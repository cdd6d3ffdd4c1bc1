"""Makes archives at random, as an ADD of a Dockerfile unpacks them.

They have entries that get in each other's way, and into that of what is there before, hard links to entries before
them, odd names, owners and modes; some are packed.
"""

import bz2
import gzip
import io
import lzma
import random
import tarfile

NAMES = ["a", "b", "c", "d"]
ODD_NAMES = [".wh.a", ".wh..wh..opq", "é", "a b", "n" * 120, "\\a", "..x"]
MODES = [0o644, 0o755, 0o600, 0, 0o4755, 0o2711, 0o1777]
OWNERS = [0, 0, 7, 1000, 2097152, 4294967294]
TARGETS = ["a", "../b", "/a", "/c/d", "none", ".", ".."]
CONTENTS = [b"", b"x", b"y\n" * 300]
FORMATS = [tarfile.PAX_FORMAT, tarfile.GNU_FORMAT]


def path(chance: random.Random, folders: list[str], files: list[str]) -> str:
    """Returns the path of an entry, at times one in a directory before it, or that of a file before it."""
    text = "/".join(chance.choice(NAMES) for _ in range(chance.choice([1, 1, 2, 2, 3])))
    if chance.random() < 0.1:
        text = f"{chance.choice(NAMES)}/{chance.choice(ODD_NAMES)}"
    if folders and chance.random() < 0.4:
        text = f"{chance.choice(folders)}/{chance.choice(NAMES)}"
    if files and chance.random() < 0.06:
        text = chance.choice(files)
    return text


def spelled(chance: random.Random, text: str) -> str:
    """Returns another text of a path."""
    others = [f"./{text}", f"/{text}", f"../{text}", text.replace("/", "//"), f"b/../{text}"]
    return chance.choice(others) if chance.random() < 0.25 else text


def entry(chance: random.Random, folders: list[str], files: list[str]) -> tuple[tarfile.TarInfo, bytes]:
    """Returns an entry, and its content."""
    text = path(chance, folders, files)
    one, content = tarfile.TarInfo(spelled(chance, text)), b""
    one.mode, one.uid, one.gid = chance.choice(MODES), chance.choice(OWNERS), chance.choice(OWNERS)
    one.mtime = chance.choice([0, 1, 1_700_000_000])
    match chance.randrange(10):
        case 0 | 1 | 2:
            one.type = tarfile.DIRTYPE
            folders.append(text)
            one.name = chance.choice([".", "/"]) if chance.random() < 0.1 else one.name
        case 3 if chance.random() < 0.5:
            one.type, one.linkname = tarfile.SYMTYPE, chance.choice(TARGETS)
        case 4 if files:
            one.type, one.linkname = tarfile.LNKTYPE, spelled(chance, chance.choice(files))
        case _:
            content = chance.choice(CONTENTS)
            one.size = len(content)
            files.append(text)
    return one, content


def make(chance: random.Random) -> bytes:
    """Returns an archive."""
    made, folders, files = io.BytesIO(), list[str](), list[str]()
    with tarfile.open(fileobj=made, mode="w", format=chance.choice(FORMATS)) as archive:
        for _ in range(chance.choice([1, 3, 5, 8])):
            one, content = entry(chance, folders, files)
            archive.addfile(one, io.BytesIO(content))
    data = made.getvalue()
    match chance.randrange(5):
        case 0:
            return gzip.compress(data, mtime=0)
        case 1:
            return bz2.compress(data)
        case 2:
            return lzma.compress(data)
    return data
