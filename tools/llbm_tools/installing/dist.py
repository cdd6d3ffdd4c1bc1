"""Packs an installation as an archive that is the same for the same files.

In: the repository around this folder, and the program, as for `install`. The name of the archive has `proved` only if
`./gate` passed on this program, byte for byte, and left a note of it; else it has `unproved`.

Out: in the folder -o FOLDER, the current one by default: llbm-VERSION-PROOF-x86_64-linux.tar.gz, whose files are below
a folder of that name, and the same name with .sha256, which has a digest of the archive, as `sha256sum` prints it. The
archive has the files of `install` in the order of their paths, with owner 0:0 and time 0, and among them sha256sums,
with the digest of each other file: `sha256sum -c sha256sums` in the folder checks what was unpacked.
Both are replaced if they exist. Their names are printed.

Exit status: 0 they are written; 2 the command line is refused, or there is no program or no such folder; 3 a read or a
write failed.
"""

import argparse
import gzip
import io
import pathlib
import sys
import tarfile

from llbm_tools import common, os_errors, streams
from llbm_tools.command_line import Parser
from llbm_tools.installing import installation
from llbm_tools.installing.installation import Item, Program

DIGESTS = "sha256sums"


def name_of(program: Program) -> str:
    """Returns the name of the archive, and of the folder in it."""
    return f"llbm-{program.number()}-{'proved' if program.is_proved else 'unproved'}-x86_64-linux"


def member_of(name: str, item: Item) -> tarfile.TarInfo:
    """Returns the head of an item; the owner and the time are 0."""
    member = tarfile.TarInfo(f"{name}/{item.path}")
    member.mode, member.size = item.mode, len(item.content)
    if item.link:
        member.type, member.linkname, member.mode = tarfile.SYMTYPE, item.link, 0o777
    return member


def packed(name: str, items: list[Item]) -> bytes:
    """Returns the archive of some items."""
    plain, out = io.BytesIO(), io.BytesIO()
    with tarfile.open(fileobj=plain, mode="w", format=tarfile.PAX_FORMAT) as archive:
        for item in items:
            archive.addfile(member_of(name, item), io.BytesIO(item.content))
    with gzip.GzipFile(filename="", mode="wb", compresslevel=9, fileobj=out, mtime=0) as zipped:
        zipped.write(plain.getvalue())
    return out.getvalue()


def with_digests(items: list[Item]) -> list[Item]:
    """Returns items, and among them a file with the digest of each of the others."""
    lines = [f"{installation.digest(item.content)}  {item.path}\n" for item in items if not item.link]
    return sorted([*items, Item(DIGESTS, "".join(lines).encode())])


def dist(options: argparse.Namespace) -> None:
    """Writes the archive and its digests, and prints their names."""
    program = installation.program_at(common.program_named(options.llbm))
    name, items = name_of(program), with_digests(installation.items_of(program))
    archive = packed(name, items)
    digest = f"{installation.digest(archive)}  {name}.tar.gz\n"
    options.folder.mkdir(parents=True, exist_ok=True)
    for ending, content in ((".tar.gz", archive), (".tar.gz.sha256", digest.encode())):
        place = options.folder / f"{name}{ending}"
        place.write_bytes(content)
        print(place)


def parse_options() -> argparse.Namespace:
    """Parses the command line."""
    parser = Parser(description="Packs an installation as an archive.")
    parser.add_argument("--llbm", metavar="PROGRAM", help="the program llbm")
    parser.add_argument(
        "-o", dest="folder", metavar="FOLDER", type=pathlib.Path, default=pathlib.Path("."),
        help="made if it is not there; by default this one",
    )
    return parser.parse_args()


def main() -> int:
    """Runs the tool, and returns its exit status."""
    options = parse_options()
    try:
        common.check_open(sys.stdout, "standard output")
        dist(options)
        sys.stdout.flush()
    except installation.NotInstalled as fault:
        common.say(str(fault))
        return 2
    except OSError as fault:
        common.say(os_errors.os_error_text(fault))
        common.discard_output()
        return streams.status_of(fault)
    return 0
