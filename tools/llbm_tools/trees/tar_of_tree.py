"""Writes a tree text as a tar archive; the same text always makes the same bytes.

In: a tree text on standard input; the whole text is checked before anything is written, and its first faulty line is
named on standard error with `line N` at its end, counted from 1.

Out: the archive, in the new file ARCHIVE, or on standard output if none is named. It is in GNU's form of tar, with a
header of its own for a name of over 100 bytes. Entries are in path order, the root first, as `./`, and the others
without a leading `/`. Each has the mode, the user and the group of its line, no user names, and the time of --mtime, or
else of the environment variable SOURCE_DATE_EPOCH, or else 0. The archive is packed if the name of ARCHIVE ends in
.tar.gz, .tgz, .tar.bz2, .tar.xz or .tar.zst, or as --pack says (gzip, bzip2, xz or zstd, the last by the program `zstd`
if this Python cannot). ARCHIVE appears complete, at the end. With --links a file whose content `tree from tar --links`
and the like write for a symbolic link is an entry of that link.

Exit status: 0 the archive is written; 2 the text or the command line is refused, or ARCHIVE already exists; 3 a read or
a write failed (named on standard error); 130 interrupted. If it is not 0, no ARCHIVE is made.
"""

import argparse
import binascii
import io
import os
import tarfile
from typing import BinaryIO

from llbm_tools.command_line import Parser
from llbm_tools.images import archive_writing, packing
from llbm_tools.inputs import input_lines
from llbm_tools.streams import exit_status, temporary_file, write_new_file, write_output
from llbm_tools.trees import entry_times, links
from llbm_tools.trees.trees import Entry, check_into, entry_of


def header_of(entry: Entry, time: int, target: bytes | None = None) -> tarfile.TarInfo:
    """Returns an entry's header without its size; of a symbolic link with its target."""
    header = tarfile.TarInfo(b"/".join(entry.names).decode("utf-8") or ".")
    header.type = tarfile.DIRTYPE if entry.content is None else tarfile.REGTYPE
    header.mode, header.uid, header.gid, header.mtime = entry.mode, entry.user, entry.group, time
    if target is not None:
        header.type, header.mode, header.linkname = tarfile.SYMTYPE, links.MODE, os.fsdecode(target)
    return header


def write(text: BinaryIO, output: BinaryIO, time: int, has_links: bool = False) -> None:
    """Writes the archive of a valid tree text."""
    for entry in map(entry_of, text):
        content = binascii.unhexlify(entry.content or b"")
        target = links.target_of(content) if has_links else None
        header = header_of(entry, time, target)
        content = content if target is None else b""
        header.size = len(content)
        archive_writing.add(output, header, io.BytesIO(content))
    output.write(archive_writing.END)


def form_of(options: argparse.Namespace) -> packing.Form | None:
    """Returns how the archive is packed, or None for a plain one."""
    form = packing.form_named(options.pack) if options.pack else packing.form_of_name(options.archive or "")
    if form:
        packing.check_form(form)
    return form


def write_checked(options: argparse.Namespace) -> None:
    """Writes the archive of the text on standard input, once all of the text is checked."""
    form, time = form_of(options), entry_times.time_of_archive(options.mtime)
    files = [temporary_file("the text"), temporary_file("the archive"), temporary_file("the archive")]
    with files[0] as text, files[1] as plain, files[2] as packed:
        check_into(text, input_lines())
        text.seek(0)
        write(text, plain, time, options.links)
        archive = plain
        if form:
            packing.pack(form, plain, packed)
            archive = packed
        if options.archive in (None, "-"):
            write_output(archive, "the archive")
        else:
            write_new_file(archive, options.archive)


def parse_options() -> argparse.Namespace:
    """Parses the command line."""
    parser = Parser(description="Writes the tree text on standard input as a tar archive.")
    parser.add_argument("archive", metavar="ARCHIVE", nargs="?", help="the new file (default: standard output)")
    parser.add_argument(
        "--mtime", metavar="SECONDS", type=entry_times.seconds_of, help="the time of every entry, since 1970"
    )
    parser.add_argument("--links", action="store_true", help="write symbolic links of what tools with --links wrote")
    parser.add_argument("--pack", metavar="FORM", choices=packing.NAMES, help=f"one of {', '.join(packing.NAMES)}")
    return parser.parse_args()


def main() -> int:
    """Runs the tool, and returns its exit status."""
    options = parse_options()
    return exit_status(lambda: write_checked(options))
