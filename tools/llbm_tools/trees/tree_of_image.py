"""Writes the tree text of an image to standard output.

In: IMAGE, a directory with an OCI layout, or an archive of an OCI layout or of `docker save`, which may be packed as
`tree from tar` reads it; standard input if none or `-` is named. --name NAME and --platform OS/ARCHITECTURE[/VARIANT]
pick one of several images: NAME is a tag of `docker save`, or the reference of an index's entry (the annotations
`org.opencontainers.image.ref.name` and `io.containerd.image.name`). With --owner every entry gets that owner.

The layers are laid one over another: an entry replaces what has its path, but a directory over a directory keeps what
is below; `.wh.NAME` removes NAME, and `.wh..wh..opq` what lower layers have in its directory. Symbolic links in the
paths of parents are followed inside the image. Layers may be packed by gzip, bzip2, xz or zstd. The digests and sizes
of manifests, configurations and layers are checked, and the digests of unpacked layers.

Out: the text, and on standard error which image is read and what cannot be in a tree, as with `tree from tar`; with
--strict that is refused. With --links symbolic links are taken, as `tree from tar` takes them.

Exit status: 0 the text is written; 2 the command line or the image is refused, there is none or there are several, or,
with --strict, something was left out: standard error says why, and nothing is written; 3 a read or a write failed; 130
interrupted.
"""

import argparse

from llbm_tools.command_line import Parser
from llbm_tools.images import unpacking
from llbm_tools.inputs import is_standard_input, named, standard_input
from llbm_tools.streams import exit_status
from llbm_tools.trees import archive_texts
from llbm_tools.trees.trees import owner_word


def read_image(options: argparse.Namespace) -> None:
    """Reads the image that the command line names, and writes its text."""
    is_input = is_standard_input(options.image)
    given = unpacking.files_in(standard_input()) if is_input else unpacking.files_at(options.image)
    with named(options.image), given as files, unpacking.tree_of(files, options.name, options.platform) as entries:
        archive_texts.write_text(entries, options.owner, options.strict, options.links)


def parse_options() -> argparse.Namespace:
    """Parses the command line."""
    parser = Parser(description="Writes the tree text of an image to standard output.")
    parser.add_argument("image", metavar="IMAGE", nargs="?", help="an archive or a directory (default: standard input)")
    parser.add_argument("--name", metavar="NAME", help="the name of the image, where there are several")
    parser.add_argument("--platform", metavar="OS/ARCH", help="the platform of the image, where there are several")
    parser.add_argument("--owner", metavar="UID:GID", type=owner_word, help="the owner of every entry")
    parser.add_argument("--links", action="store_true", help="take symbolic links")
    parser.add_argument("--strict", action="store_true", help="refuse an image if something is left out")
    return parser.parse_args()


def main() -> int:
    """Runs the tool, and returns its exit status."""
    options = parse_options()
    return exit_status(lambda: read_image(options))
