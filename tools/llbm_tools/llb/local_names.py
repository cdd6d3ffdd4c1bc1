"""Makes short names of local sources from the identifiers of other sources."""

import re

from llbm_tools.llb.ops import LOCAL

IMAGES = ("docker-image", "docker-image+blob", "oci-layout", "oci-layout+blob")
SCHEMES = (*IMAGES, "git", "http", "https")
MOST_CHARACTERS = 32
NO_NAME = "source"


def is_known(identifier: str) -> bool:
    """Returns whether it is an image, a git repository, a file from HTTP or an OCI layout."""
    return identifier.partition("://")[0] in SCHEMES and "://" in identifier


def can_be_given(name: str) -> bool:
    """Returns whether a word NAME=FILE can give the local source of this name its tree."""
    return "=" not in name and not name.startswith("-")


def short_name(identifier: str) -> str:
    """Returns the last part of an identifier without tag, digest, fragment and query: at most 32 plain characters."""
    scheme, _, rest = identifier.partition("://")
    rest = re.split("[#?]", rest)[0]
    if scheme in IMAGES:
        rest = rest.partition("@")[0]
    last = rest.rstrip("/").rpartition("/")[2]
    if scheme in IMAGES:
        last = last.partition(":")[0]
    if scheme == "git":
        last = last.removesuffix(".git")
    return re.sub(r"[^A-Za-z0-9._-]+", "-", last)[:MOST_CHARACTERS].strip("-.") or NO_NAME


class LocalNames:
    """The names that are taken: by the local sources of a definition, and by this class."""

    def __init__(self, identifiers: list[str]) -> None:
        self.taken = {identifier[len(LOCAL) :] for identifier in identifiers if identifier.startswith(LOCAL)}

    def new_name(self, identifier: str) -> str:
        """Returns a new name for an identifier, with `-2` and so on if it is taken."""
        short = name = short_name(identifier)
        count = 1
        while name in self.taken:
            count += 1
            name = f"{short}-{count}"
        self.taken.add(name)
        return name
