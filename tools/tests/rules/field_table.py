"""Tests of the table `fields.json`: its keys and numbers are those of BuildKit's sources, where these are."""

import json
import os
import pathlib
import re
import unittest

from llbm_tools.daemon import debian_packages, go_building
from llbm_tools.daemon.go_building import BUILDKIT
from llbm_tools.page.assets import FIELDS

DEBIAN = pathlib.Path("/", go_building.CODE)
# The member of a message that each note is about, by the note's name and number.
MEMBERS = {
    ("Platform", 10): "Op.platform",
    ("Constraints", 1): "WorkerConstraints.filter",
    ("User", 4): "Meta.user",
    ("Proxy", 5): "Meta.proxy_env",
    ("Hosts", 6): "Meta.extraHosts",
    ("Hostname", 7): "Meta.hostname",
    ("Limits", 9): "Meta.ulimit",
    ("CgroupParent", 10): "Meta.cgroupParent",
    ("Network", 3): "ExecOp.network",
    ("Security", 4): "ExecOp.security",
    ("TmpfsSize", 1): "TmpfsOpt.size",
    ("ContentCache", 24): "Mount.contentCache",
    ("FollowSymlink", 5): "FileActionCopy.followSymlink",
    ("Timestamp", 11): "FileActionCopy.timestamp",
    ("Timestamp", 5): "FileActionMkFile.timestamp FileActionMkDir.timestamp",
    ("IgnoreCache", 1): "OpMetadata.ignore_cache",
}
# What versions after 0.13 have.
NEWER = {("ExitCodes", 12): "Meta", ("Devices", 6): "ExecOp"}
KEYS = {
    "IncludePatterns": "AttrIncludePatterns", "ExcludePatterns": "AttrExcludePatterns",
    "FollowPaths": "AttrFollowPaths", "SessionID": "AttrLocalSessionID",
}  # fmt: skip
WITHOUT_EFFECT = ["AttrLocalUniqueID", "AttrSharedKeyHint", "AttrLocalDiffer"]


def table():
    """Returns the table."""
    return json.loads(FIELDS.read_text("utf-8"))


def source(name):
    """Returns a file of BuildKit's package solver/pb."""
    given = [pathlib.Path(one) for one in os.environ.get("GOPATH", "").split(":") if one]
    for place in [*given, debian_packages.FOLDER / go_building.CODE, DEBIAN]:
        file = place / "src" / BUILDKIT / "solver" / "pb" / name
        if file.is_file():
            return file.read_text("utf-8")
    raise unittest.SkipTest(f"BuildKit's sources are needed (dev/dev daemon fetches them, or GOPATH): {name}")


def messages():
    """Returns the fields of the messages in ops.proto, by number: their types and names."""
    found = {}
    for name, body in re.findall(r"^message (\w+) \{\n(.*?)^\}", source("ops.proto"), re.M | re.S):
        members = re.findall(r"^\s*(?:repeated )?(map<.*?>|\w+) (\w+) = (\d+)", body, re.M)
        found[name] = {int(number): (kind, member) for kind, member, number in members}
    return found


class Table(unittest.TestCase):
    """The table of fields."""

    def member_at(self, message, numbers):
        """Returns the message and the member that numbers lead to from a message, the member None if there is none."""
        known = messages()
        *before, last = [one[0] if isinstance(one, list) else one for one in numbers]
        for number in before:
            message = known[message][number][0]
        return message, known[message].get(last, (None, None))[1]

    def test_its_numbers_lead_to_the_fields_that_are_meant(self):
        given = table()
        rows = [("Op", row) for row in given["fields"]] + [("OpMetadata", row) for row in given["metadata"]]
        for start, row in rows:
            key = row["name"], row["numbers"][-1]
            message, member = self.member_at(start, row["numbers"])
            if key in NEWER:
                self.assertEqual((message, member), (NEWER[key], None), row)
            else:
                self.assertIn(f"{message}.{member}", MEMBERS[key].split(), row)
        self.assertEqual({(row["name"], row["numbers"][-1]) for _, row in rows}, MEMBERS.keys() | NEWER.keys())

    def test_its_keys_are_those_of_attributes_of_local_sources(self):
        known = dict(re.findall(r'^const (\w+) = "(.*)"$', source("attr.go"), re.M))
        given = table()
        keys = {row["name"]: row["key"] for row in given["attributes"]}
        self.assertEqual(keys, {name: known[constant] for name, constant in KEYS.items()})
        self.assertEqual(given["attributes_without_effect"], [known[name] for name in WITHOUT_EFFECT])
        local = {key for name, key in known.items() if key.startswith("local.")}
        self.assertEqual(local, {known[name] for name in [*KEYS.values(), *WITHOUT_EFFECT]})
