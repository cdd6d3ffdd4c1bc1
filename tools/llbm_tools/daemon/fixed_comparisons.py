"""Compares BuildKit's own daemon and llbmd on two fixed sets: definitions with links, which are also exported in each
form, and the Dockerfiles of daemon/dockerfiles, whose RUNs have the same stand-ins on both."""

import json
import os
import pathlib
import statistics
import tarfile
import tempfile
import time
from collections.abc import Iterator

from llbm_tools.daemon import runs, link_cases, stored_dockerfiles
from llbm_tools.daemon.compared_cases import NO_EXECUTION, Case, Verdict, lines_of
from llbm_tools.daemon.runs import LINKED, Daemon, Ran
from llbm_tools.daemon.scripted_runc import SKIP
from llbm_tools.daemon.started_daemon import Started
from llbm_tools.trees import tree_maps
from llbm_tools.trees.tree_maps import Entry, Tree

EXPORTERS = ("local", "tar", "oci", "docker")
STANDINS = "llbm-standins"
# A warning that there is an execution announces no difference.
OF_EXECUTIONS = frozenset({"Execution"})


def seen(tree: Tree) -> list[bytes]:
    """Returns the lines of a tree, of which a symbolic link has no mode of its own."""
    is_link = {path for path, one in tree.items() if (one.content or b"").startswith(runs.LINK)}
    return lines_of({path: one._replace(mode=0o777) if path in is_link else one for path, one in tree.items()}) or []


def tree_at(place: str) -> Tree:
    """Returns the tree of a directory."""
    tree = tree_maps.empty()
    for above, folders, files in os.walk(place):
        for name in folders + files:
            at = os.path.join(above, name)
            path = tuple(os.fsencode(part) for part in os.path.relpath(at, place).split("/"))
            found, content = os.lstat(at), None
            if os.path.islink(at):
                content = runs.link_to(os.readlink(at)).content
            elif os.path.isfile(at):
                content = pathlib.Path(at).read_bytes().hex().encode("ascii")
            tree[path] = Entry(found.st_mode & 0o7777, found.st_uid, found.st_gid, content)
    return tree


def tree_of_image(archive: str) -> Tree:
    """Returns the tree of an image's only layer, in an archive of type oci or docker."""
    with tempfile.TemporaryDirectory() as folder:
        with tarfile.open(archive) as opened:
            opened.extractall(folder, list(filter(tarfile.TarInfo.isfile, opened)))
        at = pathlib.Path(folder)

        def held(place: str) -> dict[str, list[dict[str, str]]]:
            return dict(json.loads((at / place).read_text("utf-8")))

        def blob(named: dict[str, str]) -> str:
            return f"blobs/{named['digest'].replace(':', '/')}"

        (manifest,) = held("index.json")["manifests"]
        (layer,) = held(blob(manifest))["layers"]
        return runs.tree_in(str(at / blob(layer)))


def exported(daemon: Daemon, case: Case, kind: str) -> Tree | str:
    """Returns the tree that an exporter leaves, or the error of the build."""
    with tempfile.TemporaryDirectory() as folder:
        place = os.path.join(folder, "result")
        ran = daemon.exported(case.data, case.sources, kind, place)
        if ran is not None:
            return ran
        return tree_at(place) if kind == "local" else runs.tree_in(place) if kind == "tar" else tree_of_image(place)


def of_exporters(theirs: Daemon, ours: Daemon) -> Iterator[tuple[Case, Verdict]]:
    """Yields how a tree with links is exported by both, in each form."""
    whole = link_cases.exported()
    for kind in EXPORTERS:
        case = Case(f"links: exported as {kind}", whole.data, {link_cases.NAME: link_cases.tree()})
        there, here = (exported(one, case, kind) for one in (theirs, ours))
        is_same = not isinstance(there, str) and not isinstance(here, str) and seen(there) == seen(here)
        said = [one for one in (there, here) if isinstance(one, str)] or ["another tree"]
        yield case, Verdict(["links"], [] if is_same else [f"{case.name}: {said[0]}"])


def of_links(theirs: Started, ours: Daemon, rules: frozenset[str]) -> Iterator[tuple[Case, Verdict]]:
    """Yields how each case with links ends; those with executions only where the daemon runs scripts of llbm."""
    for one in link_cases.cases():
        case = Case(f"links: {one.name}", one.data, {link_cases.NAME: link_cases.tree()}, is_modelled=False)
        if one.runs and not theirs.runs_scripts:
            yield case, Verdict([NO_EXECUTION], [])
            continue
        there, here = (daemon.run(case.data, case.sources) for daemon in (theirs.daemon, ours))
        yield case, Verdict(["links"], fault_of(case.name, one.is_refused, there, here, rules))


def fault_of(name: str, is_refused: bool, there: Ran, here: Ran, rules: frozenset[str]) -> list[str]:
    """Returns a line if a case ends otherwise, without a warning of a rule, or is refused and should not be."""
    refused = there.tree is not None and here.tree is None and LINKED in here.said
    if refused != is_refused:
        return [f"{name}: {here.said or 'it is not refused'}"]
    if refused or lines_of(there.tree) == lines_of(here.tree) or rules & here.names - OF_EXECUTIONS:
        return []
    return [f"{name}: ends otherwise without a warning: {there.said or here.said or 'another tree'}"]


class Dockerfiles:
    """The Dockerfiles of daemon/dockerfiles on both daemons, with the times of the builds."""

    def __init__(self, theirs: Started, ours: Daemon) -> None:
        self.theirs = theirs
        self.ours = ours
        self.times: tuple[list[float], list[float]] = ([], [])

    def verdicts(self) -> Iterator[tuple[Case, Verdict]]:
        """Yields how each one ends."""
        for name, parts in stored_dockerfiles.stored():
            case = Case(name, parts["Dockerfile"].encode(), {"context": stored_dockerfiles.context_of(parts)}, True)
            if not self.theirs.runs_scripts:
                yield case, Verdict([NO_EXECUTION], [])
                continue
            with tempfile.TemporaryDirectory(prefix="llbm-images-") as folder:
                there, here = self.both(case, parts, pathlib.Path(folder))
            is_same = lines_of(there.tree) == lines_of(here.tree) and there.tree is not None
            line = f"dockerfiles/{name}: {there.said or here.said or 'another tree'}"
            yield case, Verdict(["Dockerfiles of projects"], [] if is_same else [line])

    def both(self, case: Case, parts: dict[str, str], folder: pathlib.Path) -> list[Ran]:
        """Builds a Dockerfile by both."""
        words = stored_dockerfiles.image_words(parts, folder) + stored_dockerfiles.options_of(parts)
        mine = ["--opt", "llbm:run=skip"] if SKIP in parts else []
        if "rules" in parts:
            (folder / STANDINS).mkdir()
            (folder / STANDINS / "standins.rules").write_text(parts["rules"], "utf-8")
            mine += ["--local", f"{STANDINS}={folder / STANDINS}", "--opt", f"context:llbm-rules=local:{STANDINS}"]
        self.theirs.rules.write_text(SKIP if SKIP in parts else parts.get("rules", ""), "utf-8")
        ended = []
        files = (stored_dockerfiles.without_syntax(case.data), case.data)
        daemons: list[tuple[Daemon, list[str]]] = [(self.theirs.daemon, []), (self.ours, mine)]
        for (daemon, further), file, times in zip(daemons, files, self.times):
            begin = time.monotonic()
            ended.append(daemon.run_dockerfile(file, case.sources["context"], *words, *further))
            times.append(time.monotonic() - begin)
        return ended

    def line(self) -> str:
        """Returns a line with the medians of the times."""
        if not self.times[0]:
            return "none of these Dockerfiles was built, for want of executions"
        there, here = (statistics.median(times) for times in self.times)
        return f"median of the builds of these: {there:.2f} s by BuildKit's daemon, {here:.2f} s by llbmd"
