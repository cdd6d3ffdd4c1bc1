"""Compares BuildKit's own daemon with llbmd, and with the model of its rules, on definitions and Dockerfiles.

In: a daemon at --address ADDRESS, and `buildctl` (--buildctl PROGRAM, else the one on PATH); this program writes the
files of sources with their owners, so it runs as root, as the daemon does. With --start it builds the daemon and
buildctl from Debian's packages in the cache folder, or --packages FOLDER, and runs the daemon, with a state of its
own, until it ends. llbmd is --llbmd PROGRAM, or out/llbmd, with `llbm-rules` and `dockerfile-frontend` beside it, as
`dev/dev daemon --clients` leaves them; it runs --llbm PROGRAM, or that of the repository. The definitions are those of
examples/, the least examples of the rules, and --count N random ones of each kind (plain, wild, of many layers, with
filters, with symbolic links and patterns); then there are Dockerfiles as projects have them and N random ones, without
RUN. They depend only on --seed. Definitions that BuildKit's daemon dies of are left out. With --links there is also
a fixed set of definitions with links, and a tree with links is exported in each form; with --dockerfiles, which needs
--start, also the Dockerfiles of daemon/dockerfiles, with images from OCI layouts and with stand-ins for their RUNs,
which the daemon that was started runs in containers; then a line has the medians of the times of their builds.

Each is built by both daemons on the same trees, with the owner 0:0, as BuildKit's client sends them. A result is a tree
without its root, or a failure.

Out: on standard output a line for each definition that ends otherwise without a warning that names a rule, or otherwise
than the model says (not counting those with an execution), and for each Dockerfile that ends otherwise at all, but for
those that llbmd refuses by a link, with the seed that makes it; then the counts, among them how many Dockerfiles ended
well on both, and how many failed on both, by BuildKit's reason. What fails on both shows little: if fewer than a third
of the Dockerfiles end well on both, a line says so, and counts as a failure. --keep FOLDER stores the cases that have a
line, and their trees. With --start the last line is `N passed, M failed, K skipped`; skipped are cases with executions
where the daemon runs none, for want of runc or of rights for it, as a line says. If the packages are not there, or
the daemon can't be built, can't be run here or does not copy and merge, since the host forbids mounts for example, or
llbmd is not there, a line says so, and that is all: one skipped.

Exit status: 0 there was none, or all is skipped; 1 there was one; 2 the command line is refused, or the daemon does not
answer; 3 a read or a write failed.
"""

import argparse
import collections
import concurrent.futures
import contextlib
import itertools
import os
import pathlib
import re
import shutil
import subprocess
import sys
import tempfile
from collections.abc import Iterator

from llbm_tools import common
from llbm_tools.command_line import Parser
from llbm_tools.counts import Counts
from llbm_tools.daemon import daemon as daemons
from llbm_tools.daemon import debian_packages, fixed_comparisons, project_dockerfiles, random_definitions
from llbm_tools.daemon import random_dockerfiles, runs, started_daemon
from llbm_tools.daemon.compared_cases import NO_EXECUTION, Case, Lines, Verdict, lines_of
from llbm_tools.daemon.runs import LINKED, MOST_SECONDS, Daemon, DaemonBusy, DaemonLost, Ran
from llbm_tools.daemon.started_daemon import Started
from llbm_tools.definitions import adopted_ops
from llbm_tools.llb.findings import findings_of
from llbm_tools.paths import ROOT
from llbm_tools.rules import comparison as comparing
from llbm_tools.rules import examples, notes, rules_program
from llbm_tools.streams import Refused, exit_status, program_at
from llbm_tools.trees import tree_maps
from llbm_tools.trees.tree_maps import Tree

ALL_OPTIONS = adopted_ops.Settings(frozenset(adopted_ops.DROPPED), (), adopted_ops.RunNothing.REFUSED)
NOT_MODELLED = {"Execution", notes.ATTRIBUTE, "SessionID"}
FRONTEND = "dockerfile-frontend"
# The kinds of notes that a warning can name: rules, and what has no rule, such as executions.
NAMED = ("rule", "other")
AT_ONCE = 4
WELL = "Dockerfiles that end well on both"
# One Dockerfile of so many has to end well on both; of the random ones about half do.
ONE_OF = 3
# What BuildKit's reasons name, which differs from one Dockerfile to the next.
NAMED_THERE = re.compile(r'"[^"]*"|/\S*|\b[0-9a-z]{25}::[0-9a-z]{25}|\d+')


def without_owners(tree: Tree) -> Tree:
    """Returns a tree with the owner 0:0, as BuildKit's client sends it."""
    return {path: entry._replace(user=0, group=0) for path, entry in tree.items()}


def stored_cases(llbm: str) -> Iterator[Case]:
    """Yields the definitions of examples/, adopted where that is needed; a source without a tree there is empty."""
    places = [*ROOT.glob("examples/*.definition"), *ROOT.glob("examples/*.llb")]
    for place in sorted([*places, *ROOT.glob("examples/from-buildkit/*/definition")]):
        adopted = adopted_ops.adopt(place.read_bytes(), ALL_OPTIONS, llbm)
        trees = {one.stem: one for one in place.parent.glob("*.tree")}
        sources = {}
        for name, _ in adopted.sources:
            at = trees.get(name, trees.get(place.stem))
            sources[name] = tree_maps.tree_of(at.read_bytes().splitlines(keepends=True)) if at else tree_maps.empty()
        yield Case(os.path.relpath(place, ROOT), adopted.data, sources)


def least_cases() -> Iterator[Case]:
    """Yields the least examples of the rules."""
    for one in examples.examples():
        yield Case(f"{one.rule}: {one.shows}", one.data, one.sources)


def project_cases() -> Iterator[Case]:
    """Yields Dockerfiles as projects have them."""
    for name, one in project_dockerfiles.PROJECTS.items():
        yield Case(f"project {name}", one.dockerfile, {"context": one.context}, True)


def random_cases(count: int, seed: int, llbm: str) -> Iterator[Case]:
    """Yields random definitions of each kind that the program, or the daemon, accepts, and random Dockerfiles."""
    for number, kind in itertools.product(range(count), random_definitions.KINDS):
        name = f"{kind} {seed} {number}"
        one = random_definitions.make(name, kind)
        is_linked = kind == random_definitions.LINKS
        if is_linked or not findings_of(one.data, llbm):
            yield Case(name, one.data, one.sources, is_modelled=not is_linked)
    for number in range(count):
        name = f"dockerfile {seed} {number}"
        file = random_dockerfiles.make(name)
        yield Case(name, file.dockerfile, {"context": file.context}, True)


def modelled(data: bytes, sources: dict[str, Tree]) -> Lines:
    """Returns what BuildKit makes of a definition without executions, by its rules in llbm-rules."""
    _, tree = comparing.of_trees(data, {name: tree_maps.lines_of(tree) for name, tree in sources.items()})
    return None if tree is None else tree[1:]


def rules_that_warn() -> frozenset[str]:
    """Returns the names that warnings of what ends otherwise have."""
    return frozenset(one["name"] for one in rules_program.answers("texts") if one["kind"] in NAMED)


class Comparison:
    """BuildKit's daemon and llbmd, side by side."""

    def __init__(self, theirs: Daemon, ours: Daemon) -> None:
        self.theirs = theirs
        self.ours = ours
        self.rules = rules_that_warn()

    def compare(self, case: Case) -> Verdict:
        """Builds a definition or a Dockerfile by both."""
        try:
            return self.dockerfile(case) if case.is_dockerfile else self.definition(case)
        except subprocess.TimeoutExpired:
            return Verdict([f"left out: no answer in {MOST_SECONDS} seconds"], [])
        except DaemonBusy:
            return Verdict(["left out: a daemon was too busy"], [])

    def dockerfile(self, case: Case) -> Verdict:
        """Builds a Dockerfile by both."""
        there, here = (one.run_dockerfile(case.data, case.sources["context"]) for one in (self.theirs, self.ours))
        verdict = self.verdict(case.name, there, here, "Dockerfiles")
        if is_refused_by_link(there, here):
            return verdict
        verdict.counts.extend(ended(there, here))
        if lines_of(there.tree) == lines_of(here.tree) or verdict.lines:
            return verdict
        return verdict._replace(lines=[f"{case.name}: ends otherwise: {', '.join(sorted(self.named(here)))}"])

    def definition(self, case: Case) -> Verdict:
        """Builds a definition by both."""
        found = notes.notes_of(case.data, [], True)
        if any(one.kind == notes.BREAKS for one in found):
            return Verdict(["left out: the daemon dies of it"], [])
        sources = {name: without_owners(tree) for name, tree in case.sources.items()}
        there, here = self.theirs.run(case.data, sources), self.ours.run(case.data, sources)
        verdict = self.verdict(case.name, there, here, "definitions")
        if case.is_modelled and not NOT_MODELLED & {one.name for one in found}:
            verdict.counts.append("definitions of the model")
            if modelled(case.data, sources) != lines_of(there.tree):
                verdict.counts.append("definitions otherwise than the model")
                verdict.lines.append(f"{case.name}: ends otherwise than the model: {there.said or 'another tree'}")
        return verdict

    def named(self, ran: Ran) -> frozenset[str]:
        """Returns the rules that warnings named."""
        return self.rules & ran.names

    def verdict(self, name: str, there: Ran, here: Ran, what: str) -> Verdict:
        """Returns how a build ended on both."""
        if is_refused_by_link(there, here):
            return Verdict([what, f"{what} that are refused by a link"], [])
        counts, lines = [what], []
        is_same, is_warned = lines_of(there.tree) == lines_of(here.tree), bool(self.named(here))
        if is_same and is_warned:
            counts.append(f"{what} that end alike, with a warning")
        if not is_same:
            counts.append(f"{what} otherwise")
        if not is_same and not is_warned:
            counts.append(f"{what} otherwise without a warning")
            said = there.said or here.said or "another tree"
            lines.append(f"{name}: ends otherwise without a warning: {said}")
        return Verdict(counts, lines)


def is_refused_by_link(there: Ran, here: Ran) -> bool:
    """Returns whether llbmd refuses, by a symbolic link, what BuildKit builds."""
    return there.tree is not None and here.tree is None and LINKED in here.said


def ended(there: Ran, here: Ran) -> list[str]:
    """Returns what is counted of a Dockerfile that ended well on both, or that failed on both."""
    if (there.tree is None) != (here.tree is None):
        return []
    return [WELL if there.tree is not None else f"Dockerfiles that fail on both: {NAMED_THERE.sub('..', there.said)}"]


def has_too_few(counts: collections.Counter[str]) -> bool:
    """Returns whether too few Dockerfiles ended well on both to show anything, and prints it."""
    all_of, well = counts["Dockerfiles"], counts[WELL]
    if well * ONE_OF >= all_of:
        return False
    print(f"of {all_of:,} Dockerfiles {well:,} ended well on both: too few to show that the daemons agree", flush=True)
    return True


def keep(folder: str | None, case: Case) -> None:
    """Stores a case and its trees in a new folder, if a folder is given."""
    if folder is None:
        return
    place = pathlib.Path(folder, "".join(one if one.isalnum() else "-" for one in case.name))
    place.mkdir(parents=True, exist_ok=True)
    (place / ("Dockerfile" if case.is_dockerfile else "definition")).write_bytes(case.data)
    for name, tree in case.sources.items():
        (place / f"{name}.tree").write_bytes(b"".join(tree_maps.lines_of(tree)))


def verdicts(one: Comparison, options: argparse.Namespace) -> Iterator[tuple[Case, Verdict]]:
    """Yields all cases with how they ended. The random ones, whose sources have names of their own, are run in
    parallel; sources of one name would share a transfer."""
    llbm = program_at(options.llbm)
    for case in [*stored_cases(llbm), *least_cases(), *project_cases()]:
        yield case, one.compare(case)
    cases = random_cases(options.count, options.seed, llbm)
    with concurrent.futures.ThreadPoolExecutor(options.jobs) as pool:
        while some := list(itertools.islice(cases, AT_ONCE * options.jobs)):
            yield from zip(some, pool.map(one.compare, some))


def fixed(theirs: Started, ours: Daemon, options: argparse.Namespace) -> Iterator[tuple[Case, Verdict]]:
    """Yields the cases of the fixed sets that are asked for."""
    if options.links:
        yield from fixed_comparisons.of_exporters(theirs.daemon, ours)
        yield from fixed_comparisons.of_links(theirs, ours, rules_that_warn())
    if options.dockerfiles:
        files = fixed_comparisons.Dockerfiles(theirs, ours)
        yield from files.verdicts()
        print(files.line(), flush=True)


def compare_all(theirs: Started, ours: Daemon, options: argparse.Namespace) -> Counts:
    """Compares all cases, prints what was found, and counts those with nothing to say as passed."""
    counts: collections.Counter[str] = collections.Counter()
    cases, found = 0, 0
    try:
        some = verdicts(Comparison(theirs.daemon, ours), options)
        for case, verdict in itertools.chain(fixed(theirs, ours, options), some):
            counts.update(verdict.counts)
            cases += not verdict.counts[0].startswith("left out")
            found += bool(verdict.lines)
            for line in verdict.lines:
                print(common.printable(line), flush=True)
            if verdict.lines:
                keep(options.keep, case)
    except DaemonLost as fault:
        raise Refused(f"a daemon died: {fault}") from fault
    for what in sorted(counts):
        print(f"{what}: {counts[what]:,}")
    return Counts(cases - found, found + has_too_few(counts), counts[NO_EXECUTION])


@contextlib.contextmanager
def ours(options: argparse.Namespace, buildctl: str) -> Iterator[Daemon]:
    """Runs llbmd, or raises NoDaemon."""
    frontend = options.llbmd.with_name(FRONTEND)
    for place in (options.llbmd, frontend, options.llbmd.with_name(rules_program.NAME)):
        if not place.is_file():
            raise started_daemon.NoDaemon(f"there is no program {place}: `dev/dev daemon --clients` builds it")
    with tempfile.TemporaryDirectory(prefix="l") as made:
        words = ["-frontend", f"{runs.FRONTEND}={frontend}"]
        folder = pathlib.Path(made)
        with started_daemon.llbmd(options.llbmd, program_at(options.llbm), folder, *words) as (address, _):
            yield Daemon(buildctl, address)


def against(options: argparse.Namespace) -> int:
    """Compares all cases with the daemon that is given, or with one that is started, and returns the status."""
    common.check_open(sys.stdout, "standard output")
    if options.start:
        return against_started(options)
    buildctl = shutil.which(options.buildctl)
    if options.dockerfiles:
        raise Refused("--dockerfiles needs --start: RUNs have stand-ins only in a daemon of this program's own")
    theirs = Daemon(buildctl or "", options.address, started_daemon.NO_CACHE)
    if buildctl is None or not theirs.answers():
        cause = f"no daemon answers: {options.address}" if buildctl else f"there is no such program: {options.buildctl}"
        raise Refused(cause)
    try:
        with ours(options, buildctl) as daemon:
            return compare_all(Started(theirs, pathlib.Path(os.devnull), False), daemon, options).status()
    except started_daemon.NoDaemon as fault:
        raise Refused(str(fault)) from fault


def against_started(options: argparse.Namespace) -> int:
    """Compares all cases with a daemon of this program's own, prints counts, and returns the status."""
    try:
        with started_daemon.started(options.packages) as theirs, ours(options, theirs.daemon.command[0]) as daemon:
            counts = compare_all(theirs, daemon, options)
    except (started_daemon.NoDaemon, rules_program.Missing) as fault:
        print(f"skipped: {fault}\n{Counts(skipped=1).line()}")
        return 0
    print(counts.line())
    return counts.status()


def parse_options() -> argparse.Namespace:
    """Parses the command line."""
    parser = Parser(description="Compares BuildKit's daemon with llbmd.")
    add = parser.add_argument
    which = parser.add_mutually_exclusive_group(required=True)
    which.add_argument("--address", metavar="ADDRESS", help="the daemon's address, such as unix:///run/buildkitd.sock")
    which.add_argument("--start", action="store_true", help="build the daemon, and run one")
    add("--packages", metavar="FOLDER", type=pathlib.Path, default=debian_packages.FOLDER, help="where packages are")
    add("--buildctl", metavar="PROGRAM", default="buildctl", help="BuildKit's client")
    add("--llbmd", metavar="PROGRAM", type=pathlib.Path, default=daemons.PROGRAM, help="the daemon llbmd")
    add("--llbm", metavar="PROGRAM", help="the program llbm")
    add("--count", metavar="N", type=int, default=100, help="how many random ones of each kind")
    add("--seed", metavar="N", type=int, default=1, help="what the random ones depend on")
    add("--jobs", metavar="N", type=int, default=2, help="how many are built at once")
    add("--links", action="store_true", help="also build the fixed set of definitions with links")
    add("--dockerfiles", action="store_true", help="also build the Dockerfiles of daemon/dockerfiles; needs --start")
    add("--keep", metavar="FOLDER", help="where those with a finding are stored")
    return parser.parse_args()


def main() -> int:
    """Runs the tool, and returns its exit status."""
    options = parse_options()
    return exit_status(lambda: against(options))
