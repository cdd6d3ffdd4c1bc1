"""What a build keeps of the directories that it read, and what of it has changed since.

Of each entry it keeps the name and the mode, of each file and symbolic link also the size, the times of change, the
inode, the digest of its content or target, and the number of its token. A directory whose times of change are those
that were kept, and older than the last reading, has the same names; its times mean nothing else.
"""

import array
import bisect
import functools
import itertools
import os
import stat
from collections.abc import Iterable, Iterator
from typing import BinaryIO, NamedTuple

from llbm_tools.hashes import sha256
from llbm_tools.streams import Failed, Refused
from llbm_tools.trees.content_tokens import DIRECTORY, FILE, stamp_of
from llbm_tools.trees.directory_states import BYTES, SECOND, STATE, state_of, states_in
from llbm_tools.trees.extended_attributes import attributes_of, path_in

PIECE = 1 << 20
DIGEST = 32
NO_DIGEST = bytes(DIGEST)
BETWEEN = b"\0"

FEW = 4000
MOST_PROCESSES = 8

# The devices and inodes of what is no part of a source: the folders and the result of the build itself.
Hidden = frozenset[tuple[int, int]]


class Directory:
    """What was read of a directory: its path and mode, and names, states, digests and tokens of its entries by name."""

    def __init__(self, path: bytes, found: os.stat_result) -> None:
        self.path = path
        self.mode = found.st_mode
        self.times = (found.st_mtime_ns, found.st_ctime_ns)
        self.names: list[bytes] = []
        self.states = array.array("q")
        self.digests: list[bytes] = []
        self.numbers = array.array("q")

    def add(self, name: bytes, found: os.stat_result) -> None:
        """Adds the next entry."""
        self.names.append(name)
        self.states.extend(state_of(found))
        self.digests.append(NO_DIGEST)
        self.numbers.append(-1)

    def note(self, digest: bytes, number: int | None) -> None:
        """Notes the digest of the last entry, and the number of its token if it is given by reference."""
        self.digests[-1] = digest
        self.numbers[-1] = -1 if number is None else number


class Changed(NamedTuple):
    """A file whose content differs from what was kept: its place in what was kept, its state and digest now."""

    place: int
    found: os.stat_result
    digest: bytes


class Structure(Exception):
    """More has changed than contents of files."""


class Stored(NamedTuple):
    """A part of an open file, which is read when it is needed."""

    file: BinaryIO
    start: int
    length: int

    def data(self) -> bytes:
        """Returns the bytes of the part."""
        data = os.pread(self.file.fileno(), self.length, self.start)
        if len(data) != self.length:
            raise Failed("the file of --keep could not be read: it is cut off")
        return data


Part = bytes | Stored


def bytes_of(part: Part) -> bytes:
    """Returns the bytes of a part."""
    return part if isinstance(part, bytes) else part.data()


class Kept:
    """What was kept of a directory of a source, with all that is below it, in the order of the text.

    `latest` is a time that no file's times are after.
    """

    def __init__(self, mode: int, latest: int, parts: list[Part]) -> None:
        self.mode = mode
        self.latest = latest
        self.all = parts
        self.paths = bytes_of(parts[0]).split(BETWEEN)
        self.starts = [0, *itertools.accumulate(array.array("q", bytes_of(parts[1])))]
        self.names = bytes_of(parts[2])
        self.name_ends = [0, *itertools.accumulate(array.array("q", bytes_of(parts[3])))]
        self.states = bytes_of(parts[4])
        self.times = array.array("q", bytes_of(parts[7]))
        self.by_path: dict[bytes, int] | None = None

    @functools.cached_property
    def digests(self) -> bytes:
        """The digests of all entries, one after another."""
        return bytes_of(self.all[5])

    @functools.cached_property
    def numbers(self) -> "array.array[int]":
        """The tokens of all entries; -1 for one that has none."""
        return array.array("q", bytes_of(self.all[6]))

    def parts(self) -> list[bytes]:
        """Returns the bytes that it was made of."""
        return list(map(bytes_of, self.all))

    def names_of(self, directory: int) -> bytes:
        """Returns the names in a directory, with a zero byte between them."""
        return self.names[self.name_ends[directory] : self.name_ends[directory + 1]]

    def states_of(self, directory: int) -> bytes:
        """Returns the states of the entries of a directory."""
        return self.states[STATE * BYTES * self.starts[directory] : STATE * BYTES * self.starts[directory + 1]]

    def state(self, place: int) -> tuple[int, ...]:
        """Returns the state of an entry by its place."""
        return tuple(array.array("q", self.states[STATE * BYTES * place : STATE * BYTES * (place + 1)]))

    def digest(self, place: int) -> bytes:
        """Returns the digest of an entry by its place."""
        return self.digests[DIGEST * place : DIGEST * (place + 1)]

    def directory_of(self, place: int) -> int:
        """Returns the directory of an entry by its place."""
        return bisect.bisect_right(self.starts, place) - 1

    def file(self, place: int) -> tuple[bytes, bytes]:
        """Returns the path of the directory and the name of an entry by its place."""
        directory = self.directory_of(place)
        return self.paths[directory], self.names_of(directory).split(BETWEEN)[place - self.starts[directory]]

    def place_of(self, path: bytes, name: bytes) -> int | None:
        """Returns the place of an entry, by the path of its directory and its name, or None."""
        if self.by_path is None:
            self.by_path = {path: number for number, path in enumerate(self.paths)}
        directory = self.by_path.get(path)
        if directory is None:
            return None
        names = self.names_of(directory).split(BETWEEN)
        found = bisect.bisect_left(names, name)
        return self.starts[directory] + found if found < len(names) and names[found] == name else None

    def with_changes(self, changes: "Iterable[Changed]") -> "Kept":
        """Returns what was kept with other states and digests of some files."""
        states, digests, latest = bytearray(self.states), bytearray(self.digests), self.latest
        for place, found, digest in changes:
            latest = max(latest, found.st_mtime_ns, found.st_ctime_ns)
            state = array.array("q", state_of(found)).tobytes()
            states[STATE * BYTES * place : STATE * BYTES * (place + 1)] = state
            digests[DIGEST * place : DIGEST * (place + 1)] = digest
        return Kept(self.mode, latest, [*self.all[:4], bytes(states), bytes(digests), *self.all[6:]])

    def young(self, began: int) -> list[int]:
        """Returns the places of the files whose times are as young as the reading that began then."""
        if self.latest < began:
            return []
        states = array.array("q", self.states)
        return [place for place, time in enumerate(times_of(states)) if time >= began]


def latest_of(directories: list[Directory]) -> int:
    """Returns the latest time of all files."""
    return max((time for one in directories for time in times_of(one.states)), default=0)


def times_of(states: "array.array[int]") -> list[int]:
    """Returns the later one of the two times of each entry."""
    columns = zip(*(states[column::STATE] for column in (2, 3, 4, 5)))
    return [max(SECOND * one + part, SECOND * two + other) for one, part, two, other in columns]


def parts_of(directories: list[Directory]) -> list[Part]:
    """Returns what is kept of directories as bytes, as `Kept` takes it."""
    names = [BETWEEN.join(one.names) for one in directories]
    return [
        BETWEEN.join(one.path for one in directories),
        array.array("q", (len(one.names) for one in directories)).tobytes(),
        b"".join(names),
        array.array("q", map(len, names)).tobytes(),
        b"".join(one.states.tobytes() for one in directories),
        b"".join(itertools.chain.from_iterable(one.digests for one in directories)),
        b"".join(one.numbers.tobytes() for one in directories),
        array.array("q", itertools.chain.from_iterable(one.times for one in directories)).tobytes(),
    ]


def listed(directory: int, hidden: Hidden) -> tuple[bytes, list[os.stat_result]]:
    """Returns the names in an open directory, joined, and the states of its entries, both in the order of bytes."""
    with os.scandir(directory) as entries:
        found = sorted([(entry.name, entry.stat(follow_symlinks=False)) for entry in entries])
    if hidden:
        found = [one for one in found if (one[1].st_dev, one[1].st_ino) not in hidden]
    names = "\0".join([name for name, _ in found])
    if not names.isascii():
        found.sort(key=lambda one: os.fsencode(one[0]))
        names = "\0".join([name for name, _ in found])
    return os.fsencode(names), [state for _, state in found]


def names_in(directory: int) -> bytes:
    """Returns the names in an open directory, joined, in the order of bytes."""
    names = os.listdir(directory)
    names.sort()
    joined = "\0".join(names)
    return joined.encode() if joined.isascii() else BETWEEN.join(sorted(map(os.fsencode, names)))


def has_names(kept: Kept, directory: int, number: int, hidden: Hidden, began: int) -> bool:
    """Returns whether an open directory has the names that were kept."""
    found = os.fstat(directory)
    times = array.array("q", (found.st_mtime_ns, found.st_ctime_ns))
    if max(times) < began and times == kept.times[2 * number : 2 * number + 2]:
        return True
    names = kept.names_of(number)
    return names_in(directory) == names or listed(directory, hidden)[0] == names


def is_same(kept: Kept, root: int, number: int, hidden: Hidden, began: int) -> bool:
    """Returns whether a directory has the entries that were kept, in the same states."""
    try:
        directory = os.open(kept.paths[number][1:] or b".", DIRECTORY, dir_fd=root)
    except OSError:
        return False
    try:
        if not has_names(kept, directory, number, hidden, began):
            return False
        names = kept.names_of(number)
        return states_in(directory, names.split(BETWEEN) if names else []).tobytes() == kept.states_of(number)
    except OSError:
        return False
    finally:
        os.close(directory)


def other_directories(
    kept: Kept, root: int, numbers: Iterable[int], hidden: Hidden, began: int
) -> "array.array[int]":
    """Returns those of some directories that are not as they were kept."""
    return array.array("q", [number for number in numbers if not is_same(kept, root, number, hidden, began)])


def forked(kept: Kept, root: int, numbers: range, hidden: Hidden, began: int) -> tuple[int, int]:
    """Starts a process that compares some directories, and returns its number and the pipe for what it finds."""
    report, sender = os.pipe()
    process = os.fork()
    if process:
        os.close(sender)
        return process, report
    status = 1
    try:
        os.close(report)
        with open(sender, "wb") as output:
            output.write(other_directories(kept, root, numbers, hidden, began).tobytes())
        status = 0
    finally:
        os._exit(status)


def changed_directories(kept: Kept, root: int, hidden: Hidden, began: int) -> list[int]:
    """Returns the directories that are not as they were kept; if they are many, several processes compare them."""
    count = len(kept.paths)
    most = min(len(os.sched_getaffinity(0)), MOST_PROCESSES)
    processes = most if kept.starts[-1] > FEW and count > most else 1
    shares = [range(number, count, processes) for number in range(processes)]
    started = [forked(kept, root, share, hidden, began) for share in shares[1:]]
    found = list(other_directories(kept, root, shares[0], hidden, began))
    failed = False
    for process, report in started:
        with open(report, "rb") as given:
            found += array.array("q", given.read())
        failed = os.waitpid(process, 0)[1] != 0 or failed
    if failed:
        raise Failed("a process that compares directories ended early")
    return sorted(found)


def digest_at(directory: int, name: bytes, found: os.stat_result) -> bytes:
    """Returns the digest of a file of an open directory, which has to be in this state before and after."""
    if stat.S_ISLNK(found.st_mode):
        return sha256(os.readlink(name, dir_fd=directory)).digest()
    digest = sha256()
    descriptor = os.open(name, FILE, dir_fd=directory)
    try:
        while piece := os.read(descriptor, PIECE):
            digest.update(piece)
        if stamp_of(os.fstat(descriptor)) != stamp_of(found):
            raise Refused(f"changed during the build: {os.fsdecode(name)}")
    finally:
        os.close(descriptor)
    return digest.digest()


def keeps_tokens(kept: Kept, place: int, found: os.stat_result) -> bool:
    """Returns whether a file that may have another content can have it under the token that was kept.

    It has a token if its content is given by reference and is not empty. If each file in another state passes, and all
    names and modes are as they were, then the text of the source would be the same, and the source is what that text is
    with other contents for its tokens: `AreSpelled`, which the law `board_serves_each_table` of crates/llb_laws asks.
    """
    mode, size = kept.state(place)[:2]
    return found.st_mode == mode and bool(found.st_size) and bool(size) and kept.numbers[place] >= 0


def changes_in(kept: Kept, root: int, number: int, hidden: Hidden) -> Iterator[Changed]:
    """Yields the files of a directory that have changed; if more has changed, it raises Structure."""
    try:
        directory = os.open(kept.paths[number][1:] or b".", DIRECTORY, dir_fd=root)
    except OSError as fault:
        raise Structure from fault
    try:
        names, found = listed(directory, hidden)
        if names != kept.names_of(number):
            raise Structure
        for place, name, one in zip(itertools.count(kept.starts[number]), names.split(BETWEEN), found):
            if state_of(one) == kept.state(place):
                continue
            if not keeps_tokens(kept, place, one):
                raise Structure
            yield Changed(place, one, digest_at(directory, name, one))
    except OSError as fault:
        raise Structure from fault
    finally:
        os.close(directory)


def young_changes(kept: Kept, root: int, young: Iterable[int]) -> Iterator[Changed]:
    """Yields files that are read again since they are as young as the last reading, and whose content differs."""
    for place in young:
        path, name = kept.file(place)
        try:
            directory = os.open(path[1:] or b".", DIRECTORY, dir_fd=root)
        except OSError as fault:
            raise Structure from fault
        try:
            found = os.stat(name, dir_fd=directory, follow_symlinks=False)
            digest = digest_at(directory, name, found)
        except OSError as fault:
            raise Structure from fault
        finally:
            os.close(directory)
        if digest != kept.digest(place):
            if not keeps_tokens(kept, place, found):
                raise Structure
            yield Changed(place, found, digest)


def directories_in_another_state(kept: Kept, root: int, began: int) -> Iterator[bytes]:
    """Yields the paths of the directories whose times are not those that were kept, or are as young as the reading."""
    for number, path in enumerate(kept.paths):
        found = os.stat(path[1:] or b".", dir_fd=root, follow_symlinks=False)
        times = array.array("q", (found.st_mtime_ns, found.st_ctime_ns))
        if max(times) >= began or times != kept.times[2 * number : 2 * number + 2]:
            yield path


def check_attributes(kept: Kept, root: int, began: int, places: Iterable[int]) -> None:
    """Raises Structure if a directory in another state, or a file at one of these places, has extended attributes.

    An attribute changes the time of its entry, but neither a name nor a content.
    """
    files = (b"/".join(kept.file(place)) for place in places)
    try:
        for path in itertools.chain(directories_in_another_state(kept, root, began), files):
            if attributes_of(path_in(root, path[1:] or b".")):
                raise Structure
    except OSError as fault:
        raise Structure from fault


def changes_of(kept: Kept, place: str, began: int, hidden: Hidden, *, strict: bool) -> list[Changed]:
    """Returns the files of a source that are in another state; if more than contents has changed, raises Structure.

    Files whose times are not before the last reading began are read again. The digest of such a file can still be that
    which was kept. A strict reading also raises Structure if an entry got an extended attribute, which is left out.
    """
    try:
        root = os.open(place, DIRECTORY & ~os.O_NOFOLLOW)
    except OSError as fault:
        raise Structure from fault
    try:
        if os.fstat(root).st_mode != kept.mode:
            raise Structure
        others = changed_directories(kept, root, hidden, began)
        found = [one for number in others for one in changes_in(kept, root, number, hidden)]
        seen = {one.place for one in found}
        young = [one for one in kept.young(began) if one not in seen and kept.digest(one) != NO_DIGEST]
        if strict:
            check_attributes(kept, root, began, [*seen, *young])
        return found + list(young_changes(kept, root, [one for one in young if kept.state(one)[1]]))
    finally:
        os.close(root)


class Recorder:
    """Keeps what is read of a directory; a file that is as it was kept is not read again for its digest."""

    def __init__(self, before: Kept | None, young: Iterable[int]) -> None:
        self.before = before
        self.young = frozenset(young)
        self.directories: list[Directory] = []

    def directory(self, path: bytes, found: os.stat_result) -> Directory:
        """Adds the next directory."""
        self.directories.append(Directory(path, found))
        return self.directories[-1]

    def digest_of(self, directory: int, path: bytes, name: bytes, found: os.stat_result) -> bytes:
        """Returns the digest of a file of an open directory."""
        place = self.before.place_of(path[: -len(name) - 1], name) if self.before else None
        if self.before and place is not None and place not in self.young:
            if self.before.state(place) == state_of(found):
                return self.before.digest(place)
        return digest_at(directory, name, found)

    def scan(self, directory: int, path: bytes, hidden: Hidden) -> None:
        """Keeps all that is in an open directory, and closes it."""
        try:
            kept = self.directory(path, os.fstat(directory))
            names, found = listed(directory, hidden)
            for name, one in zip(names.split(BETWEEN), found):
                kept.add(name, one)
                below = b"%b/%b" % (path, name)
                if stat.S_ISREG(one.st_mode) and one.st_size:
                    kept.note(self.digest_of(directory, below, name, one), None)
                elif stat.S_ISDIR(one.st_mode):
                    self.scan(os.open(name, DIRECTORY, dir_fd=directory), below, hidden)
        finally:
            os.close(directory)

    def kept(self) -> Kept:
        """Returns what was kept."""
        return Kept(self.directories[0].mode, latest_of(self.directories), parts_of(self.directories))
