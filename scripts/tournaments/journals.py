"""The journal: a file with a record of each series that was played, from which a tournament goes on.

A match is found again by what decides it: the bytes of its robots in the order of their seats, the seed of the seating
and its number. So a robot whose bytes changed plays anew, and one that came or went leaves the matches of the others as
they were. Limit, profile and program are one for the whole journal."""

import contextlib
import fcntl
import os
import stat
import sys
from typing import Callable, Iterator

from tools.faults import FILE, Fault, reading, writing
from tools.output import write_all

from .records import BEGIN, OLDER, NoRecord, Record, played
from .settings import NAMES, Settings, shown

Seated = tuple[int, tuple[str, ...]]


class Journal:
    """The matches that were played, by the seating's seed and the robots' hashes; adds to the file, if there is one."""

    def __init__(self, path: str | None = None, file: int = -1) -> None:
        self._path = path
        self._file = file
        self._kept: dict[Seated, list[tuple[int, str]]] = {}

    def matches(self, record: Record) -> dict[int, str]:
        """The results of a record's matches, by their numbers, as far as they are there."""
        found: dict[int, str] = {}
        for first, results in self._kept.get(seated(record), ()):
            for number, result in enumerate(results.split(","), first):
                if found.setdefault(number, result) != result:
                    raise Fault(f"{self._path} has two results of one match", FILE)
        return {number: found[number] for number in sorted(found) if number <= record.series.last}

    def keep(self, record: Record) -> None:
        """Remembers a record that the file has."""
        self._kept.setdefault(seated(record), []).append((record.series.first, record.results))

    def add(self, record: Record) -> None:
        """Adds a record to the file, by one write unless the disk is full. If it can't be written whole, nothing of it stays."""
        if self._path is None:
            return
        line = record.line().encode()
        end = os.fstat(self._file).st_size
        with writing(self._path):
            try:
                write_all(self._file, line)
            except OSError:
                with contextlib.suppress(OSError):
                    os.ftruncate(self._file, end)
                raise


def seated(record: Record) -> Seated:
    """By what the matches of a record are found again."""
    return record.series.seed, tuple(sys.intern(robot.sha256) for robot in record.robots)


@contextlib.contextmanager
def journal(path: str | None, settings: Settings, tell: Callable[[str], None]) -> Iterator[Journal]:
    """Opens a journal that goes on from what it has; without a path one that keeps nothing."""
    if path is None:
        yield Journal()
        return
    with writing(path):
        file = os.open(path, os.O_RDWR | os.O_CREAT | os.O_APPEND | os.O_CLOEXEC, 0o666)
    try:
        if not stat.S_ISREG(os.fstat(file).st_mode):
            raise Fault(f"{path} is no regular file", FILE)
        opened = Journal(path, file)
        lock(path, file)
        load(opened, path, file, settings, tell)
        yield opened
        with contextlib.suppress(OSError):
            os.fsync(file)
    finally:
        os.close(file)


def lock(path: str, file: int) -> None:
    """Keeps the journal from another tournament that would add to it."""
    try:
        fcntl.flock(file, fcntl.LOCK_EX | fcntl.LOCK_NB)
    except BlockingIOError as why:
        raise Fault(f"{path} is the journal of a tournament that is being played", FILE) from why


def load(journal: Journal, path: str, file: int, settings: Settings, tell: Callable[[str], None]) -> None:
    """Reads all records, and drops a last line that was cut."""
    whole = 0
    with reading(path), open(file, "rb", closefd=False) as lines:
        for number, line in enumerate(lines, 1):
            if line.startswith(OLDER.encode()):
                raise Fault(f"{path} is a journal of an older format, whose robots had one seating only", FILE)
            if line.endswith(b"\n"):
                journal.keep(checked(line, f"line {number} of {path}", path, settings))
                whole += len(line)
            elif number == 1 and not BEGIN.encode().startswith(line[: len(BEGIN)]):
                raise Fault(f"{path} is no journal", FILE)
            else:
                tell(f"the last line of {path} was cut, and is dropped")
                os.ftruncate(file, whole)


def checked(line: bytes, place: str, path: str, settings: Settings) -> Record:
    """The record of a line, if it was played with these settings."""
    try:
        record = played(line.decode("ascii", errors="replace"))
    except NoRecord as why:
        raise Fault(f"{place} {why}", FILE) from why
    for name in ("cycles", "seed", "profile", "program"):
        ours, theirs = getattr(settings, name), getattr(record.settings, name)
        if ours != theirs:
            said = f"{NAMES[name]} {shown(theirs)}, not {shown(ours)}"
            raise Fault(f"{path} is a journal of other settings: {said}")
    return record
