"""Records: what a series played, as one line with a checksum. A journal has one a series, and a plan's command line writes one."""

import functools
import hashlib
import itertools
import os
from operator import ge
from typing import Iterator, NamedTuple
from urllib.parse import quote, unquote_to_bytes

from results.battles import Group, Match, endings, match
from results.tallies import group_of
from tools.rules import UPDATE_CYCLES

from . import settings as setting
from .robots import Robot
from .settings import Settings

# The number is that of the format.
BEGIN, OLDER = "series 2 ", "series m="
FILES = " files="
# What results are made of, and hashes.
RESULTS, HASHES = frozenset("0123456789:,"), frozenset("0123456789abcdef,")


class NoRecord(Exception):
    """Why a line is no record."""


class Series(NamedTuple):
    """Some matches of a seating, one after another: the robots' positions in the order of their seats, and the seed."""

    seats: Group
    seed: int
    first: int
    matches: int

    @property
    def last(self) -> int:
        return self.first + self.matches - 1

    @property
    def group(self) -> Group:
        return group_of(self.seats)


class Record(NamedTuple):
    """A series that was played, or is to be played (then without results). Robots and results are in the order of seats."""

    settings: Settings
    series: Series
    robots: tuple[Robot, ...]
    results: str = ""

    def head(self) -> str:
        """The record's line as far as it is known before the series is played. It has no quote and no line break."""
        series = self.series
        seats = ",".join(str(at + 1) for at in series.seats)
        hashes = ",".join(robot.sha256 for robot in self.robots)
        files = ",".join(encoded(robot.path) for robot in self.robots)
        return (f"{BEGIN}{self.settings.text} seats={seats} seed={series.seed} first={series.first} count={series.matches} "
                f"sha256={hashes}{FILES}{files}")

    def line(self) -> str:
        text = f"{self.head()} results={self.results}"
        return f"{text} sum={checksum(text)}\n"

    @property
    def ended(self) -> list[str]:
        """What the robots of each match did, a letter for each; nothing for damage that can't be."""
        return endings(self.results)

    def matches(self) -> Iterator[tuple[int, Match]]:
        """The matches with their numbers."""
        return ((self.series.first + at, match(result)) for at, result in enumerate(self.results.split(",")))


def checksum(text: str) -> str:
    """What stands at a record's end: the beginning of the hash of all before it."""
    return hashlib.sha256(text.encode()).hexdigest()[:16]


@functools.cache
def encoded(path: str) -> str:
    """A path without blanks, commas and quotes."""
    return quote(os.fsencode(path))


@functools.cache
def robot(file: str, sha256: str) -> Robot:
    """The robot of a path without blanks, commas and quotes."""
    return Robot(os.fsdecode(unquote_to_bytes(file)), sha256)


def planned(line: str) -> Record | None:
    """The record whose head stands somewhere in a line."""
    _, begin, rest = line.partition(BEGIN)
    head, files, behind = rest.partition(FILES)
    # in a command line a quote stands behind it
    named, *_ = behind.replace("'", " ").split() or [""]
    try:
        return fitting(record(f"{begin}{head}{files}{named}"))
    except ValueError:
        return None


def played(line: str) -> Record:
    """The record that is a whole line, with its line feed."""
    text, _, wanted = line.rpartition(" sum=")
    try:
        found = record(text)
        if not found.results or len(wanted) != len(checksum(text)) + 1:
            raise ValueError("not whole")
    except ValueError as why:
        older = line.startswith(OLDER)
        raise NoRecord("is a record of an older format" if older else "is cut short, or is no record of a series") from why
    if wanted != f"{checksum(text)}\n":
        raise NoRecord("was changed: its checksum is another")
    if not fitting(found):
        raise NoRecord("is no record of a series: its fields don't fit each other")
    check_results(found)
    return found


def check_results(record: Record) -> None:
    """Refuses results that no matches of these robots and this limit can have.

    A match ends early only in an update after which at most one robot lives."""
    each, robots, limit = record.results.split(","), len(record.robots), record.settings.cycles
    if len(each) != record.series.matches:
        raise NoRecord(f"has {len(each)} results of {record.series.matches} matches")
    for number, result, ended in zip(itertools.count(record.series.first), each, record.ended):
        cycles = int(result.partition(":")[0] or 0)
        early = 0 < cycles < limit and cycles % UPDATE_CYCLES == 0 and "t" not in ended
        if len(ended) != robots or not (cycles == limit or early):
            raise NoRecord(f"has a result that can't be: {result} of match {number}")


def record(text: str) -> Record:
    """The record that a text is: it writes the same text. Another one is a ValueError."""
    by, _, rest = text.removeprefix(BEGIN).partition(" seats=")
    seated, *fields = rest.split(" ")
    seed, first, count, hashes, files, *results = (field.partition("=")[2] for field in fields)
    series = Series(tuple([*map(position, seated.split(","))]), int(seed), int(first), int(count))
    robots = tuple([*map(robot, files.split(","), hashes.split(","))])
    found = Record(setting.parsed(by), series, robots, "".join(results))
    ours = "".join((found.head(), *(f" results={result}" for result in results)))
    if ours != text or not HASHES.issuperset(hashes) or not RESULTS.issuperset(found.results):
        raise ValueError(text)
    return found


def fitting(record: Record) -> Record | None:
    """A record, if its fields fit each other."""
    settings, series, many = record.settings, record.series, len(record.robots)
    fits = (len(series.seats) == many in settings.sizes and is_seating(series.seats, settings.robots)
            and 1 <= series.first <= series.last <= settings.each(many))
    return record if fits else None


@functools.cache
def position(seat: str) -> int:
    """A robot's position by its number in a record, which begins at 1."""
    return int(seat) - 1


def is_seating(seats: Group, robots: int) -> bool:
    """Reports whether these are positions of different robots, in their order if they begin with the first of them.

    Then one alone is followed by a lower one: the last of them by the first."""
    return 0 <= min(seats) and max(seats) < robots and sum(map(ge, seats, seats[1:] + seats[:1])) == 1
