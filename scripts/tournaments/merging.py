"""Puts the records that a plan's command lines wrote together again, if each match is there exactly once."""

import contextlib
from collections import Counter, defaultdict
from typing import IO, Iterable, Iterator

from results.battles import Group
from tools.faults import FILE, Fault, reading
from tools.output import INPUT

from .groups import whole_series
from .records import NoRecord, Record, Series, planned, played
from .robots import Robot
from .seats import keys
from .settings import Settings, difference

Runs = list[tuple[int, int]]


class Merger:
    """The records so far."""

    def __init__(self) -> None:
        self.settings: Settings | None = None
        self._robots: dict[int, Robot] = {}
        self._runs: defaultdict[Group, Runs] = defaultdict(list)
        self._seeds: dict[Group, int] = {}
        self.series: list[Series] = []

    def take(self, record: Record, place: str) -> None:
        """Takes a record of the same tournament."""
        self.check(record, place)
        self._runs[record.series.seats].append((record.series.first, record.series.last))
        self.series.append(record.series)

    def check(self, record: Record, place: str) -> None:
        """Refuses a record of another tournament or of other robots, also one that was not played."""
        if self.settings is None:
            self.settings = record.settings
        elif self.settings is not record.settings and self.settings != record.settings:
            raise Fault(f"{place} is of another tournament: {difference(self.settings, record.settings)}")
        if self._seeds.setdefault(record.series.seats, record.series.seed) != record.series.seed:
            raise Fault(f"{place} has another seed than others of its seating")
        for at, robot in zip(record.series.seats, record.robots):
            known = self._robots.setdefault(at, robot)
            if known is not robot and known != robot:
                said = "other bytes" if known.path == robot.path else f"the name {robot.path}"
                raise Fault(f"{place} is of other robots: {known.path} has {said} there")

    def robots(self) -> list[Robot]:
        """The robots in their order, when all matches are there."""
        return [self._robots[at] for at in sorted(self._robots)]

    def wrong(self) -> str:
        """What is missing or more than once, in a few words; nothing if each match is there once."""
        assert self.settings
        few = len(self._robots) < self.settings.robots
        lacking = f"only {len(self._robots)} of {self.settings.robots} robots are in its groups"
        if few and self.settings.sample:
            return lacking
        missing, twice, strange = Found("missing"), Found("there twice or more"), 0
        for series in whole_series(self.settings, self._keys()):
            runs = self._runs.pop(series.seats, [])
            if runs != [(1, series.matches)]:
                free, more = gaps(runs, series.matches)
                missing.add(series.seats, free)
                twice.add(series.seats, more)
            strange += not few and self._seeds.get(series.seats, series.seed) != series.seed
        said = [found.text(self._robots) for found in (missing, twice) if found.count]
        if self._runs or strange:
            said.append(f"{len(self._runs) + strange} seatings are not of this tournament")
        return "; ".join(said) or (lacking if few else "")

    def _keys(self) -> list[str]:
        """The keys of the robots. One that is in no record has no matches, whatever its key is."""
        known = self._robots
        return keys([known[at].sha256 if at in known else f"{at}" for at in range(self.settings.robots if self.settings else 0)])


class Found:
    """Matches that are not as they should be: how many, and which is the first."""

    def __init__(self, what: str) -> None:
        self._what = what
        self._first: tuple[Group, int] | None = None
        self.count = 0

    def add(self, seats: Group, runs: Runs) -> None:
        if runs and self._first is None:
            self._first = seats, runs[0][0]
        self.count += sum(last - first + 1 for first, last in runs)

    def text(self, robots: dict[int, Robot]) -> str:
        assert self._first
        seats, number = self._first
        among = ", ".join(robots[at].path if at in robots else f"robot {at + 1}" for at in seats)
        if self.count == 1:
            return f"1 match is {self._what}: match {number} of {among}"
        return f"{self.count} matches are {self._what}, the first is match {number} of {among}"


def gaps(runs: Runs, most: int) -> tuple[Runs, Runs]:
    """The runs of matches that are missing, and those that are more than once."""
    missing, twice = [], []
    end = 0
    for first, last in sorted(runs):
        if first > end + 1:
            missing.append((end + 1, first - 1))
        if first <= end:
            twice.append((first, min(last, end)))
        end = max(end, last)
    if end < most:
        missing.append((end + 1, most))
    return missing, twice


@contextlib.contextmanager
def opened(path: str | None) -> Iterator[IO[str]]:
    """Opens a file, or standard input."""
    with reading(path or "standard input"), open(path or INPUT, encoding="utf-8", errors="replace", newline="\n", closefd=bool(path)) as file:
        yield file


def records(files: list[str]) -> Iterator[tuple[Record, str]]:
    """The records of these files, or of standard input, each with its place."""
    paths: list[str | None] = [*files] or [None]
    for path in paths:
        with opened(path) as lines:
            for number, line in enumerate(lines, 1):
                place = f"line {number} of {path or 'standard input'}"
                try:
                    record = played(line)
                except NoRecord as why:
                    raise Fault(f"{place} {why}") from why
                yield record, place


def numbered(path: str, merger: Merger) -> dict[Series, list[int]]:
    """The series of a plan of what is merged, each with the numbers of its lines."""
    found: dict[Series, list[int]] = {}
    with opened(path) as lines:
        for number, line in enumerate(lines, 1):
            record = planned(line)
            if record is None:
                raise Fault(f"line {number} of {path} is no line of a plan", FILE)
            merger.check(record, f"line {number} of {path}")
            found.setdefault(record.series, []).append(number)
    return found


def against(path: str, merger: Merger) -> str:
    """Which lines of a plan were not played, or more than once, or what was played that no line has."""
    plan, counts = numbered(path, merger), Counter(merger.series)
    missing = [number for series, numbers in plan.items() for number in numbers if series not in counts]
    twice = [numbers[0] for series, numbers in plan.items() if counts[series] > len(numbers)]
    strange = sum(series not in plan for series in counts)
    said = [f"{lines_of(numbers)} of {path} {'is' if len(numbers) == 1 else 'are'} {what}"
            for what, numbers in (("missing", missing), ("there twice or more", twice)) if numbers]
    return "; ".join(said + ([f"{strange} series are in no line of {path}"] if strange else []))


def lines_of(numbers: Iterable[int]) -> str:
    """Numbers of lines, as 'lines 1-3, 7'."""
    runs: Runs = []
    for number in sorted(numbers):
        if runs and runs[-1][1] == number - 1:
            runs[-1] = runs[-1][0], number
        else:
            runs.append((number, number))
    said = ", ".join(str(first) if first == last else f"{first}-{last}" for first, last in runs)
    return f"line {said}" if len(runs) == 1 and runs[0][0] == runs[0][1] else f"lines {said}"
