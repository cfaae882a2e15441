"""Plans: the series of a tournament, cut from the matches of its seatings, and their command lines."""

import math
import os
import shlex
from dataclasses import dataclass
from itertools import groupby
from typing import Iterable, Iterator

from tools.faults import Fault
from tools.rules import DEADLY, MOST_SEED

from .groups import count, whole_series
from .journals import Journal
from .records import Record, Series, encoded
from .robots import Robot
from .seats import keys, rounded
from .settings import Settings

SERIES = os.path.join(os.path.dirname(os.path.realpath(__file__)), "series")
ONE_WRITE = 4096


@dataclass(frozen=True)
class Plan:
    """What is played: the settings, the robots, the most matches of a series, and what is cut into series, if it isn't
    all of the tournament's matches."""

    settings: Settings
    robots: list[Robot]
    most: int
    only: tuple[Series, ...] = ()

    def record(self, series: Series, results: str = "") -> Record:
        return Record(self.settings, series, tuple(self.robots[at] for at in series.seats), results)

    def _whole(self) -> Iterable[Series]:
        """All matches of each seating."""
        return self.only or whole_series(self.settings, keys([robot.sha256 for robot in self.robots]))

    def planned(self) -> Iterator[Record]:
        """All series, of which none was played."""
        for series in self._whole():
            yield from map(self.record, cut(series, self.most))

    def count(self) -> int:
        """How many series that are."""
        if self.only:
            return sum(math.ceil(series.matches / self.most) for series in self.only)
        of_size = {size: size * math.ceil(self.settings.each(size) / self.most) for size in self.settings.sizes}
        return sum(count(self.settings, size) * series for size, series in of_size.items())

    def resumed(self, journal: Journal) -> Iterator[tuple[bool, Record]]:
        """All series: those that the journal has with their results, and those that are to be played."""
        for series in self._whole():
            kept = journal.matches(self.record(series))
            for there, numbers in groupby(range(series.first, series.last + 1), kept.__contains__):
                run = list(numbers)
                part = series._replace(first=run[0], matches=len(run))
                if there:
                    yield True, self.record(part, ",".join(kept[number] for number in run))
                else:
                    yield from ((False, self.record(piece)) for piece in cut(part, self.most))


def cut(series: Series, most: int) -> Iterator[Series]:
    """Cuts a series into some of at most `most` matches."""
    for begin in range(series.first, series.last + 1, most):
        yield series._replace(first=begin, matches=min(most, series.last + 1 - begin))


def busy(settings: Settings, jobs: int) -> int:
    """The most matches of a series by which all jobs are busy to the end."""
    matches = sum(count(settings, size) * rounded(settings.matches, size) for size in settings.sizes)
    return max(1, math.ceil(matches / (8 * jobs)))


def one_write(settings: Settings, robots: list[Robot]) -> int:
    """How many matches fit in a record that is one write into a pipe, whatever they come to."""
    size = max(settings.sizes)
    longest = sorted(robots, key=lambda robot: -len(encoded(robot.path)))[:size]
    group = tuple(range(settings.robots - size, settings.robots))
    series = Series(group, MOST_SEED, settings.matches, settings.matches)
    begin = len(Record(settings, series, tuple(longest)).line())
    most = (ONE_WRITE - begin) // (len(str(settings.cycles)) + len(f":{DEADLY}") * size + 1)
    if most < 1:
        raise Fault("the robots' names are too long for a plan")
    return most


def lines(plan: Plan, program: str) -> Iterator[str]:
    """The command line of each series."""
    begin, ours = shlex.quote(SERIES), shlex.quote(program)
    words = [shlex.quote(robot.path) for robot in plan.robots]
    for record in plan.planned():
        series = record.series
        options = " ".join(plan.settings.options(series.seed, series.first, series.matches))
        yield f"{begin} '{record.head()}' {ours} {options} {' '.join(words[at] for at in series.seats)}\n"
