"""What is to be played now: the matches that a season wants and that weren't played."""

from dataclasses import dataclass
from typing import Callable, Iterable, Iterator

from results.battles import Group
from tournaments import merging
from tournaments.records import Series

from .ladders import Ladder, climbed
from .results import Results
from .rules import LADDER
from .schedules import Schedule
from .verdicts import Verdicts

# How far apart the robots of a group are in the table.
Gap = Callable[[Group], float]


@dataclass(frozen=True)
class Need:
    """A group, and how many matches of each of its seatings are wanted."""

    group: Group
    each: int


def needs(schedule: Schedule, results: Results) -> Iterator[Need]:
    """What is wanted. After it was played more may be wanted."""
    rules = schedule.field.rules
    if rules.mode == LADDER:
        pair = ladder(schedule, Verdicts(schedule, results)).next
        groups: Iterable[Group] = [pair] if pair else []
    else:
        groups = schedule.groups()
    if rules.sure:
        verdicts = Verdicts(schedule, results)
        yield from (Need(group, verdicts.wanted(group)) for group in groups)
    else:
        yield from (Need(group, schedule.settings.each(len(group))) for group in groups)


def missing(schedule: Schedule, results: Results) -> Iterator[Series]:
    """The matches that are wanted and weren't played."""
    ends = results.ends()
    for need in needs(schedule, results):
        for robots, seed in schedule.seatings(need.group):
            number = results.number(schedule.seated(robots, seed)) or 0
            count, last = ends.get(number, (0, 0))
            runs = [(last + 1, need.each)] if count == last else gaps(results.played(number), need.each)
            yield from (Series(robots, seed, first, end - first + 1) for first, end in runs if first <= end)


def nearest(series: Iterable[Series], gap: Gap) -> list[Series]:
    """The series in the order in which they are best played: first those whose robots are close in the table."""
    return sorted(series, key=lambda one_series: gap(one_series.group))


def gaps(played: Iterable[int], most: int) -> list[tuple[int, int]]:
    """The runs of numbers up to the most that weren't played."""
    return merging.gaps([(number, number) for number in played if number <= most], most)[0]


def ladder(schedule: Schedule, verdicts: Verdicts) -> Ladder:
    """The ladder as far as it was played."""
    field = schedule.field
    return climbed(sorted(range(len(field.robots)), key=lambda at: field.since[field.robots[at].robot]), verdicts.won)
