"""What each robot did in each group, and the points of that."""

from collections import Counter
from decimal import Decimal
from typing import Mapping

from results.battles import Group
from results.scores import NONE, Score
from results.tallies import Tally, group_of
from tournaments.closeness import Weight

from .results import Results
from .rules import Rules
from .schedules import Schedule

ByRobot = dict[int, Score]


def tallied(schedule: Schedule, results: Results) -> Tally:
    """All matches of a season added up."""
    ended = results.endings()
    found = {}
    for group in schedule.groups():
        for robots, seed in schedule.seatings(group):
            if endings := ended.get(results.number(schedule.seated(robots, seed)) or 0):
                found[robots] = Counter(endings)
    return Tally(found)


def scores(schedule: Schedule, results: Results) -> dict[Group, ByRobot]:
    """What the robots of each group did there, if it was played."""
    return tallied(schedule, results).scores(group_of)


def total(parts: Mapping[Group, ByRobot], robots: int) -> list[Score]:
    """What each robot did in all groups."""
    found = [NONE] * robots
    for of_group in parts.values():
        for robot, score in of_group.items():
            found[robot] = found[robot].plus(score)
    return found


def points(parts: Mapping[Group, ByRobot], robots: int, rules: Rules) -> list[Decimal]:
    """Each robot's points a match. Its groups count alike, however much was played of each; sizes by their weights."""
    means: list[dict[int, list[Decimal]]] = [{} for _ in range(robots)]
    for group, of_group in parts.items():
        for robot, score in of_group.items():
            means[robot].setdefault(len(group), []).append(rules.scoring.mean(score))
    return [weighed(rules, sizes) for sizes in means]


def weighed(rules: Rules, sizes: Mapping[int, list[Decimal]]) -> Decimal:
    """The averages of all sizes, with their weights."""
    return sum((rules.weight(size) * average(them) for size, them in sorted(sizes.items())), Decimal(0))


def average(numbers: list[Decimal]) -> Decimal:
    return sum(numbers, Decimal(0)) / len(numbers)


def weights(parts: Mapping[Group, ByRobot], rules: Rules) -> Weight:
    """How much a match counts in a robot's points: its groups count alike, however much was played of each."""
    many: Counter[tuple[int, int]] = Counter()
    for group in parts:
        many.update((robot, len(group)) for robot in group)
    return lambda robot, group: float(rules.weight(len(group))) / many[robot, len(group)] / parts[group][robot].played
