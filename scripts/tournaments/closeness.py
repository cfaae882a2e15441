"""Which robots are close: those whose points differ by no more than chance makes them differ.

A robot's points are a sum of its matches, each with a weight. How far two robots' points are apart by chance alone shows in how
matches of the same robots in the same seats differ. One upset more of each, that it may have had, is thought of."""

import math
from collections import Counter, defaultdict
from functools import cache
from typing import Callable, Mapping

from results.battles import Group
from results.tallies import Ended, Tally, strata

from .intervals import quantile

# How much one match of a group counts in a robot's points.
Weight = Callable[[int, Group], float]


class Closeness:
    """How sure differences of points are; `worth` says what each letter is worth."""

    def __init__(self, tally: Tally, worth: Mapping[str, float], weight: Weight) -> None:
        self._worth = worth
        self._weight = weight
        self._groups = {group: strata(seatings) for group, seatings in tally.groups().items()}
        self._of_robot: defaultdict[int, list[Group]] = defaultdict(list)
        for group in self._groups:
            for robot in group:
                self._of_robot[robot].append(group)
        self._variance = cache(self._of_one)

    def are_close(self, one: int, other: int, apart: float) -> bool:
        """Reports whether the points of two robots may be equal if those of their matches are so far apart."""
        common = sum(self._common(one, other, group) for group in self._of_robot[one] if other in group)
        variance = self._variance(one) + self._variance(other) - 2 * common + self._upset(one) + self._upset(other)
        freedom = self._freedom(one) + self._freedom(other)
        return abs(apart) <= quantile(max(1, freedom)) * math.sqrt(max(0.0, variance))

    def _of_one(self, robot: int) -> float:
        """The variance of a robot's points."""
        return sum(self._common(robot, robot, group) for group in self._of_robot[robot])

    def _common(self, one: int, other: int, group: Group) -> float:
        """How the points of two robots vary together by a group's matches."""
        weight = self._weight(one, group) * self._weight(other, group)
        places = group.index(one), group.index(other)
        return weight * sum(together(stratum, *places, self._worth) for stratum in self._groups[group])

    def _upset(self, robot: int) -> float:
        """The square of what one upset is."""
        return max((max(self._worth.values()) * self._weight(robot, group)) ** 2 for group in self._of_robot[robot])

    def _freedom(self, robot: int) -> int:
        """How many matches, less the means that are taken of them, its variance comes from."""
        return sum(stratum.total() - 1 for group in self._of_robot[robot] for stratum in self._groups[group])


def together(stratum: Counter[Ended], one: int, other: int, worth: Mapping[str, float]) -> float:
    """How the sums of two robots' points in some matches vary together, without bias. One match shows nothing of that: all or
    nothing is taken for alike probable, for one robot at the others' cost."""
    played = stratum.total()
    if played == 1:
        ended, = stratum
        return max(worth.values()) ** 2 / 4 * (1 if one == other else -1 / (len(ended) - 1))
    both = [(worth[ended[one]], worth[ended[other]], many) for ended, many in stratum.items()]
    mine, theirs = (sum(row[at] * row[2] for row in both) / played for at in (0, 1))
    return sum((of_one - mine) * (of_other - theirs) * many for of_one, of_other, many in both) * played / (played - 1)
