"""What matches were worth: the points of each variant against each opponent, and differences of two variants with their intervals.

Variants play an opponent in the same seats from the same starts, so the differences of two matches with one seat and number are
independent of each other."""

import statistics
from collections import defaultdict
from dataclasses import dataclass, field
from fractions import Fraction
from typing import Collection, Mapping

from tournaments.intervals import LEVEL, Mean, mean
from tournaments.records import Record

# A match by the seat of the variant and by its number.
Place = tuple[int, int]
# The points of a variant against an opponent, by the matches.
Points = dict[Place, float]


@dataclass
class Scores:
    """The points of variants, by the hashes of variant and opponent."""

    worth: Mapping[str, float]
    of: dict[tuple[str, str], Points] = field(default_factory=lambda: defaultdict(dict))
    # how many matches there were, and how many of them the limit ended, which ties them
    matches: int = 0
    ties: int = 0

    def clear(self) -> None:
        """Forgets all matches."""
        self.of.clear()
        self.matches = self.ties = 0

    def add(self, record: Record, variants: Collection[str]) -> None:
        """Adds the matches of a series between a variant and an opponent."""
        first, second = (robot.sha256 for robot in record.robots)
        seat = 0 if record.series.seats[0] < record.series.seats[1] else 1
        variant, other = (first, second) if seat == 0 else (second, first)
        assert variant in variants
        points = self.of[variant, other]
        for number, ended in enumerate(record.ended, record.series.first):
            points[seat, number] = self.worth[ended[seat]]
            self.matches += 1
            self.ties += ended[seat] == "t"

    def mean(self, variant: str, weights: Mapping[str, Fraction]) -> float:
        """The points a match of a variant, each opponent by its weight."""
        return sum(float(weight) * statistics.fmean(self.of[variant, other].values())
                   for other, weight in weights.items()) / float(sum(weights.values()))

    def differences(self, one: str, two: str, other: str) -> list[float]:
        """How many points more one variant has than the other of each match with an opponent that both played."""
        mine, theirs = self.of[one, other], self.of[two, other]
        return [mine[place] - theirs[place] for place in sorted(mine.keys() & theirs.keys())]

    def points(self, variant: str, weights: Mapping[str, Fraction], level: float = LEVEL) -> Mean:
        """The points a match of a variant with their interval, which has nothing that no match can be worth."""
        found = mean([[*self.of[variant, other].values()] for other in weights], [*map(float, weights.values())], self._most, level)
        return Mean(found.value, max(found.low, 0.0), min(found.high, self._most))

    def change(self, one: str, two: str, weights: Mapping[str, Fraction], level: float = LEVEL) -> Mean:
        """How many points a match one variant has more than the other, with what one match more or less of the most points would do."""
        found = mean([self.differences(one, two, other) for other in weights], [*map(float, weights.values())], self._most, level)
        return Mean(found.value, max(found.low, -self._most), min(found.high, self._most))

    @property
    def _most(self) -> float:
        """What a match can be worth."""
        return max(self.worth.values())
