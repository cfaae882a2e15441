"""The standings: each robot's points and rating, in the order of a table."""

from dataclasses import dataclass
from decimal import Decimal
from functools import cache
from typing import Mapping

from results.scores import NONE, Score, Scoring, added
from results.standings import Rating, Standing, marked, ranked
from results.tallies import Tally

from .closeness import Closeness, Weight
from .evidence import evidence
from .ratings import ratings

# The scores of robots in matches of each size.
Scores = Mapping[int, Mapping[int, Score]]


@dataclass(frozen=True)
class Weighed(Scoring):
    """What a win and a tie count, and with which weight each size counts if sizes are added up."""

    weights: dict[int, Decimal] | None = None

    def weight(self, size: int) -> Decimal:
        return (self.weights or {}).get(size, Decimal(0))


def standings(tally: Tally, names: list[str], scoring: Weighed) -> list[Standing]:
    """The robots, best first; equal points have an equal rank. One whose points may be those of the one above is close."""
    scores, rated = tally.scores(len), ratings(evidence(tally, len(names)))
    closeness = Closeness(tally, scoring.worth, weights(scores, scoring))
    unranked = [unplaced(scores, robot, name, scoring, rated[robot]) for robot, name in enumerate(names)]
    rows = [*ranked(sorted(unranked, key=lambda row: (-row.points, row.robot)))]
    return [*marked(rows, closeness.are_close)]


def weights(scores: Scores, scoring: Weighed) -> Weight:
    """How much a match counts in a robot's points a match."""

    @cache
    def of_size(robot: int, size: int) -> float:
        if scoring.weights is None:
            return 1 / sum(of_robot[robot].played for of_robot in scores.values() if robot in of_robot)
        return float(scoring.weight(size)) / scores[size][robot].played

    return lambda robot, group: of_size(robot, len(group))


def unplaced(scores: Scores, place: int, name: str, scoring: Weighed, rating: Rating) -> Standing:
    """A robot's standing before its rank is known."""
    own = {size: scores[size].get(place, NONE) for size in sorted(scores)}
    total, means = added(own.values()), {size: scoring.mean(score) for size, score in own.items()}
    points = scoring.mean(total) if scoring.weights is None else sum((scoring.weight(size) * mean for size, mean in means.items()), Decimal(0))
    return Standing(name, 0, total, points, rating, by_size=means, place=place)
