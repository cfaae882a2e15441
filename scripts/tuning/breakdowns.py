"""Whom variants met, and what each of them did against each opponent."""

from dataclasses import dataclass
from fractions import Fraction
from typing import Any, Mapping

from tournaments import robots
from tournaments.intervals import LEVEL, Mean

from . import figures
from .games import Games, Values

# What stands for all opponents in a column of them.
ALL = "all"
NONE = Mean(0, 0, 0)


@dataclass(frozen=True)
class Against:
    """What a variant did against one opponent, or against all: its points a match, what they are more than today's, the 95 % interval of
    that, and in how many matches."""

    name: str
    points: Mean
    change: Mean
    alone: Mean
    matches: int

    def data(self) -> dict[str, Any]:
        """All of it for JSON."""
        return {"robot": self.name, "points": self.points.value, "points_low": self.points.low, "points_high": self.points.high,
                "change": self.change.value, "low": self.change.low, "high": self.change.high, "matches": self.matches}


def distinct(games: Games) -> list[tuple[str, str, float]]:
    """The name, the hash and the weight of each opponent, by name. Of robots with equal bytes one stands for all."""
    names = robots.names([opponent.robot.path for opponent in games.opponents])
    named = {opponent.robot.sha256: name for name, opponent in zip(names, games.opponents)}
    weights = games.weights()
    return sorted((name, sha256, float(weights[sha256])) for sha256, name in named.items())


def listed(games: Games) -> list[str]:
    """The opponents by name, each with its weight if they differ."""
    them = distinct(games)
    is_even = len({weight for _, _, weight in them}) == 1
    return [name if is_even else f"{name} (weight {weight:g})" for name, _, weight in them]


def breakdown(games: Games, values: Values, level: float) -> list[Against]:
    """What a variant did, by opponent, with intervals of this level."""
    return [against(games, name, values, {other: Fraction(1)}, level, level) for name, other, _ in distinct(games)]


def against(games: Games, name: str, values: Values, weights: Mapping[str, Fraction], level: float, of_points: float) -> Against:
    """What a variant did against some opponents that have a name together, with intervals of these levels. Their ends are as they are written."""
    mine, today = (games.variant(one).sha256 for one in (values, games.today))
    change, alone = (figures.outward(games.scores.change(mine, today, weights, wide)) if mine != today else NONE for wide in (level, LEVEL))
    points = figures.outward(games.scores.points(mine, weights, of_points))
    return Against(name, points, change, alone, sum(len(games.scores.of[mine, other]) for other in weights))
