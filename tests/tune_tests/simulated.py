"""A robot whose chances are known in place of one that plays: its search, its sweep and its judgement are those of the script."""

from __future__ import annotations

import argparse
import random
from fractions import Fraction
from typing import Callable, Sequence

from tournaments.journals import Journal
from tournaments.programs import Program
from tournaments.robots import Robot
from tournaments.settings import Settings
from tuning.far import Far
from tuning.games import Games, Starts, Stretch
from tuning.marks import Number, Place, Range
from tuning.opponents import Opponent
from tuning.scoring import Scores

WORTH = {"w": 3.0, "t": 1.0, "l": 0.0}
# What values win against each opponent, as parts of the matches; a tenth of the others is tied.
Chances = Callable[[tuple[int, ...]], Sequence[float]]
# What values win against other values of the same robot.
Rivalry = Callable[[tuple[int, ...], tuple[int, ...]], float]
# In this part of the matches a variant has luck of its own: so two that are equally good don't play alike.
OWN_LUCK = 0.2


def worth(wins: float) -> float:
    """The points a match with this chance to win."""
    return 3 * wins + (1 - wins) / 10


def number(value: int, low: int = 0, high: int = 100, name: str = "") -> Number:
    return Number(Place(1, 1), 0, 1, value, Range(low, high, None, name or f"n{value}"))


def words(seed: int, **given: object) -> argparse.Namespace:
    """The words of a command line, as far as a search reads them."""
    usual = {"seed": seed, "budget": 10_000, "round": 160, "minutes": None, "matches": 100, "quiet": True, "script": "tune", "against_itself": False,
             "until": None, "by_opponent": False}
    return argparse.Namespace(**{**usual, **given})


class Simulated(Games):
    """Games that are drawn. What begins alike has the same luck, but for a part of the matches."""

    def __init__(self, given: argparse.Namespace, numbers: Sequence[Number], chances: Chances, weights: Sequence[int] = (1, 1, 1),
                 rivalry: Rivalry = lambda one, other: 0.3) -> None:
        settings = Settings(given.matches, 1, given.seed, 1, "", 2, (2,))
        super().__init__(given, Program("", "", None), "", "robot", b"", numbers, [Opponent(Robot(f"r{at}", f"r{at}"), Fraction(it)) for at, it in enumerate(weights)],
                         settings, Journal(), Scores(WORTH), Far(0, True))
        self._chances = chances
        self._rivalry = rivalry
        # whom each play was against, and which matches it had
        self.met: list[list[str]] = []
        self.stretches: list[Stretch] = []
        self.played = 0

    def truth(self, values: tuple[int, ...]) -> float:
        """The points a match that values are worth."""
        weights = [float(it.weight) for it in self.opponents]
        return sum(weight * worth(wins) for weight, wins in zip(weights, self._chances(values))) / sum(weights)

    def variant(self, values: tuple[int, ...]) -> Robot:
        return self.variants.setdefault(values, Robot(str(values), str(values)))

    def play(self, several: Sequence[tuple[int, ...]], starts: Starts, stretch: Stretch, among: Sequence[Opponent] | None = None) -> None:
        """Draws the matches of each seat."""
        others = [it.robot.sha256 for it in among or self.opponents]
        self.met.append(others)
        self.stretches.append(stretch)
        for other in {*others}:
            for seat in (0, 1):
                common = random.Random(f"{starts} {other} {seat} {stretch}")
                luck = [common.random() for _ in range(stretch.count)]
                for values in {*several}:
                    self._draw(values, other, (seat, stretch.first), luck, random.Random(f"{values} {starts} {other} {seat} {stretch}"))

    def _wins(self, values: tuple[int, ...], other: str) -> float:
        """The chance of values to win against an opponent, or against other values."""
        versions = {it.sha256: those for those, it in self.variants.items()}
        return self._rivalry(values, versions[other]) if other in versions else self._chances(values)[int(other.removeprefix("r"))]

    def _draw(self, values: tuple[int, ...], other: str, place: tuple[int, int], luck: Sequence[float], own: random.Random) -> None:
        """Draws a stretch of matches of a variant with an opponent."""
        wins = self._wins(values, other)
        ties = wins + (1 - wins) / 10
        points = self.scores.of[self.variant(values).sha256, other]
        seat, first = place
        self.played += len(luck)
        self.progress.count(len(luck))
        for count, common in enumerate(luck):
            it = own.random() if own.random() < OWN_LUCK else common
            points[seat, first + count] = 3.0 if it < wins else 1.0 if it < ties else 0.0
