"""What a robot did in some matches, and what that counts."""

from __future__ import annotations

import functools
from dataclasses import dataclass
from decimal import Decimal
from typing import Iterable, Mapping

from .battles import DID


@dataclass(frozen=True, slots=True)
class Score:
    """How often a robot won, tied and lost. A robot that died has lost, even if all others died too.

    Against one other robot it is also said how many of the lost matches both lost. These and the ties count a half for each."""

    won: int = 0
    tied: int = 0
    lost: int = 0
    both: int = 0

    @property
    def played(self) -> int:
        return self.won + self.tied + self.lost

    @property
    def even(self) -> int:
        """The matches that count a half for each of two robots."""
        return self.tied + self.both

    @property
    def yielded(self) -> int:
        """The matches that the other one of two robots won."""
        return self.lost - self.both

    @property
    def share(self) -> float:
        """The part that a robot has of matches with another one, from 0 to 1; a half if nothing was played."""
        return (self.won + self.even / 2) / self.played if self.played else 0.5

    @property
    def turned(self) -> Score:
        """The same matches from the other robot's side."""
        return Score(self.yielded, self.tied, self.won + self.both, self.both)

    def plus(self, other: Score) -> Score:
        return Score(self.won + other.won, self.tied + other.tied, self.lost + other.lost, self.both + other.both)


NONE = Score()


def added(scores: Iterable[Score]) -> Score:
    """The sum of scores."""
    return functools.reduce(Score.plus, scores, NONE)


def counted(letters: Mapping[str, int]) -> Score:
    """What a robot did, by how many matches ended with each letter for it."""
    return Score(*(letters.get(letter, 0) for letter in DID))


def between(died: Mapping[tuple[bool, bool], int]) -> Score:
    """What a robot did against another one, by how many matches ended so: whether it died, and whether the other did. It beats one
    that died if it lives itself."""
    both = died.get((True, True), 0)
    return Score(died.get((False, True), 0), died.get((False, False), 0), died.get((True, False), 0) + both, both)


@dataclass(frozen=True)
class Scoring:
    """What a win and a tie count."""

    won: Decimal = Decimal(3)
    tied: Decimal = Decimal(1)

    @property
    def worth(self) -> dict[str, float]:
        """What a match that ended so is worth."""
        return {"w": float(self.won), "t": float(self.tied), "l": 0.0}

    def mean(self, score: Score) -> Decimal:
        """Points a match."""
        return (self.won * score.won + self.tied * score.tied) / score.played if score.played else Decimal(0)
