"""Whether enough of a pair was played, and which of both is better: by all matches, or by as many as make it sure.

What readers are told of a pair whose rules have the sequential test is `Verdicts.told(pair)`: the test's decision, after how
many matches, and the interval of the first robot's share that holds whenever play stops. `said` has it in words, and `data`
as fields for JSON. Without the test there is none: then a pair has as many matches as the rules say, and Wilson's interval."""

from __future__ import annotations

from dataclasses import dataclass
from typing import Any

from results.battles import Group
from results.scores import NONE, Score, added
from results.verdicts import BETTER, EVEN, OPEN, OTHER, WORSE, Verdict

from .results import Results
from .schedules import Schedule
from .sequential import LOOK, decision, interval

# Matches of each seating from one look to the next.
EACH_LOOK = LOOK // 2


@dataclass(frozen=True)
class SoFar:
    """What is to be said of a pair's first robot so far, how many matches of each seating say so, and whether they are enough."""

    what: str
    each: int
    enough: bool


@dataclass(frozen=True)
class Told:
    """What the test says of a pair, from the side of its first robot.

    The score is that of the matches that the test has seen: up to the decision, or all. The interval is that of the first robot's
    share, from 0 to 1."""

    decision: str
    score: Score
    low: float
    high: float

    @property
    def verdict(self) -> Verdict:
        return Verdict(self.decision, self.score.played)

    @property
    def turned(self) -> Told:
        """The same from the other robot's side."""
        return Told(OTHER[self.decision], self.score.turned, 1 - self.high, 1 - self.low)


def said(told: Told, first: str, second: str) -> str:
    """The decision in words, with the robots' names."""
    by = f"after {told.score.played} matches"
    words = {BETTER: f"{first} is better, by the test ", WORSE: f"{second} is better, by the test ", EVEN: "even, by the test "}
    return words.get(told.decision, f"{OPEN} ") + by


def data(told: Told) -> dict[str, Any]:
    """The decision as fields for JSON, about the first robot: 'better', 'worse', 'even' or 'not decided'."""
    return {"verdict": told.decision, "tested": told.score.played, "share": told.score.share, "low": told.low, "high": told.high}


class Verdicts:
    """The verdicts on a season's pairs."""

    def __init__(self, schedule: Schedule, results: Results) -> None:
        self._schedule = schedule
        self._results = results
        self._counts = results.counts(EACH_LOOK)
        self._each = schedule.settings.each(2)

    def on(self, pair: Group) -> SoFar:
        """The verdict: if all matches don't make it sure either, it is that of more wins, as without the test."""
        parts = self._parts(pair)
        if self._schedule.field.rules.sure:
            what, matches = decision(parts)
            if what != OPEN:
                return SoFar(what, matches // 2, True)
        total = added(parts)
        what = BETTER if total.won > total.yielded else WORSE if total.won < total.yielded else EVEN
        return SoFar(what, total.played // 2, total.played // 2 >= self._each)

    def won(self, one: int, other: int) -> bool | None:
        """Reports whether a robot is better than another, if enough was played."""
        so_far = self.on((min(one, other), max(one, other)))
        return so_far.what == (BETTER if one < other else WORSE) if so_far.enough else None

    def wanted(self, pair: Group) -> int:
        """How many matches of each seating are wanted: all, or as many as there are until the next look."""
        so_far = self.on(pair)
        if so_far.enough:
            return so_far.each
        return min(self._each, so_far.each + EACH_LOOK) if self._schedule.field.rules.sure else self._each

    def told(self, pair: Group) -> Told | None:
        """What the test says of a pair; nothing if the rules have no test. The first robot of a pair has the lower place."""
        if not self._schedule.field.rules.sure:
            return None
        parts = self._parts(pair)
        score = until(parts)
        return Told(decision(parts)[0], score, *interval(score))

    def looked(self, pair: Group) -> tuple[Score, Score]:
        """What the test has seen of a pair, and what its first look has."""
        parts = self._parts(pair)
        return until(parts), parts[0] if parts else NONE

    def _parts(self, pair: Group) -> list[Score]:
        """What the first robot did from each look to the next, as far as both seatings were played."""
        one, other = (self._counts.get(self._results.number(self._schedule.seated(*seating)) or 0, {})
                      for seating in self._schedule.seatings(pair))
        found = []
        for part, begin in enumerate(range(0, self._each, EACH_LOOK)):
            there, turned = one.get(part, NONE), other.get(part, NONE)
            if min(there.played, turned.played) < min(EACH_LOOK, self._each - begin):
                break
            found.append(there.plus(turned.turned))
        return found


def until(parts: list[Score]) -> Score:
    """The matches up to the decision; all, if there is none."""
    matches = decision(parts)[1]
    score = NONE
    for part in parts:
        if score.played < matches:
            score = score.plus(part)
    return score
