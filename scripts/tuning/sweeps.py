"""A sweep: each value of one number, or of two, against the same opponents in the same matches.

It is played in rounds, each of which has as many matches as all before it. Under `--until sure` a value that is surely worse, than
today's or than the best one so far, has no more of them."""

from dataclasses import dataclass
from itertools import product
from typing import Iterator, Sequence

from tools.faults import plain
from tournaments.intervals import Mean

from . import figures
from .breakdowns import ALL, Against, against, breakdown, listed
from .games import Games, Starts, Stretch, Values, matches_of, named
from .verdicts import BETTER, TODAYS, WORSE, Levels, levels, verdict

# The first round, in matches of each seating.
FIRST = 10
OF_TWO = 8


@dataclass(frozen=True)
class Row:
    """A value: what it did against all opponents, and what is said of that.

    The interval of its change is the one by which the verdict is made; its level is that of this interval. A value that lost the race has
    in `beaten` which other one it is worse than, and by how much. `singles` has the same by opponent, if that is asked for."""

    values: Values
    whole: Against
    verdict: str
    level: float
    beaten: str = ""
    singles: Sequence[Against] = ()

    @property
    def points(self) -> Mean:
        return self.whole.points

    @property
    def change(self) -> Mean:
        return self.whole.change

    @property
    def matches(self) -> int:
        return self.whole.matches

    @property
    def is_out(self) -> bool:
        """Whether it is surely worse than today's value, or than another one."""
        return self.verdict == WORSE or self.is_beaten

    @property
    def is_beaten(self) -> bool:
        """Whether it isn't surely worse than today's value, and is so than another one."""
        return bool(self.beaten) and self.verdict != WORSE

    @property
    def said(self) -> str:
        """The verdict in words."""
        if not self.is_beaten:
            return self.verdict
        return f"{BETTER} but {self.beaten}" if self.verdict == BETTER else self.beaten


class Sweep:
    """A sweep that is being played: its values, and the rows of those that are out."""

    def __init__(self, games: Games, starts: Starts, each: int, until_sure: bool) -> None:
        self._games = games
        self._starts = starts
        self._several = swept(games)
        self._rounds = rounds_of(each)
        self._is_race = until_sure
        self._levels = levels(len(self._several), len(games.weights()), len(self._rounds) if until_sure else 1, until_sure)
        self._out: dict[Values, Row] = {}

    def run(self) -> list[Row]:
        """Plays all rounds; answers the rows of all values."""
        played = 0
        for number, most in enumerate(self._rounds, 1):
            self._begin(number, played)
            self._games.play(self._left, self._starts, Stretch(played + 1, most - played))
            played = most
            best = self._best()
            if self._is_race:
                self._drop(best)
                if self._is_decided():
                    break
        return [self._out.get(values) or row(self._games, values, self._levels) for values in self._several]

    @property
    def _left(self) -> list[Values]:
        return [values for values in self._several if values not in self._out]

    def _begin(self, number: int, played: int) -> None:
        """Says which round begins, if they are those of a race, and how many matches there are still to come."""
        rest = Stretch(played + 1, self._rounds[-1] - played)
        left = matches_of(rest, len(self._left), len(self._games.weights()))
        self._games.progress.begin(f"round {number} of {len(self._rounds)}" if self._is_race else "sweep", left, is_most=self._is_race)

    def _best(self) -> Values:
        """The value with the most points so far, which is told; today's if none has more."""
        games, weights = self._games, self._games.weights()
        worth = {values: games.scores.points(games.variant(values).sha256, weights).value for values in self._left}
        best = max([games.today, *self._left], key=worth.__getitem__)
        points, before = (figures.points(worth[values]) for values in (best, games.today))
        games.progress.lead(f"{named(games.numbers, best)} with {points} points a match, today's {before}")
        return best

    def _drop(self, best: Values) -> None:
        """Keeps the rows of values that are out. Today's stays: all others are compared with it."""
        rows = [row(self._games, values, self._levels, best) for values in self._left if values != self._games.today]
        self._out |= {one.values: one for one in rows if one.is_out}

    def _is_decided(self) -> bool:
        """Whether all is said: today's value alone is left, or one beside it that is better."""
        others = [values for values in self._left if values != self._games.today]
        return not others or len(others) == 1 and row(self._games, others[0], self._levels).verdict == BETTER


def swept(games: Games) -> list[Values]:
    """The values of a sweep in their order."""
    many = {1: 20, 2: OF_TWO}[len(games.numbers)]
    return [*product(*(number.range.values(number.value, many) for number in games.numbers))]


def sweep(games: Games, starts: Starts, each: int, until_sure: bool) -> list[Row]:
    """Plays all values, and answers their rows. Each seating of an opponent has `each` matches at most."""
    return Sweep(games, starts, each, until_sure).run()


def rounds_of(each: int) -> list[int]:
    """How many matches a seating has after each round: twice as many each time, up to the most."""
    found = [min(FIRST, each)]
    while found[-1] < each:
        found.append(min(2 * found[-1], each))
    return found


def row(games: Games, values: Values, wide: Levels, best: Values | None = None) -> Row:
    """The row of a value, which may have lost against the best one. Today's value is that with which others are compared."""
    whole = against(games, ALL, values, games.weights(), wide.change, wide.single)
    singles = breakdown(games, values, wide.single) if games.given.by_opponent else []
    if values == games.today:
        return Row(values, whole, TODAYS, wide.change, "", singles)
    lost = "" if best in (None, values) else beaten(games, values, best or values, wide.race)
    return Row(values, whole, verdict(whole.change), wide.change, lost, singles)


def beaten(games: Games, values: Values, best: Values, level: float) -> str:
    """Whether a value is surely worse than the best one, and then by how many points a match."""
    mine, its = (games.variant(one).sha256 for one in (values, best))
    less = figures.outward(games.scores.change(mine, its, games.weights(), level))
    than = named(games.numbers, best)
    return f"worse than {than} by {figures.points(less.high)} to {figures.points(less.low)}" if verdict(less) == WORSE else ""


def said(rows: Sequence[Row], games: Games) -> Iterator[str]:
    """The answer in words."""
    better = sorted((one for one in rows if one.verdict == BETTER), key=lambda one: (one.is_beaten, -one.change.value))
    worse, lost = [one for one in rows if one.verdict == WORSE], [one for one in rows if one.is_beaten]
    yield answer(better, games)
    yield f"surely better than today's {shown(games.today)}: {listed_values(better)}\n"
    yield f"surely worse than today's {shown(games.today)}: {listed_values(worse)}\n"
    if lost:
        yield f"surely worse than another one that was played: {listed_values(lost)}\n"
    yield f"against {plain(', '.join(listed(games)))}\n"


def answer(better: Sequence[Row], games: Games) -> str:
    """Which value one should take, of those that are better than today's, the best one first."""
    if not better:
        return f"keep today's {shown(games.today)}: no other value is surely better\n"
    best = better[0]
    return f"take {named(games.numbers, best.values)}: at least {figures.points(best.change.low)} points a match more than today's {shown(games.today)}\n"


def listed_values(rows: Sequence[Row]) -> str:
    """The values of rows in a list."""
    return ", ".join(shown(one.values) for one in rows) or "none"


def shown(values: Values) -> str:
    """A value, or two in brackets."""
    return str(values[0]) if len(values) == 1 else f"({', '.join(map(str, values))})"
