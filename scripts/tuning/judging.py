"""What a search found is judged by matches that it has never seen."""

from dataclasses import dataclass
from typing import Iterator

from tools.faults import plain
from tournaments.versions import CHALLENGER

from . import figures
from .breakdowns import listed
from .games import Games, Starts, Stretch, Values
from .sweeps import Row, row
from .verdicts import BETTER, levels

# The judgement has this part of the budget besides, if no number of matches was given.
PART = 0.1


@dataclass(frozen=True)
class Judged:
    """What a search came to: the row of today's values, and that of those that it found."""

    today: Row
    tuned: Row

    @property
    def is_better(self) -> bool:
        """Whether the values that were found are surely better."""
        return self.tuned.verdict == BETTER

    @property
    def rows(self) -> list[Row]:
        """Both rows, or one if the search came back to today's values."""
        return [self.today] if self.tuned.values == self.today.values else [self.today, self.tuned]


def matches_of_budget(budget: int, others: int) -> int:
    """How many matches against each of so many robots both versions may have."""
    return int(PART * budget) // (2 * others)


def judge(games: Games, values: Values, each: int) -> Judged:
    """Plays the values and today's in matches that the search hasn't seen: those of `crobots-challenge`."""
    games.scores.clear()
    games.play([values, games.today], Starts(games.given.seed, CHALLENGER), Stretch(1, each))
    wide = levels(2, len(games.weights()))
    return Judged(*(row(games, one, wide) for one in (games.today, values)))


def said(games: Games, judged: Judged) -> Iterator[str]:
    """The judgement in words."""
    if judged.tuned.values == games.today:
        yield "the search came back to today's values: nothing is surely better\n"
        return
    points, before = (figures.points(one.points.value) for one in (judged.tuned, judged.today))
    change = judged.tuned.change
    yield (f"points a match: tuned {points}, today's {before}; change {figures.difference(change.value)}, 99 % interval {figures.interval(change)}, "
           f"by {games.given.matches} fresh matches against each of {plain(', '.join(listed(games)))}\n")
    yield "surely better\n" if judged.is_better else "nothing is surely better\n"
