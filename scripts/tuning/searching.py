"""The search for better values: a race over places that are spread out, a race along each number, an evolution, and a last race.

Where an evolution begins matters: a number that does nothing up to a threshold leads nowhere, and a hill leads away from a higher one.
So the first races look everywhere, each with a part of the budget. What an evolution comes to is a mean of places that had few matches
each; the last race tells whether it is better than where it began, and than today's values."""

import random
import statistics
import time
from typing import Sequence

from .evolution import Evolution, Point
from .games import Games, Starts, Stretch, Values, matches_of, named
from .marks import Number
from .opponents import Opponent

# What stands for the robot in the starts of the search: those of the judgement are others.
SEARCHED = "tuned"
# The parts of the budget up to the end of the first race, of the races along each number, and of the evolution.
SPREAD, ALONG, EVOLVED = 0.15, 0.45, 0.85
# The most places of the first race, and how many values of a number race.
MOST_PLACES, VALUES = 256, 16
# Matches of a place before the first race halves them, as a part of those of a trial.
FIRST = 0.25
# How many rounds an evolution has at least.
ROUNDS = 10
# The middle of this last part of the rounds is what an evolution comes to.
TAIL = 0.25
# How many of its own versions a robot meets, and how often one more joins them.
OWN = 4
EACH = 0.1


def point_of(numbers: Sequence[Number], values: Values) -> Point:
    """Where values are in their ranges, from 0 to 1."""
    return tuple((value - number.range.low) / (number.range.high - number.range.low) for number, value in zip(numbers, values))


def values_of(numbers: Sequence[Number], point: Point) -> Values:
    """The values that are nearest to a point. What is next to today's value is today's: it may stand between two steps."""
    return tuple(number.range.nearest(number.range.low + part * (number.range.high - number.range.low)) for number, part in zip(numbers, point))


def spread(count: int, axes: int, seed: int) -> list[Point]:
    """Points that fill a cube evenly: on each axis a step further than the one before, by the ratio that does it best (Roberts, 2018)."""
    ratio = 2.0
    for _ in range(50):
        ratio = (1 + ratio) ** (1 / (axes + 1))
    rest = random.Random(seed)
    begin = [rest.random() for _ in range(axes)]
    return [tuple((at + number * ratio ** -axis) % 1 for axis, at in enumerate(begin, 1)) for number in range(count)]


class Search:
    """A search that has a budget of matches, and perhaps of time."""

    def __init__(self, games: Games) -> None:
        self._games = games
        self._begun = time.monotonic()
        self._own: list[Opponent] = []
        self._played = self._told = 0
        self._number = 1

    def run(self) -> Values:
        """Plays as long as there is budget; answers the values that it comes to."""
        first = self._race(self._places(), SPREAD)
        begin = self._along(first)
        return self._race([self._evolved(begin), begin, first, self._games.today], 1)

    @property
    def _among(self) -> list[Opponent]:
        return [*self._games.opponents, *self._own]

    def _left(self, until: float) -> int:
        """How many matches there are up to this part of the budget; none if that part of the time is over."""
        given = self._games.given
        is_late = given.minutes and time.monotonic() - self._begun >= until * 60 * given.minutes
        return 0 if is_late else max(0, int(until * given.budget) - self._played)

    def _places(self) -> list[Values]:
        """Today's values, and others that are spread out: as many as the first race can tell apart."""
        games, many = self._games, 2
        each = max(1, int(FIRST * games.given.round))
        while many < MOST_PLACES and 2 * many * many.bit_length() * each <= self._left(SPREAD):
            many *= 2
        points = spread(many - 1, len(games.numbers), games.given.seed)
        return [games.today, *(values_of(games.numbers, point) for point in points)]

    def _along(self, values: Values) -> Values:
        """The best values that differ from these in one number after the other."""
        numbers = self._games.numbers
        for axis, number in enumerate(numbers):
            several = [number.range.nearest(number.range.low + (at + 0.5) / VALUES * (number.range.high - number.range.low)) for at in range(VALUES)]
            places = [values, *((*values[:axis], value, *values[axis + 1:]) for value in several)]
            values = self._race(places, SPREAD + (ALONG - SPREAD) * (axis + 1) / len(numbers))
        return values

    def _race(self, places: Sequence[Values], until: float) -> Values:
        """The best place: the worse half of them is out each time, and the others have more matches. Without any it is the first one."""
        games, left = self._games, [*dict.fromkeys(places)]
        games.scores.clear()
        while len(left) > 1:
            each = self._left(until) // halvings(left) // matches_of(Stretch(0, 1), len(left), len(self._among))
            if not each:
                break
            worth = self._worth(left, each)
            left = sorted(left, key=lambda place: -worth[place])[:len(left) // 2]
            self._tell(left[0])
        return left[0]

    def _evolved(self, begin: Values) -> Values:
        """What an evolution comes to, from these values on."""
        games = self._games
        evolution = Evolution(point_of(games.numbers, begin), games.given.seed)
        most = min(games.given.round, self._left(EVOLVED) // (ROUNDS * evolution.count))
        middles, found = [evolution.middle], begin
        while True:
            each = max(1, most // (2 * len(self._among)))
            if matches_of(Stretch(0, each), evolution.count, len(self._among)) > self._left(EVOLVED):
                return found
            several = [values_of(games.numbers, point) for point in evolution.ask()]
            games.scores.clear()
            worth = self._worth(several, each)
            evolution.tell([worth[values] for values in several])
            middles.append(evolution.middle)
            found = values_of(games.numbers, mean_point(middles[-max(1, round(TAIL * len(middles))):]))
            if self._tell(found):
                self._meet(found)

    def _worth(self, several: Sequence[Values], each: int) -> dict[Values, float]:
        """What each of these is worth, after so many more matches of each seating."""
        games, among = self._games, self._among
        games.play(several, Starts(games.given.seed, SEARCHED), Stretch(self._number, each), among)
        self._number += each
        weights = games.weights(among)
        self._played += matches_of(Stretch(0, each), len({*several}), len(weights))
        return {values: games.scores.mean(games.variant(values).sha256, weights) for values in several}

    def _tell(self, found: Values) -> bool:
        """Takes what is best so far, and says how far the search is, if it is time; reports whether it was."""
        games = self._games
        games.progress.lead(named(games.numbers, found))
        if self._played < self._told + EACH * games.given.budget:
            return False
        self._told = self._played
        games.progress.say()
        return True

    def _meet(self, found: Values) -> None:
        """Adds the version of now to the opponents, if the robot is to meet itself."""
        games = self._games
        if games.given.against_itself:
            versions = [games.today, found] if not self._own else [found]
            self._own = [*self._own, *(Opponent(games.variant(values)) for values in versions)][-OWN:]


def halvings(left: Sequence[Values]) -> int:
    """How often a race halves its places until one is left."""
    return len(left).bit_length() - 1


def mean_point(points: Sequence[Point]) -> Point:
    return tuple(map(statistics.fmean, zip(*points)))
