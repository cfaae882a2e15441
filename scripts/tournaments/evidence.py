"""What matches show of robots: the share of each pair, and how sure all shares are, by how matches of the same robots in the same
seats differ.

A match counts for all pairs of its robots: one that lived has beaten each that died; other pairs have a half each. A robot's
score is the sum of its shares. What one match more or less of each outcome changes of them is linear in who lived."""

import functools
import itertools
from collections import Counter
from dataclasses import dataclass
from operator import sub
from typing import Iterator, Mapping, NamedTuple, Sequence

from results.battles import Group
from results.scores import Score
from results.tallies import Ended, Tally, strata

from .matrices import Matrix, Vector, product


class Share(NamedTuple):
    """A pair's share, from 0 to 1, of its first robot: with its variance and third moment, what one match is of it, and by how many
    matches, less the means that were taken of them, its variance is known."""

    value: float
    variance: float
    third: float
    each: float
    freedom: int


class Change(NamedTuple):
    """What matches with one outcome change of their robots' scores, one of them; and how much that counts in sums of squares and of
    third powers, so that these are without bias."""

    scores: tuple[float, ...]
    squares: float
    thirds: float


@dataclass(frozen=True)
class Spread:
    """How matches of three robots or more differ."""

    group: Group
    changes: tuple[Change, ...]
    freedom: int

    def moments(self, weights: Vector) -> tuple[float, float]:
        """The variance and the third moment of the sum of their scores with these weights, one for each robot of all."""
        own = [weights[at] for at in self.group]
        variance = third = 0.0
        for scores, squares, thirds in self.changes:
            weighed = product(own, scores)
            variance += squares * weighed * weighed
            third += thirds * weighed * weighed * weighed
        return variance, third


@dataclass(frozen=True)
class Evidence:
    """What matches show of some robots. The shares are those of pairs; what matches of more robots add to their variance is in the
    spreads."""

    robots: int
    shares: Mapping[Group, Share]
    spreads: Sequence[Spread] = ()


def evidence(tally: Tally, robots: int) -> Evidence:
    """What all matches show: the same to the last digit in whichever order they came."""
    pairs, groups = tally.pairs(), tally.groups()
    shares = {place: share(pairs[place], groups.get(place, ())) for place in sorted(pairs)}
    spreads = [spread(group, groups[group], pairs) for group in sorted(groups) if len(group) > 2]
    return Evidence(robots, shares, spreads)


def share(pair: Score, alone: Sequence[Counter[Ended]]) -> Share:
    """The share of a pair by all of its matches, with what those of both alone show of how sure it is."""
    each = 1 / pair.played
    those = strata(alone)
    parts = [moments(stratum["wl"], stratum.total() - stratum["wl"] - stratum["lw"], stratum["lw"]) for stratum in those]
    variance, third = (sum(part[at] for part in parts) for at in (0, 1))
    return Share(pair.share, each**2 * variance, each**3 * third, each, sum(stratum.total() - 1 for stratum in those))


@functools.cache
def moments(won: int, even: int, lost: int) -> tuple[float, float]:
    """The variance and the third moment of the sum of some matches that are worth 1, 1/2 and 0, without bias. One match shows nothing
    of how matches differ: it is taken for one that is won or lost, alike often."""
    played = won + even + lost
    if played < 2:
        return 0.25 * played, 0.0
    mean = (won + even / 2) / played
    square, third = (won * (1 - mean) ** at + even * (0.5 - mean) ** at + lost * (-mean) ** at for at in (2, 3))
    return square * played / (played - 1), third * played**2 / (played - 1) / (played - 2) if played > 2 else 0.0


def spread(group: Group, seatings: Sequence[Counter[Ended]], pairs: Mapping[Group, Score]) -> Spread:
    """How matches of a group differ."""
    each = [[1 / pairs[min(one, other), max(one, other)].played if one != other else 0.0 for other in group] for one in group]
    those = strata(seatings)
    changes = tuple(change for stratum in those for change in differing(stratum, each))
    return Spread(group, changes, sum(stratum.total() - 1 for stratum in those))


def differing(stratum: Counter[Ended], each: Matrix) -> Iterator[Change]:
    """How matches differ from their mean."""
    played = stratum.total()
    if played == 1:
        yield from unknown(each)
        return
    scores = [(scored(ended, each), many) for ended, many in sorted(stratum.items())]
    mean = [sum(many * those[at] for those, many in scores) / played for at in range(len(each))]
    for those, many in scores:
        thirds = many * played**2 / (played - 1) / (played - 2) if played > 2 else 0.0
        yield Change(tuple(map(sub, those, mean)), many * played / (played - 1), thirds)


def unknown(each: Matrix) -> Iterator[Change]:
    """What one match shows: each pair is taken for one whose robots win and lose alike often."""
    for one, other in itertools.combinations(range(len(each)), 2):
        part = each[one][other] / 2
        yield Change(tuple(part * ((at == one) - (at == other)) for at in range(len(each))), 1.0, 0.0)


def scored(ended: Ended, each: Matrix) -> list[float]:
    """What a match is of its robots' scores: one that lived has beaten each that died."""
    lived = [letter != "l" for letter in ended]
    return [sum(part * (0.5 + (own - other) / 2) for part, other in zip(row, lived)) for row, own in zip(each, lived)]
