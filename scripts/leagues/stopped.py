"""Shares of pairs that the sequential test stopped, without the bias of stopping (Rao and Blackwell).

A pair that stops early does so since one robot was lucky, or the other. So the share of its matches is too far from a half. But its
first look isn't chosen by anything. What is expected of it, if only the counts of all matches are known, has the same mean, and
differs less: the mean over all ways that lead to these counts without stopping before, of which each is alike probable. Matches that
count a half are taken to be spread evenly."""

import functools
import math
from typing import NamedTuple

from results.scores import Score
from results.verdicts import OPEN
from tournaments.evidence import Share

from .sequential import LOOK, looked


class Chance(NamedTuple):
    """A chance to win a match that one robot wins: what is expected of one match at the first look, and of two of it that both are
    won."""

    one: float
    both: float


# For each number of wins in how many ways it is reached: all ways, those that begin with a win, and those that begin with two.
Ways = tuple[list[float], list[float], list[float]]


def share(score: Score, first: Score) -> Share:
    """The share of a pair, by all that the test has seen of it, and by its first look."""
    won = score.won + score.yielded
    found = chances(score.played, won)[score.won] or plain(score.won, won)
    part = (first.won + first.yielded) / first.played
    away = found.one - 0.5
    own = part * part * max(0.0, found.one**2 - found.both)
    variance = own + away**2 * part * (1 - part) / max(first.played - 1, 1)
    return Share(0.5 + part * away, variance, own * part * -2 * away / max(won, 1), 1 / score.played, score.played - 1)


def plain(won: int, of: int) -> Chance:
    """The chance by all matches, if no way leads to them by looks at equal distances."""
    if of < 2:
        return Chance(won / of if of else 0.5, 0.0)
    return Chance(won / of, max(0.0, won * (won - 1) / of / (of - 1)))


@functools.cache
def chances(played: int, decisive: int) -> list[Chance | None]:
    """The chance for each number of wins among the matches that weren't a half; none if no way leads there."""
    if decisive < 2:
        return [None] * (decisive + 1)
    ways, have = begun(0), 0
    for begin in range(0, played, LOOK):
        # to the nearest, a half upward
        after = int(min(begin + LOOK, played) * decisive / played + 0.5)
        if have < 2:
            ways = begun(after)
        else:
            ways = further(ways, begin, have, after - have)
        have = after
    return [Chance(one / every, both / every) if every else None for every, one, both in zip(*ways)]


def begun(have: int) -> Ways:
    """The ways to win some of the first matches."""
    every, one, both = ([float(math.comb(have - first, won - first)) if have >= first <= won else 0.0 for won in range(have + 1)]
                        for first in range(3))
    return every, one, both


def further(ways: Ways, played: int, have: int, more: int) -> Ways:
    """The ways to win so many of more matches, if play didn't stop before them; their common scale is no matter."""
    going = [won for won in range(have + 1) if looked(Score(won, played - have, have - won)) == OPEN]
    each = [math.comb(more, won) for won in range(more + 1)]
    found: Ways = ([0.0] * (have + more + 1), [0.0] * (have + more + 1), [0.0] * (have + more + 1))
    for old, new in zip(ways, found):
        for won in going:
            for now, many in enumerate(each, won):
                new[now] += old[won] * many
    most = max(found[0]) or 1.0
    every, one, both = ([count / most for count in row] for row in found)
    return every, one, both
