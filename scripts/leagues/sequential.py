"""A sequential test: after how many matches a pair's result is decided.

A match counts x for the first robot: 1 if it alone survived, 0 if the second did, and 1/2 otherwise. Let m be the mean
of x over all starts, and over both seatings alike. Three things may be decided:

    BETTER  the first robot is better: m > 1/2
    WORSE   the second robot is better: m < 1/2
    EVEN    neither is better by much: 1/2 - MARGIN < m < 1/2 + MARGIN

The sides. With w matches for the first robot and l for the second, and any number of others,

    sides = 2**(w + l) * w! * l! / (w + l + 1)!

is the likelihood ratio of Wald's sequential test of a chance p against 1/2, averaged over all p (Robbins' mixture).
For one p a match multiplies the ratio by 1 + (2p - 1)(2x - 1). If m = 1/2, the means of both seatings are 1/2 + d and
1/2 - d, so a match of each is expected to multiply it by (1 + a)(1 - a) <= 1. So after whole rounds of both seatings
the ratios and their average are supermartingales, and by Ville's inequality `sides` ever comes to 1 / SHARE with a
chance of at most SHARE. If m > 1/2 the same is true of the average over p < 1/2 alone, which is at least as large as `sides`
when l > w. So WORSE is decided with a chance of at most SHARE then, and so is BETTER if m < 1/2.

Even. For a bet b let each match multiply by

    1 + b * (1/2 + MARGIN - x)

If m >= 1/2 + MARGIN, a match of each seating is expected to multiply by at most 1: the product of two numbers is at
most the square of their mean. So the average over some bets, `below`, comes to 1 / SHARE with a chance of at most
SHARE. EVEN is decided when it has, and the same of the second robot. If m is outside of the margin, one of the two is
improbable so.

So with SHARE = ERROR / 2 what is decided of a pair is false with a chance of at most ERROR, however often it is looked
at. By the sum over all pairs, of a table's pairs at most the share ERROR is expected to be decided falsely.

The interval. Against any mean m in place of 1/2 a match of share x multiplies the ratio for a chance p by

    (p / m)**x * ((1 - p) / (1 - m))**(1 - x)   if x is 0 or 1, and by the mean of both, if x = 1/2

By the same argument the average over all p ever comes to 1 / SHARE with a chance of at most SHARE if m is the mean. The
interval is made of all m against which it hasn't come to that. It holds the mean with a chance of 1 - SHARE, whenever one
looks. At m = 1/2 the average is `sides`: so 1/2 is outside of the interval just when a side is decided."""

import functools
import math
from typing import Iterable

from results.scores import NONE, Score
from results.verdicts import BETTER, EVEN, OPEN, WORSE

ERROR = 0.05
SHARE = ERROR / 2
ENOUGH = -math.log(SHARE)
MARGIN = 0.1
# Bets against a difference: small ones if nearly all matches are won or lost, large ones if nearly all are ties.
BETS = (0.4, 1.0, 2.2)
# A pair is judged after each LOOK matches, of which both seatings have equally many.
LOOK = 10
# Of an interval: by how many halvings its ends are found, and at how many chances p the average is taken, at least.
HALVINGS, NODES = 20, 80


def sides(score: Score) -> float:
    """The logarithm of how much more likely the matches are if one robot is better, by the average over all chances."""
    both = score.won + score.yielded
    return both * math.log(2) + math.lgamma(score.won + 1) + math.lgamma(score.yielded + 1) - math.lgamma(both + 2)


def against(score: Score, mean: float) -> float:
    """The logarithm of how much more likely the matches are than by this mean, by the average over all chances."""
    nodes, decided, even = NODES + 2 * math.isqrt(score.played), (score.won, score.yielded), score.even
    logs = []
    for node in range(nodes):
        won, lost = (node + 0.5) / nodes / mean, (nodes - node - 0.5) / nodes / (1 - mean)
        logs.append(decided[0] * math.log(won) + decided[1] * math.log(lost) + even * math.log((won + lost) / 2))
    most = max(logs)
    return most + math.log(sum(math.exp(one - most) for one in logs) / nodes)


@functools.cache
def interval(score: Score) -> tuple[float, float]:
    """All means against which the matches don't speak enough, whenever play stopped; all there are if nothing was played."""
    if not score.played:
        return 0.0, 1.0
    return 1 - upper(score.turned), upper(score)


def upper(score: Score) -> float:
    """The upper end of the interval. It is on the side of 1/2 on which the decision says it is."""
    near, far = score.share, 1.0
    if near == far:
        return far
    if near < 0.5:
        near, far = (near, 0.5) if sides(score) >= ENOUGH else (0.5, far)
    for _ in range(HALVINGS):
        middle = (near + far) / 2
        near, far = (middle, far) if against(score, middle) < ENOUGH else (near, middle)
    return far


def below(score: Score) -> float:
    """The logarithm of how much the matches speak against a first robot that is better by the margin or more."""
    middle = 0.5 + MARGIN
    logs = [sum(times * math.log1p(bet * (middle - x)) for times, x in ((score.won, 1.0), (score.even, 0.5), (score.yielded, 0.0)))
            for bet in BETS]
    most = max(logs)
    return most + math.log(sum(math.exp(one - most) for one in logs) / len(logs))


def looked(score: Score) -> str:
    """What is decided of the first robot if these are all matches."""
    if sides(score) >= ENOUGH:
        return BETTER if score.won > score.yielded else WORSE
    return EVEN if min(below(score), below(score.turned)) >= ENOUGH else OPEN


def decision(parts: Iterable[Score]) -> tuple[str, int]:
    """What is decided of the first robot, and after how many matches; these are given from each look to the next."""
    so_far = NONE
    for part in parts:
        so_far = so_far.plus(part)
        if (found := looked(so_far)) != OPEN:
            return found, so_far.played
    return OPEN, so_far.played
