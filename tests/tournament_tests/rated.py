"""Ratings, intervals and what is close: by values worked out by hand, by the definition match by match, and by made tournaments."""

from __future__ import annotations

import itertools
import math
import random
import statistics
from collections import Counter, defaultdict
from typing import Iterable, Iterator, Mapping, Sequence

from results import tallies
from tournaments import closeness, evidence, matrices, ratings
from tournaments.intervals import NORMAL, quantile

from .base import Base

# Of each seating, the robots in the order of their seats, the letters of each of its matches.
Played = Mapping[tuple[int, ...], Sequence[str]]
Row = tuple[float, float, float]
POINTS = 400 / math.log(10)
# What the method fixes: imagined ties, the upsets that a robot didn't have, and how many matches of a seating are enough.
TIES, UNSEEN, ENOUGH = 0.02, 0.1, 3


def tally_of(played: Played) -> tallies.Tally:
    return tallies.Tally({seats: Counter(ended) for seats, ended in played.items()})


def pairs(scores: Mapping[tuple[int, int], str]) -> dict[tuple[int, ...], list[str]]:
    """Matches of two whose ends are given as letters w, t and l for the first robot; x says that both died."""
    return {seats: [{"w": "wl", "t": "tt", "l": "lw", "x": "ll"}[it] for it in letters] for seats, letters in scores.items()}


def rated(played: Played, anchor: int | None = None, robots: int = 0) -> list[Row]:
    many = robots or 1 + max(robot for seats in played for robot in seats)
    found = ratings.ratings(evidence.evidence(tally_of(played), many), anchor)
    return [(it.value, it.low, it.high) for it in found]


def differing(found: Iterable[Row], wanted: Iterable[Row], near: float) -> list[str]:
    return [f"{it}, not {other}" for it, other in zip(found, wanted, strict=True)
            if any(abs(one - two) > near for one, two in zip(it, other))]


def made(source: random.Random, groups: Iterable[tuple[int, ...]], matches: int, wide: float) -> dict[tuple[int, ...], list[str]]:
    """Matches of each seating of these groups, of robots whose strengths are drawn so wide, with ties and matches without survivors."""
    strengths = [source.gauss(0, wide) for _ in range(100)]
    found: dict[tuple[int, ...], list[str]] = {}
    for group in groups:
        for first in range(len(group)):
            seats = group[first:] + group[:first]
            found[seats] = [ended(source, [math.exp(strengths[it]) for it in seats]) for _ in range(matches)]
    return found


def ended(source: random.Random, powers: list[float]) -> str:
    """How a made match ends."""
    alive = {source.choices(range(len(powers)), powers)[0]} if source.random() < 0.95 else set[int]()
    if source.random() < 0.1:
        alive.add(source.randrange(len(powers)))
    letter = "w" if len(alive) == 1 else "t"
    return "".join(letter if at in alive else "l" for at in range(len(powers)))


class Rated(Base):
    def two_robots_by_hand(self) -> list[str]:
        """15 wins of 20 are a share of 0.75, capped 0.745: odds of 2.921569, 186.25 points, half of it for each robot; in natural
        logarithms 0.53607 of 1.07214. One more of the share moves it by 0.98 / (2 * 0.745 * 0.255) = 2.57929.

        Eight wins of ten differ by 1.6 in squares and -0.96 in third powers, seven by 2.1 and -0.84: without bias 10 / 9 and 100 / 72
        times these. So the share's variance is 4.11111 / 400 = 0.0102778, its third moment -2.5 / 8000; unseen upsets are 0.1 / 400
        and 0.1 / 8000. Student's quantile of 18 degrees is 2.101. So the share goes up by 2.101 * 0.102605 - 0.0003 / 0.0105278 *
        1.44717 = 0.17433, and down by 0.26025, and as much times 0.98 does the capped one: 0.91585 is 2.3872, and 0.48996 is
        -0.0402 in logarithms of odds. Half of each is 207.3 and -3.5 points."""
        found = rated(pairs({(0, 1): "wwwwwwwwll", (1, 0): "lllllllwww"}))
        return differing(found, [(93.12, -3.5, 207.35), (-93.12, -207.35, 3.5)], 0.1)

    def skewness_by_hand(self) -> list[str]:
        """A skewness of -0.3 moves an end by -0.3 * 1.44715 = -0.43415 in a full field. By Hall's cube root it is 1 + 0.3 * (1.959964 -
        0.05) = 1.572989, of which the root is 1.162985: 3 / 0.3 * 0.162985 - 1.959964 = -0.330114. Half of each is -0.38213."""
        cases = {(-0.3, 0.0): -0.43415, (-0.3, 1.0): -0.330114, (-0.3, 0.5): -0.38213, (0.3, 0.0): 0.43415, (0.3, 1.0): 0.43415, (0.0, 1.0): 0.0}
        found = {it: ratings.further(*it) for it in cases}
        return [f"{it}: {found[it]}, not {cases[it]}" for it in cases if abs(found[it] - cases[it]) > 1e-4]

    def one_that_won_all_by_hand(self) -> list[str]:
        """0.99 of a pair are odds of 99: 798.25 points, which is as far as two robots can be apart; half of it for each. Up from there
        nothing leads. Down: ten matches without an upset have no variance but by 0.1 / 100, and 2.306 * 0.0316228 + 0.1 *
        1.44717 = 0.217639 is how far the share goes, 0.776713 the capped one: odds of 3.47856, 216.56 points, half of it."""
        wanted = [(399.13, 108.28, 399.13), (-399.13, -399.13, -108.28)]
        return differing(rated(pairs({(0, 1): "wwwww", (1, 0): "lllll"})), wanted, 0.1)

    def seats_are_no_matter_to_ratings(self) -> list[str]:
        """The same matches with the other robot in the first seat, and with other numbers of robots."""
        one = rated(pairs({(0, 1): "wwwtl", (0, 2): "wwwwl", (1, 2): "wwwtl"}))
        other = rated(pairs({(1, 0): "lllt" + "w", (2, 0): "llllw", (2, 1): "lllt" + "w"}))
        turned = rated(pairs({(2, 1): "wwwtl", (2, 0): "wwwwl", (1, 0): "wwwtl"}))
        return differing(other, one, 1e-6) + differing(turned[::-1], one, 1e-6)

    def by_the_definition(self) -> list[str]:
        """Match by match, by slopes that are found by moving each share a little, and ends that are found by halving: fields of pairs,
        threes, fours and all of them, with few and many matches, complete, sparse, in chains and with one robot that met one other."""
        source = random.Random(3)
        every = {size: [*itertools.combinations(range(6), size)] for size in (2, 3, 4)}
        cases: dict[str, tuple[list[tuple[int, ...]], int, float]] = {
            "all": (every[2], 4, 1.0), "few": (every[2], 2, 1.0), "one": (every[2], 1, 1.0), "far": (every[2], 6, 3.0),
            "two": ([(0, 1)], 5, 1.0), "chain": ([(at, at + 1) for at in range(5)], 6, 1.5),
            "star": ([(0, at) for at in range(1, 6)], 6, 1.5), "new": ([*every[2][:10], (4, 5)], 5, 1.0),
            "threes": (every[3], 3, 1.0), "few threes": (every[3], 1, 1.0), "three": ([(0, 1, 2)], 3, 1.0),
            "some threes": ([(0, 1, 2), (1, 2, 3), (3, 4, 5)], 4, 1.0), "fours": (every[4], 2, 1.0),
            "sizes": ([*every[2], *every[3], *every[4]], 3, 1.0),
        }
        wrong = []
        for name, (groups, matches, wide) in cases.items():
            played = made(source, groups, matches, wide)
            for anchor in (None, 1):
                wrong += [f"{name}: {it}" for it in differing(rated(played, anchor), [*defined(played, anchor)], 0.01)]
        return wrong

    def parts_are_rated_by_themselves(self) -> list[str]:
        """Two parts that haven't met, and a robot that met nobody: each part is rated as if it were alone, and by an anchor only its
        own part."""
        one, other = pairs({(0, 3): "wwwtl", (3, 0): "lwltl"}), pairs({(1, 4): "wwwwl", (4, 1): "lllwt"})
        nothing = (ratings.NOTHING.value, ratings.NOTHING.low, ratings.NOTHING.high)
        first, second = (rated(pairs({(0, 1): here, (1, 0): there})) for here, there in (("wwwtl", "lwltl"), ("wwwwl", "lllwt")))
        wrong = differing(rated({**one, **other}, None, 6), [first[0], second[0], nothing, first[1], second[1], nothing], 1e-9)
        anchored = rated({**one, **other}, 3)
        return wrong + ([] if [it == nothing for it in anchored] == [False, True, True, False, True] else [f"{anchored}"])

    def matrices_by_hand(self) -> list[str]:
        """((4, 2), (2, 5)) is (2, 0), (1, 2) times its transpose; its inverse is ((5, -2), (-2, 4)) / 16; and 4x + 2y = 2, 2x + 5y =
        9 has x = -1/2, y = 2."""
        factor = matrices.factored([[4.0, 2.0], [2.0, 5.0]])
        found = factor, matrices.inverse(factor), matrices.solved(factor, [2.0, 9.0])
        wanted = [[2.0], [1.0, 2.0]], [[0.3125, -0.125], [-0.125, 0.25]], [-0.5, 2.0]
        return [] if found == wanted else [f"{found}"]

    def products_of_rows_by_hand(self) -> list[str]:
        """With (1, 2, 3, 4, 5): of rows that have mostly zeros, one number, none, no zeros."""
        rows = [[0.0, 0.0, 3.0, 0.0, 2.0], [0.0, 0.0, 0.0, -7.0, 0.0], [0.0] * 5, [1.0, -1.0, 1.0, -1.0, 1.0], [0.0, 1.0, 1.0, 1.0, 0.0]]
        found = [of_row([1.0, 2.0, 3.0, 4.0, 5.0]) for of_row in matrices.forms(rows)]
        return [] if found == [19.0, -28.0, 0.0, 3.0, 9.0] else [f"{found}"]

    def close_by_the_definition(self) -> list[str]:
        """The variance of a difference of points match by match: in pairs, threes and with two sizes."""
        source, wrong = random.Random(8), list[str]()
        worth = {"w": 3.0, "t": 1.0, "l": 0.0}
        groups = {size: [*itertools.combinations(range(5), size)] for size in (2, 3)}
        for chosen, matches in ((groups[2], 5), (groups[2], 2), (groups[2], 1), (groups[3], 3), (groups[3], 1), (groups[2] + groups[3], 4)):
            played = made(source, chosen, matches, 0.7)
            weight = {2: 0.01, 3: 0.02}
            those = closeness.Closeness(tally_of(played), worth, lambda robot, group: weight[len(group)] * (1 + robot / 10))
            for one, other in itertools.permutations(range(5), 2):
                edge = far_apart(played, one, other, worth, lambda robot, group: weight[len(group)] * (1 + robot / 10))
                if not those.are_close(one, other, edge * 0.999) or those.are_close(one, other, -edge * 1.001):
                    wrong.append(f"{one} and {other} of {chosen}: {edge}")
        return wrong

    def copies_are_rarely_apart(self) -> list[str]:
        """Of two equal robots at most one in twenty is not close, by two matches or many; and one that wins all is not close to the
        other after six matches."""
        source, wrong = random.Random(2), list[str]()
        worth = {"w": 3.0, "t": 1.0, "l": 0.0}
        for matches in (1, 2, 3, 10, 50):
            apart = 0
            for _ in range(600):
                scores = {seats: "".join(source.choice("wwtlxl") for _ in range(matches)) for seats in ((0, 1), (1, 0))}
                played = pairs({seats: letters.replace("x", "w") for seats, letters in scores.items()})
                points = [sum(worth[it[seats.index(robot)]] for seats, all_of in played.items() for it in all_of) for robot in (0, 1)]
                those = closeness.Closeness(tally_of(played), worth, lambda robot, group: 0.5 / matches)
                apart += not those.are_close(0, 1, (points[0] - points[1]) / 2 / matches)
            wrong += [] if apart <= 0.05 * 600 + 12 else [f"{matches} matches of each seating: {apart} of 600"]
        sure = closeness.Closeness(tally_of(pairs({(0, 1): "www", (1, 0): "lll"})), worth, lambda robot, group: 1 / 6)
        return wrong + ([] if not sure.are_close(0, 1, 3.0) and sure.are_close(0, 1, 1.0) else ["six wins"])


def share(one: str, other: str) -> float:
    """What a match is of a pair's share, by the letters of both."""
    return 0.5 + ((one != "l") - (other != "l")) / 2


def of_groups(played: Played) -> dict[tuple[int, ...], list[list[dict[int, str]]]]:
    """Of each group the matches that are compared with each other, each as the letters of its robots."""
    found = defaultdict[tuple[int, ...], list[list[dict[int, str]]]](list)
    for seats, ends in played.items():
        found[tuple(sorted(seats))].append([dict(zip(seats, it)) for it in ends])
    return {group: those if min(map(len, those)) >= ENOUGH else [[*itertools.chain(*those)]] for group, those in found.items()}


def met(played: Played) -> dict[tuple[int, int], list[float]]:
    """What each pair's matches are of its share."""
    found = defaultdict[tuple[int, int], list[float]](list)
    for seats, ends in played.items():
        for one, other in itertools.combinations(sorted(seats), 2):
            found[one, other] += [share(it[seats.index(one)], it[seats.index(other)]) for it in ends]
    return dict(found)


def fitted(shares: Mapping[tuple[int, int], float], robots: int) -> list[float]:
    """The strengths by which each robot's capped shares add up to what is expected, with mean 0: by Newton's method from 0, with the
    whole matrix of each step, and Gauss's elimination."""
    found = [0.0] * robots
    for _ in range(80):
        rows = [[1.0] * robots + [-sum(found)] for _ in range(robots)]
        for (one, other), it in shares.items():
            chance = 1 / (1 + math.exp(found[other] - found[one]))
            more, bend = TIES / 2 + (1 - TIES) * it - chance, chance * (1 - chance)
            for mine, theirs, sign in ((one, other, 1), (other, one, -1)):
                rows[mine][-1] += sign * more
                rows[mine][mine] += bend
                rows[mine][theirs] -= bend
        steps = eliminated(rows)
        found = [it + max(-1.0, min(1.0, step)) for it, step in zip(found, steps)]
        if max(abs(it) for it in steps) < 1e-12:
            break
    return found


def eliminated(rows: list[list[float]]) -> list[float]:
    """What solves a system of equations, of which each row has its right side last."""
    for at, row in enumerate(rows):
        for below in rows[at + 1:]:
            factor = below[at] / row[at]
            below[at:] = [it - factor * other for it, other in zip(below[at:], row[at:])]
    found: list[float] = []
    for at in reversed(range(len(rows))):
        known = sum(it * value for it, value in zip(reversed(rows[at][at + 1:-1]), found))
        found.append((rows[at][-1] - known) / rows[at][at])
    return found[::-1]


class Defined:
    """The intervals of robots by their definition."""

    def __init__(self, played: Played) -> None:
        self.played, self.met, self.groups = played, met(played), of_groups(played)
        self.robots = range(1 + max(max(it) for it in self.met))
        shares = {pair: sum(it) / len(it) for pair, it in self.met.items()}
        self.strengths = fitted(shares, len(self.robots))
        self.slopes = {}
        for pair, it in shares.items():
            up, down = (fitted({**shares, pair: it + by}, len(self.robots)) for by in (1e-5, -1e-5))
            self.slopes[pair] = [(one - other) / 2e-5 for one, other in zip(up, down)]

    def moves(self, robot: int, match: Mapping[int, str]) -> float:
        """How a match moves a robot's strength."""
        return sum(self.slopes[pair][robot] * share(match[pair[0]], match[pair[1]]) / len(self.met[pair])
                   for pair in itertools.combinations(sorted(match), 2))

    def together(self, one: int, other: int, group: tuple[int, ...]) -> float:
        """How the strengths of two robots vary together by matches of a group."""
        found = 0.0
        for those in self.groups[group]:
            mine, theirs = ([self.moves(it, match) for match in those] for it in (one, other))
            if len(those) == 1:
                found += sum(self.slopes[pair][one] * self.slopes[pair][other] / len(self.met[pair]) ** 2 / 4
                             for pair in itertools.combinations(group, 2))
            else:
                found += statistics.covariance(mine, theirs) * len(those)
        return found

    def third(self, robot: int, group: tuple[int, ...]) -> float:
        """The third moment of a robot's strength by matches of a group."""
        found = 0.0
        for those in self.groups[group]:
            mine, many = [self.moves(robot, match) for match in those], len(those)
            if many > 2:
                mean = statistics.fmean(mine)
                found += sum((it - mean) ** 3 for it in mine) * many**2 / (many - 1) / (many - 2)
        return found

    def doubt(self, one: int, other: int, pair: tuple[int, int]) -> float:
        """What unseen upsets of a pair in a sparse field do to the strengths of two robots."""
        few = sum(1 / len(self.opponents(it)) - 1 / (len(self.robots) - 1) for it in pair)
        return UNSEEN * few * self.slopes[pair][one] * self.slopes[pair][other] / len(self.met[pair]) ** 2

    def opponents(self, robot: int) -> list[tuple[int, int]]:
        return [pair for pair in self.met if robot in pair]

    def moved(self, robot: int, side: int) -> float:
        """How far a robot's own matches may move its strength, if chance were a straight line of strengths."""
        own = [group for group in self.groups if robot in group]
        size = max(map(len, own))
        upsets = [size / 2 * abs(self.slopes[pair][robot]) / len(self.met[pair]) for pair in self.opponents(robot)]
        dense = len(self.met) / math.comb(len(self.robots), 2)
        parts = [UNSEEN * (dense / len(upsets) + (1 - dense) * it**2 / sum(one**2 for one in upsets)) for it in upsets]
        variance = sum(self.together(robot, robot, group) for group in own) + sum(part * it**2 for it, part in zip(upsets, parts))
        third = side * sum(self.third(robot, group) for group in own) + sum(part * it**3 for it, part in zip(upsets, parts))
        half = quantile(self.freedom(robot, own)) * math.sqrt(variance)
        straight = half + third / variance * (1 + 2 * NORMAL**2) / 6
        if third >= 0:
            return straight
        skewness = third / variance**1.5
        root = (1 - skewness * (NORMAL + skewness / 6)) ** (1 / 3)
        bent = half - math.sqrt(variance) * (NORMAL + 3 * (root - 1) / skewness)
        return max(0.0, dense * straight + (1 - dense) * bent)

    def freedom(self, robot: int, own: Sequence[tuple[int, ...]]) -> float:
        """How well the variance by its own matches is known: all pairs are one part, each group of more robots is one."""
        parts = [[it for it in own if len(it) == 2], *([it] for it in own if len(it) > 2)]
        freedoms = [sum(len(those) - 1 for group in part for those in self.groups[group]) for part in parts]
        variances = [sum(self.together(robot, robot, group) for group in part) for part in parts]
        most = max(1, sum(freedoms))
        if sum(variances) == 0:
            return most
        found = sum(variances) ** 2 / sum(it * it / (2 + by) for it, by in zip(variances, freedoms)) - 2
        return sorted([1, found, most])[1]

    def bent(self, robot: int, side: int) -> float:
        """How far it moves if its score does so much; the others move back."""
        others = [self.strengths[sum(pair) - robot] for pair in self.opponents(robot)]
        back = len(self.robots) / (len(self.robots) - 1)

        def score(by: float) -> float:
            return sum(1 / (1 + math.exp(it - self.strengths[robot] - by * back)) for it in others)

        bend = (score(1e-6) - score(-1e-6)) / 2e-6
        least = TIES / 2 * len(others)
        wanted = min(max(score(0) + side * bend * self.moved(robot, side), least), len(others) - least)
        low, high = -30.0, 30.0
        for _ in range(80):
            middle = (low + high) / 2
            low, high = (middle, high) if score(middle) < wanted else (low, middle)
        return low

    def row(self, robot: int) -> Row:
        """A robot's rating with its interval."""
        others = sum(self.together(robot, robot, group) for group in self.groups if robot not in group)
        others += sum(self.doubt(robot, robot, pair) for pair in self.met if robot not in pair)
        value = self.strengths[robot]
        low, high = (value + side * math.hypot(self.bent(robot, side), NORMAL * math.sqrt(others)) for side in (-1, 1))
        return POINTS * value, POINTS * low, POINTS * high


def defined(played: Played, anchor: int | None) -> Iterator[Row]:
    """The ratings of all robots, or how far they are above the anchor's: what both have in common counts if that is wider."""
    them = Defined(played)
    rows = [them.row(robot) for robot in them.robots]
    for robot, (value, low, high) in enumerate(rows):
        if anchor is None:
            yield value, low, high
        elif robot == anchor:
            yield 0.0, 0.0, 0.0
        else:
            base, least, most = rows[anchor]
            common = sum(them.together(robot, anchor, it) for it in them.groups) + sum(them.doubt(robot, anchor, it) for it in them.met)
            more = 2 * (POINTS * NORMAL) ** 2 * max(0.0, -common)
            yield (value - base, value - base - math.sqrt((value - low) ** 2 + (most - base) ** 2 + more),
                   value - base + math.sqrt((high - value) ** 2 + (base - least) ** 2 + more))


def far_apart(played: Played, one: int, other: int, worth: Mapping[str, float], weight: closeness.Weight) -> float:
    """How far the points of two robots may be apart by chance."""
    most, variance, freedom, upsets = max(worth.values()), 0.0, 0, {one: 0.0, other: 0.0}
    for group, strata in of_groups(played).items():
        signs = {robot: sign * weight(robot, group) for robot, sign in ((one, 1), (other, -1)) if robot in group}
        for robot, it in signs.items():
            upsets[robot] = max(upsets[robot], (most * it) ** 2)
        for those in strata if signs else []:
            freedom += len(signs) * (len(those) - 1)
            if len(those) > 1:
                variance += len(those) * statistics.variance([sum(it * worth[match[robot]] for robot, it in signs.items()) for match in those])
            else:
                own, both = sum(it * it for it in signs.values()), math.prod(signs.values()) if len(signs) > 1 else 0.0
                variance += most**2 / 4 * (own - 2 * both / (len(group) - 1))
    return quantile(max(1, freedom)) * math.sqrt(variance + sum(upsets.values()))
