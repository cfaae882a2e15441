"""How often intervals hold the truth: by tournaments that are drawn from known chances, whose truth is the rating of the chances.

`chances.csv` has how often robots won, tied and lost in each seating of two, as `crobots` played it: the thirteen sample robots by
the limit that goes without saying (`default`) and by 20,000 cycles (`short`), and eight variants of one that are nearly equal
(`near`)."""

from __future__ import annotations

import csv
import functools
import itertools
import math
import os
import random
from collections import Counter
from dataclasses import dataclass
from typing import Callable, Iterable

from leagues import sequential, stopped
from leagues.sequential import LOOK
from results import tallies
from results.scores import Score
from results.verdicts import OPEN
from tournaments import evidence, ratings
from tournaments.evidence import Evidence

from .base import Base

SETS = ("default", "short", "near")
# How often a match ends so, for each way in which it ends, of each seating.
Chances = dict[tuple[int, ...], dict[str, float]]
# What is drawn: what matches show.
Draw = Callable[[random.Random], Evidence]


@functools.cache
def chances(name: str) -> Chances:
    """The chances of a set."""
    found: Chances = {}
    with open(os.path.join(os.path.dirname(os.path.abspath(__file__)), "chances.csv"), encoding="ascii") as file:
        for row in csv.DictReader(file):
            if row["set"] == name:
                counts = {"wl": int(row["won"]), "tt": int(row["even"]), "lw": int(row["lost"])}
                of = sum(counts.values())
                found[int(row["first"]), int(row["second"])] = {ended: many / of for ended, many in counts.items()}
    return found


def robots(those: Chances) -> int:
    return 1 + max(max(seats) for seats in those)


def truth(those: Chances) -> list[float]:
    """The ratings that endless play would give."""
    endless = tallies.Tally({seats: Counter({ended: round(1e9 * it) for ended, it in by.items()}) for seats, by in those.items()})
    return [it.value for it in ratings.ratings(evidence.evidence(endless, robots(those)))]


def drawn(source: random.Random, by: dict[str, float], matches: int) -> Counter[str]:
    """How matches of a seating end."""
    return Counter(source.choices([*by], [*by.values()], k=matches))


def tournament(those: Chances, each: int) -> Draw:
    """Tournaments in which each seating has so many matches."""

    def draw(source: random.Random) -> Evidence:
        tally = tallies.Tally({seats: drawn(source, by, each) for seats, by in those.items()})
        return evidence.evidence(tally, robots(those))

    return draw


def until_sure(those: Chances, most: int) -> Draw:
    """Tournaments whose pairs are played until the sequential test decides."""

    def draw(source: random.Random) -> Evidence:
        pairs = {seats for seats in those if seats[0] < seats[1]}
        return Evidence(robots(those), {pair: stopped.share(*looks(source, those, pair, most)) for pair in sorted(pairs)})

    return draw


def looks(source: random.Random, those: Chances, pair: tuple[int, ...], most: int) -> tuple[Score, Score]:
    """What is seen of a pair, and of its first look."""
    found: list[Score] = []
    for _ in range(0, most, LOOK):
        here, there = (drawn(source, those[seats], LOOK // 2) for seats in (pair, pair[::-1]))
        found.append(Score(here["wl"], here["tt"], here["lw"]).plus(Score(there["lw"], there["tt"], there["wl"])))
        if sequential.decision(found)[0] != OPEN:
            break
    return functools.reduce(Score.plus, found), found[0]


@dataclass
class Covered:
    """How many intervals of each robot held its truth, how wide they were, and how far ratings were spread."""

    held: list[int]
    tournaments: int
    width: float
    spread: float

    @property
    def mean(self) -> float:
        return sum(self.held) / len(self.held) / self.tournaments

    @property
    def worst(self) -> float:
        return min(self.held) / self.tournaments

    def said(self) -> str:
        return (f"{self.mean:.1%} of the intervals hold the truth, of one robot at least {self.worst:.1%}; their width is "
                f"{self.width:.0f}, by the spread it would be {self.spread:.0f}")


def covered(those: Chances, draw: Draw, tournaments: int, seed: int, anchor: int | None = None) -> Covered:
    """Draws tournaments, and looks whether the intervals hold the truth."""
    return judged([ratings.ratings(draw(source), anchor) for source in [random.Random(seed)] for _ in range(tournaments)],
                  [it - (0 if anchor is None else truth(those)[anchor]) for it in truth(those)])


def judged(tables: list[list[ratings.Rating]], true: list[float]) -> Covered:
    """Whether the intervals of tables hold the truth."""
    held = [sum(it.low - 1e-9 <= value <= it.high + 1e-9 for it in column) for value, column in zip(true, zip(*tables))]
    width = sum(it.high - it.low for table in tables for it in table) / len(tables) / len(true)
    means = [sum(it.value for it in column) / len(tables) for column in zip(*tables)]
    deviations = [math.sqrt(sum((it.value - mean) ** 2 for it in column) / len(tables)) for mean, column in zip(means, zip(*tables))]
    return Covered(held, len(tables), width, 2 * 1.96 * sum(deviations) / len(true))


def made_chances(source: random.Random, groups: Iterable[tuple[int, ...]], wide: float) -> Chances:
    """Chances of groups of robots whose strengths are drawn so wide, better in one seat, with ties, with matches without a survivor,
    and with circles in who beats whom."""
    strengths = [source.gauss(0, wide) for _ in range(20)]
    seats = [source.gauss(0, 0.4) for _ in range(4)]
    found: Chances = {}
    for group in groups:
        tie, none, own = source.choice((0.0, 0.05, 0.2)), source.choice((0.0, 0.02, 0.05)), [source.gauss(0, 0.7) for _ in group]
        for first in range(len(group)):
            order = [*range(first, len(group)), *range(first)]
            powers = [math.exp(strengths[group[at]] + own[at] + seats[seat]) for seat, at in enumerate(order)]
            found[tuple(group[at] for at in order)] = endings(powers, tie, none)
    return found


def endings(powers: list[float], tie: float, none: float) -> dict[str, float]:
    """How often a match of robots with these powers ends so: one survives, or two, or none."""
    places = range(len(powers))
    one = {(at,): powers[at] for at in places}
    two = {both: powers[both[0]] * powers[both[1]] for both in itertools.combinations(places, 2)}
    found = {"l" * len(powers): none}
    for alive, letter, of in ((one, "w", 1 - tie - none), (two, "t", tie)):
        for survivors, power in alive.items():
            ended = "".join(letter if at in survivors else "l" for at in places)
            found[ended] = of * power / sum(alive.values())
    return found


def only(those: Chances, pairs: Iterable[tuple[int, int]]) -> Chances:
    """The chances of these pairs alone."""
    chosen = {*pairs}
    return {seats: it for seats, it in those.items() if tuple(sorted(seats)) in chosen}


class Coverage(Base):
    """Each bound is what 95 % may be in so many tournaments; in sparse fields intervals may be wide."""

    def _wrong(self, name: str, it: Covered, mean: tuple[float, float], worst: float) -> list[str]:
        fine = mean[0] <= it.mean <= mean[1] and it.worst >= worst
        return [] if fine else [f"{name}: {it.said()}"]

    def intervals_hold_the_truth(self) -> list[str]:
        """Of three sets, with few matches and many, and under the sequential test."""
        wrong = []
        for name in SETS:
            those = chances(name)
            cases = {f"{many} matches": (tournament(those, many // 2), 120) for many in (6, 20)}
            cases |= {"100 matches": (tournament(those, 50), 60), "until sure": (until_sure(those, 100), 60)}
            for case, (draw, tournaments) in cases.items():
                wrong += self._wrong(f"{name}, {case}", covered(those, draw, tournaments, 1), (0.925, 0.985), 0.83)
        return wrong

    def intervals_above_an_anchor(self) -> list[str]:
        """Of one that wins all, and of one in the middle, whose own rating is 0."""
        those = chances("default")
        return [it for anchor in (0, 5) for it in self._wrong(
            f"anchor {anchor}", covered(those, tournament(those, 10), 80, 2, anchor), (0.93, 1.0), 0.85)]

    def sparse_fields(self) -> list[str]:
        """Chains, one robot against all, a sample of pairs, four robots against all others, divisions that one robot connects, and parts
        that nothing does."""
        those = chances("default")
        every = [*itertools.combinations(range(13), 2)]
        fields = {
            "a chain": [(at, at + 1) for at in range(12)], "one against all": [it for it in every if 5 in it],
            "a sample": random.Random(4).sample(every, 26), "divisions": [it for it in every if (it[0] < 7) == (it[1] < 7) or 3 in it],
            "these against those": [it for it in every if (it[0] < 4) != (it[1] < 4)],
            "parts": [it for it in every if (it[0] < 7) == (it[1] < 7)],
            "two new ones": [it for it in every if not {3, 8} & {*it} or it in ((3, 5), (2, 3), (6, 8), (1, 8))],
        }
        wrong = []
        for (name, pairs), many in itertools.product(fields.items(), (6, 20)):
            some = only(those, pairs)
            wrong += self._wrong(f"{name}, {many} matches", covered(some, tournament(some, many // 2), 60, 3), (0.93, 1.0), 0.83)
        return wrong

    def threes_and_fours(self) -> list[str]:
        """Nearly equal robots and such that differ much: all groups, a sample of them, and few robots with few matches."""
        source, wrong = random.Random(5), list[str]()
        for wide, (size, many, sample, each) in itertools.product((0.2, 2.0), (
                (3, 8, 0, 1), (3, 8, 0, 7), (3, 4, 0, 7), (3, 10, 20, 4), (4, 7, 0, 1), (4, 7, 0, 5), (4, 5, 0, 3))):
            groups = [*itertools.combinations(range(many), size)]
            those = made_chances(source, source.sample(groups, sample) if sample else groups, wide)
            name = f"{sample or 'all'} groups of {size} of {many}, {each} of each seating, wide {wide}"
            wrong += self._wrong(name, covered(those, tournament(those, each), 40, 6), (0.91, 1.0), 0.75)
        return wrong

    def one_match_of_each_seating(self) -> list[str]:
        """Of a robot's groups one may have nearly all of the variance, so it is known by few matches: these fields held 90.0 to 91.7 %
        of one robot when all matches counted alike."""
        wrong = []
        for size, wide, seed in ((3, 1.0, 2), (3, 1.0, 3), (4, 0.2, 2)):
            those = made_chances(random.Random(seed), itertools.combinations(range(5), size), wide)
            wrong += self._wrong(f"groups of {size}, seed {seed}", covered(those, tournament(those, 1), 300, 6), (0.94, 0.985), 0.925)
        return wrong

    def halves_that_one_robot_joins(self) -> list[str]:
        """Half of a field is known by its matches with one robot, which hardly ever loses one of them: 88.3 and 87.3 % of one robot were
        held when an upset that wasn't seen counted for all pairs alike."""
        those, wrong = chances("default"), []
        some = only(those, (it for it in itertools.combinations(range(13), 2) if (it[0] < 7) == (it[1] < 7) or 0 in it))
        for each, least in ((10, 0.92), (50, 0.895)):
            wrong += self._wrong(f"{2 * each} matches", covered(some, tournament(some, each), 300, 3), (0.93, 0.99), least)
        return wrong
