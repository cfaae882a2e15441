"""How often sweeps and searches are right, of simulated robots of all kinds: each is drawn by a seed.

Drawn are how many opponents there are and what each weighs, how strong it is, how many matches a value has, and what a number does."""

from __future__ import annotations

import math
import random
import re
import statistics
from typing import Callable, Sequence

from tuning.games import Starts
from tuning.judging import judge
from tuning.searching import Search
from tuning.sweeps import Row, sweep
from tuning.verdicts import BETTER, WORSE

from tune_tests.simulated import Simulated, number, words

# What a number from 0 to 100 is worth, from 0 to 1, if `best` is its best value.
CURVES: dict[str, Callable[[int, int], float]] = {
    "line": lambda value, best: 1 - abs(value - best) / 100,
    "bowl": lambda value, best: 1 - (value - best) ** 2 / 10_000,
    "threshold": lambda value, best: float(value >= best),
    "window": lambda value, best: float(abs(value - best) <= 15),
    "nothing": lambda value, best: 0.5,
}


# What a place is worth whose numbers, from 0 to 1, are so far from the best ones; a ridge has its numbers coupled.
LANDS: dict[str, Callable[[Sequence[float], Sequence[float]], float]] = {
    "bowl": lambda at, best: 1 - statistics.fmean(4 * (it - to) ** 2 for it, to in zip(at, best)),
    "ridge": lambda at, best: 1 - 2 * abs(math.fsum(it - to for it, to in zip(at, best))) - statistics.fmean(abs(it - to) for it, to in zip(at, best)),
    "stairs": lambda at, best: 1 - statistics.fmean(4 * (round(6 * it) / 6 - round(6 * to) / 6) ** 2 for it, to in zip(at, best)),
    "hole": lambda at, best: statistics.fmean(1 if abs(it - to) < 0.15 else 0.2 if abs(it - to) < 0.4 else 0 for it, to in zip(at, best)),
    "threshold": lambda at, best: statistics.fmean(it >= to for it, to in zip(at, best)),
    "hills": lambda at, best: statistics.fmean(max(1 - 8 * abs(it - to), 0.5 - abs(it - (to + 0.5) % 1) / 2) for it, to in zip(at, best)),
}


def simulated(seed: int, curve: str, many: int = 1, **given: object) -> Simulated:
    """A robot with so many numbers that all do what a curve says."""
    rest = random.Random(f"{seed} {curve}")
    weights = [rest.choice((1, 1, 2, 5)) for _ in range(rest.choice((1, 2, 3, 6, 13)))]
    least, most = ([rest.uniform(0.02, 0.5) for _ in weights] for _ in range(2))
    bests, today = ([rest.randint(0, 100) for _ in range(many)] for _ in range(2))
    of_one = CURVES[curve]

    def chances(values: tuple[int, ...]) -> list[float]:
        part = sum(map(of_one, values, bests)) / many
        return [low + more * part for low, more in zip(least, most)]

    numbers = [number(value, name=f"n{at}") for at, value in enumerate(today)]
    return Simulated(words(seed, matches=rest.choice((20, 50, 100, 200)), **given), numbers, chances, weights)


def found(land: str, many: int, seeds: Sequence[int], budget: int) -> list[float]:
    """What a search finds of what today's values lack to the best ones, as a part, by seeds: of so many numbers that begin far from these."""
    parts = []
    for seed in seeds:
        rest = random.Random(f"{seed} {land} {many}")
        bests, today = ([rest.randint(5, 95) for _ in range(many)] for _ in range(2))

        def worth(values: tuple[int, ...]) -> float:
            return max(0.0, LANDS[land]([it / 100 for it in values], [it / 100 for it in bests]))

        while worth(tuple(today)) > 0.7:
            today = [rest.randint(0, 100) for _ in range(many)]
        numbers = [number(value, name=f"n{at}") for at, value in enumerate(today)]
        games = Simulated(words(seed, budget=budget), numbers, lambda values: [least + 0.5 * worth(values) for least in (0.05, 0.2, 0.3)])
        before = worth(games.today)
        parts.append((worth(Search(games).run()) - before) / (1 - before))
    return parts


def held(seeds: int) -> tuple[int, int]:
    """In how many rows of sweeps the interval of 95 % holds the truth of the change, of how many."""
    found = []
    for seed in range(seeds):
        games = simulated(seed, [*CURVES][seed % len(CURVES)])
        for row in sweep(games, Starts(seed, "sweep"), games.given.matches // 2, False):
            truth = games.truth(row.values) - games.truth(games.today)
            found += [row.whole.alone.low <= truth + 1e-9 and truth - 1e-9 <= row.whole.alone.high] if row.values != games.today else []
    return sum(found), len(found)


def mistaken(seeds: int, until_sure: bool) -> tuple[int, int, int]:
    """In how many sweeps of robots of all kinds anything is claimed that isn't so, in how many an interval doesn't hold the truth, and in
    how many anything is claimed."""
    claims, intervals, sure = 0, 0, 0
    for seed in range(seeds):
        games = simulated(seed, [*CURVES][seed % len(CURVES)], until="sure" if until_sure else None)
        rows = sweep(games, Starts(seed, "sweep"), games.given.matches // 2, until_sure)
        changes = [(row, games.truth(row.values) - games.truth(games.today)) for row in rows]
        claims += any(is_wrong(games, row) for row in rows)
        intervals += any(not row.change.low - 1e-9 <= truth <= row.change.high + 1e-9 for row, truth in changes)
        sure += any(row.is_out or row.verdict == BETTER for row in rows)
    return claims, intervals, sure


def is_wrong(games: Simulated, row: Row) -> bool:
    """Whether what is said of a value isn't so."""
    change = games.truth(row.values) - games.truth(games.today)
    other = tuple(map(int, re.findall("=([0-9]+)", row.beaten)))
    return row.verdict == BETTER and change < 1e-9 or row.verdict == WORSE and change > -1e-9 or \
        bool(other) and games.truth(row.values) > games.truth(other) - 1e-9


def called(seeds: int, until_sure: bool) -> int:
    """In how many sweeps of a number that does nothing anything is said of any value."""
    found = 0
    for seed in range(seeds):
        games = simulated(seed, "nothing")
        rows = sweep(games, Starts(seed, "sweep"), games.given.matches // 2, until_sure)
        found += any(row.is_out or row.verdict == BETTER for row in rows)
    return found


def dropped(seeds: int) -> tuple[int, int]:
    """In how many sweeps until sure no best value is left at the end, of how many whose best value isn't today's, which never goes."""
    found = []
    for seed in range(seeds):
        games = simulated(seed, [*CURVES][seed % (len(CURVES) - 1)])
        rows = sweep(games, Starts(seed, "sweep"), games.given.matches // 2, True)
        most = max(games.truth(row.values) for row in rows)
        best = [row for row in rows if games.truth(row.values) > most - 1e-9]
        of_today = next(row.matches for row in rows if row.values == games.today)
        found += [all(row.matches < of_today for row in best)] if games.truth(games.today) < most - 1e-9 else []
    return sum(found), len(found)


def believed(seeds: int) -> int:
    """How many searches of one to three numbers that do nothing end with values that are called better."""
    found = 0
    for seed in range(seeds):
        games = simulated(seed, "nothing", 1 + seed % 3, budget=3_000)
        found += judge(games, Search(games).run(), games.given.matches // 2).is_better
    return found
