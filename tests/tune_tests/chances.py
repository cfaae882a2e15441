"""Intervals, verdicts and the search, on matches that are drawn here: each value has a known chance to win, tie and lose."""

from __future__ import annotations

import itertools
import math
import random
import statistics
from fractions import Fraction
from typing import Sequence
from unittest import mock

from tournaments.intervals import mean, quantile
from tuning.evolution import Evolution, mirrored
from tuning.scoring import Scores
from tuning.judging import judge
from tuning.searching import Search, spread
from tuning.verdicts import MISTAKEN, levels

from tune_tests import rates
from tune_tests.simulated import Simulated, number, words

WORTH = {"w": 3.0, "t": 1.0, "l": 0.0}
OTHERS = ("x", "y", "z")


def drawn(rest: random.Random, chances: dict[str, list[float]], each: int) -> Scores:
    """The points of variants against three opponents: by the same number of a match, so that better variants win it oftener.

    What makes two variants play differently has a number of its own: so some matches differ though the chances are equal."""
    it = Scores(WORTH)
    for at, other in enumerate(OTHERS):
        for match in range(each):
            common = rest.random()
            for variant, wins in chances.items():
                luck = rest.random() if rest.random() < 0.2 else common
                it.of[variant, other][0, match] = 3.0 if luck < wins[at] else 1.0 if luck < wins[at] + 0.1 else 0.0
    return it


def worth(wins: list[float]) -> float:
    """The points a match that chances come to."""
    return statistics.fmean(3 * it + 0.1 for it in wins)


class Chances:
    """Each method whose name does not begin with _ is a test: it answers what is wrong."""

    def an_estimate_by_hand(self) -> list[str]:
        """Two opponents, of weights 3 and 1: means 1 and -1, so (3 - 1) / 4; variances 2 and 2 of 2 numbers each.

        The part of each is (3/4)^2 * 2 / 2 and (1/4)^2 * 2 / 2: 0.625 together. Of counted matches there are 1 / (9/32 + 1/32) =
        3.2, so two that are worth 3 add 2 * (3 / 3.2)^2 = 1.7578."""
        it = mean([[0.0, 2.0], [-2.0, 0.0]], [3.0, 1.0], 3.0)
        variance = 0.625 + 1.7578125
        freedom = variance**2 / (0.5625**2 + 0.0625**2 + 1.7578125**2 / 3.2)
        margin = quantile(freedom) * variance**0.5
        right = abs(it.value - 0.5) < 1e-12 and abs(it.high - it.value - margin) < 1e-9 and abs(it.value - it.low - margin) < 1e-9
        return [] if right else [f"{it}, not 0.5 with {margin}"]

    def intervals_hold(self) -> list[str]:
        """The truth of each change, by chances that are known, is in 93 to 98 of 100 intervals."""
        rest, held, count = random.Random(1), 0, 0
        for _ in range(1000):
            chances = {str(at): [rest.uniform(0.05, 0.9) for _ in OTHERS] for at in range(2)}
            chances["near"] = [min(it + rest.uniform(0, 0.05), 0.9) for it in chances["0"]]
            scores = drawn(rest, chances, 40)
            for variant in ("1", "near"):
                it = scores.change(variant, "0", dict.fromkeys(OTHERS, Fraction(1)))
                held += it.low <= worth(chances[variant]) - worth(chances["0"]) <= it.high
                count += 1
        return [] if 0.93 <= held / count <= 0.98 else [f"{held} of {count}"]

    def what_changes_nothing_is_nearly_never_called_sure(self) -> list[str]:
        """Of 500 sweeps of 20 values with equal chances at most one in 100 calls any of them better or worse."""
        rest, called = random.Random(2), 0
        for _ in range(500):
            wins = [rest.uniform(0.05, 0.9) for _ in OTHERS]
            scores = drawn(rest, {str(at): wins for at in range(20)}, 20)
            level = levels(20, len(OTHERS)).change
            called += any(scores.change(str(at), "0", dict.fromkeys(OTHERS, Fraction(1)), level).is_sure for at in range(1, 20))
        return [] if called <= 5 else [f"{called} of 500"]

    def few_matches_that_differ_aren_t_sure(self) -> list[str]:
        """Five of 200 matches, all won more: by chance alone one in 32 has that on one side; seven are sure by 95 %."""
        def change(won: int, level: float) -> bool:
            return mean([[3.0] * won + [0.0] * (200 - won)], [1.0], 3.0, level).is_sure
        got = [change(won, 0.95) for won in (3, 4, 5, 6, 7, 12)] + [change(12, 1 - MISTAKEN / 19), change(20, 1 - MISTAKEN / 19)]
        return [] if got == [False, False, False, True, True, True, False, True] else [f"{got}"]

    def the_search_finds_known_optima(self) -> list[str]:
        """On lands of all kinds, with three numbers: slopes, coupled numbers, plateaus, thresholds, a wide hill that leads away from a higher,
        narrow one. Of what today's values lack eight of ten find four fifths."""
        wrong = []
        for land in rates.LANDS:
            parts = rates.found(land, 3, range(10), 40_000)
            wrong += [] if sum(it >= 0.8 for it in parts) >= 8 else [f"{land}: {[round(it, 2) for it in parts]}"]
        return wrong

    def an_evolution_climbs(self) -> list[str]:
        """From anywhere in a bowl of three numbers, by scores that have noise."""
        left = []
        for seed in range(20):
            rest = random.Random(seed)
            begin, best = (tuple(rest.uniform(0.1, 0.9) for _ in range(3)) for _ in range(2))
            it = Evolution(begin, seed)
            for _ in range(40):
                it.tell([-sum(4 * (a - b) ** 2 for a, b in zip(point, best)) + rest.gauss(0, 0.08) for point in it.ask()])
            left.append(max(abs(a - b) for a, b in zip(it.middle, best)))
        return [] if sorted(left)[17] < 0.15 else [f"{sorted(left)}"]

    def intervals_of_sweeps_hold(self) -> list[str]:
        """Of robots of all kinds; `bench/chances` tries more."""
        held, of = rates.held(25)
        return [] if 0.93 <= held / of <= 0.99 else [f"{held} of {of}"]

    def nothing_is_believed_of_what_does_nothing(self) -> list[str]:
        """Neither by a sweep, in one look or in several, nor by a search; `bench/chances` tries more."""
        got = [rates.called(40, False), rates.called(20, True), rates.believed(20)]
        return [] if max(got) <= 1 else [f"{got}"]

    def the_best_value_is_hardly_ever_dropped(self) -> list[str]:
        """Of robots of all kinds until sure: at most one in 100 is the promise; `bench/chances` tries more."""
        gone, of = rates.dropped(40)
        return [] if gone <= 1 and of >= 30 else [f"{gone} of {of}"]

    def what_is_claimed_is_so(self) -> list[str]:
        """Of robots of all kinds, in one look and until sure: at most one sweep in 100 claims anything that isn't so, or has an interval without
        the truth; `bench/chances` tries more."""
        got = [rates.mistaken(40, until_sure) for until_sure in (False, True)]
        return [] if all(claims <= 1 and intervals <= 1 and sure >= 20 for claims, intervals, sure in got) else [f"{got}"]

    def levels_by_hand(self) -> list[str]:
        """Of 21 values 20 are compared with today's: 0.01 / 20 each. At 5 looks, with a race, a half of the 0.01 is for 100 comparisons with
        today's, and a half for the 210 pairs at each look, 1,050; points and changes of 21 values with 3 opponents and with all are 840."""
        got = [levels(21, 3), levels(21, 3, 5, True), levels(2, 1)]
        wanted = [(0.0005, 0.01 / 168), (0.00005, 0.01 / 840, 0.005 / 1050), (0.01, 0.01 / 8)]
        told = [(1 - it.change, 1 - it.single, 1 - it.race) for it in got]
        return [] if all(abs(one - other) < 1e-12 for row, right in zip(told, wanted) for one, other in zip(row, right)) else [f"{told}"]

    def a_search_keeps_to_its_budget(self) -> list[str]:
        """Whatever it is, and however many opponents there are; what can't pay one match of each seating comes back to today's values. No match
        is played twice."""
        wrong, rest = [], random.Random(6)
        for seed in range(60):
            budget, many = round(10 ** rest.uniform(0, 4.3)), rest.randint(1, 13)
            numbers = [number(rest.randint(0, 100), name=str(at)) for at in range(rest.randint(1, 5))]
            games = Simulated(words(seed, budget=budget, round=rest.choice((2, 160, 1000))), numbers, lambda values: [0.3] * 13, [1] * many)
            found = Search(games).run()
            wrong += [] if games.played <= budget else [f"{games.played} matches of {budget}"]
            wrong += [] if found == games.today or games.played else [f"{found} from nothing"]
            nexts = [1, *(it.first + it.count for it in games.stretches)]
            wrong += [] if [it.first for it in games.stretches] == nexts[:-1] else [f"{games.stretches}"]
        return wrong

    def a_judgement_is_sure_by_99_of_100(self) -> list[str]:
        """Of 200 matches 7 are won in place of lost: 0.105 points, and a deviation of the root of 9 * 0.035 * 0.965 / 199 + 2 * (3 / 200)^2 =
        0.0445. That is 2.36 deviations: more than the 1.97 that 95 of 100 ask for, less than the 2.60 of 99. Ten are 2.94. The interval that is
        told says the same."""
        class Won(Simulated):
            won = 0

            def play(self, several: Sequence[tuple[int, ...]], *_: object) -> None:
                for values in several:
                    better = self.won if values != self.today else 0
                    self.scores.of[self.variant(values).sha256, "r0"] = {(0, at): 3.0 if at < better else 0.0 for at in range(200)}

        said = []
        for Won.won in (7, 10):
            judged = judge(Won(words(1), [number(1)], lambda values: [0.3], [1]), (2,), 100)
            said.append((judged.is_better, judged.tuned.change.low > 0))
        return [] if said == [(False, False), (True, True)] else [f"{said}"]

    def a_search_against_itself(self) -> list[str]:
        """A number decides nothing against others, and the greater one wins between two versions: so it rises only if they meet. At most four
        versions are met at a time, today's is the first, and the judgement meets none."""
        def games(seed: int, against_itself: bool) -> Simulated:
            return Simulated(words(seed, budget=20_000, against_itself=against_itself), [number(50)], lambda values: [0.3] * 3,
                             rivalry=lambda one, other: 0.45 + (one[0] - other[0]) / 300)
        ended = {how: [Search(games(seed, how)).run()[0] for seed in range(10)] for how in (True, False)}
        wrong = [] if sum(it > 75 for it in ended[True]) >= 6 and sum(it > 75 for it in ended[False]) <= 1 else [f"{ended}"]
        it = games(1, True)
        found = Search(it).run()
        counts = [len(met) - 3 for met in it.met]
        versions = [met[3:] for met in it.met if met[3:]]
        wrong += [] if counts[0] == 0 and max(counts) == 4 and versions[0][0] == "(50,)" else [f"{counts}"]
        judge(it, found, 10)
        return wrong if it.met[-1] == ["r0", "r1", "r2"] else [*wrong, f"{it.met[-1]}"]

    def a_search_ends_with_its_time(self) -> list[str]:
        """By a clock that goes on by five seconds whenever it is looked at, a minute ends a search long before its budget does."""
        seconds = iter(range(0, 10**6, 5))
        games = Simulated(words(1, budget=300_000, minutes=1), [number(10), number(20)], lambda values: [0.3] * 3)
        with mock.patch("tuning.searching.time.monotonic", lambda: next(seconds)):
            Search(games).run()
        return [] if 0 < games.played < 200_000 and 55 < next(seconds) < 120 else [f"{games.played} matches, {next(seconds)} seconds"]

    def places_fill_their_range(self) -> list[str]:
        """Of 64 points in one to six dimensions each quarter of each axis has its share, 16, but for four; no two are alike."""
        wrong = []
        for axes in range(1, 7):
            points = spread(64, axes, 5)
            counts = [[sum(int(4 * point[axis]) == part for point in points) for part in range(4)] for axis in range(axes)]
            wrong += [] if all(12 <= it <= 20 for row in counts for it in row) and len({*points}) == 64 else [f"{axes}: {counts}"]
        return wrong

    def a_search_depends_on_its_seed_alone(self) -> list[str]:
        asked = [[Evolution((0.5, 0.5), seed).ask() for _ in range(2)] for seed in (1, 2)]
        return [] if asked[0][0] == asked[0][1] and asked[0][0] != asked[1][0] else ["other points"]

    def an_evolution_by_the_literature(self) -> list[str]:
        """Round by round the same points as of the algorithm of Ros and Hansen (2008), written once more: by scores that make the steps of
        two, three and six numbers unlike each other."""
        wrong = []
        for many, seed in itertools.product((2, 3, 6), range(3)):
            it, other, rest = Evolution((0.5,) * many, seed), Separable([0.5] * many, seed), random.Random(seed)
            for number in range(1, 25):
                points, wanted = it.ask(), other.ask()
                far = max(abs(one - two) for point, theirs in zip(points, wanted) for one, two in zip(point, theirs))
                if len(points) != len(wanted) or far > 1e-9:
                    wrong.append(f"{many} numbers, seed {seed}, round {number}: {far}")
                    break
                scores = [-sum(100 ** at * (place - 0.4) ** 2 for at, place in enumerate(point)) + rest.gauss(0, 0.01) for point in points]
                it.tell(scores)
                other.tell(scores)
        return wrong

    def points_stay_in_their_range(self) -> list[str]:
        got = [mirrored(it) for it in (0.25, 0.0, 1.0, -0.25, 1.25, 2.5, -1.5)]
        return [] if got == [0.25, 0.0, 1.0, 0.25, 0.75, 0.5, 0.5] else [f"{got}"]


class Separable:
    """A covariance matrix adaptation whose matrix has a diagonal alone, by the formulas of the literature, number by number."""

    def __init__(self, middle: list[float], seed: int) -> None:
        n = self.n = len(middle)
        self.middle, self.sigma, self.rest = middle, 0.15, random.Random(seed)
        self.variances, self.p_sigma, self.p_c = [1.0] * n, [0.0] * n, [0.0] * n
        self.pairs = 2 + math.ceil(1.5 * math.log(n + 1))
        logs = [math.log((self.pairs + 0.5) / rank) for rank in range(1, self.pairs + 1)]
        self.weights = [log / sum(logs) for log in logs]
        self.mu = sum(self.weights) ** 2 / sum(weight * weight for weight in self.weights)
        self.points: list[list[float]] = []

    def ask(self) -> list[list[float]]:
        """Points on both sides of the middle; what leaves the range from 0 to 1 comes back from its end."""
        self.points = []
        for _ in range(self.pairs):
            drawn_ = [self.rest.gauss(0, 1) for _ in range(self.n)]
            for side in (1, -1):
                self.points.append([folded(self.middle[i] + side * self.sigma * math.sqrt(self.variances[i]) * drawn_[i]) for i in range(self.n)])
        return self.points

    def tell(self, scores: list[float]) -> None:
        n, mu = self.n, self.mu
        best = [point for _, point in sorted(zip(scores, self.points), key=lambda pair: pair[0], reverse=True)][:self.pairs]
        middle = [sum(weight * point[i] for weight, point in zip(self.weights, best)) for i in range(n)]
        c_sigma, c_c = (mu + 2) / (n + mu + 5), (4 + mu / n) / (n + 4 + 2 * mu / n)
        faster = (n + 2) / 3
        c_1 = min(1, faster * 2 / ((n + 1.3) ** 2 + mu))
        c_mu = min(1 - c_1, faster * 2 * (mu - 2 + 1 / mu) / ((n + 2) ** 2 + mu))
        for i in range(n):
            step = (middle[i] - self.middle[i]) / self.sigma
            self.p_sigma[i] += -c_sigma * self.p_sigma[i] + math.sqrt(c_sigma * (2 - c_sigma) * mu / self.variances[i]) * step
            self.p_c[i] += -c_c * self.p_c[i] + math.sqrt(c_c * (2 - c_c) * mu) * step
            spread_ = sum(weight * ((point[i] - self.middle[i]) / self.sigma) ** 2 for weight, point in zip(self.weights, best))
            self.variances[i] = (1 - c_1 - c_mu) * self.variances[i] + c_1 * self.p_c[i] ** 2 + c_mu * spread_
        damping = 1 + 2 * max(0, math.sqrt((mu - 1) / (n + 1)) - 1) + c_sigma
        usual = math.sqrt(n) * (1 - 1 / (4 * n) + 1 / (21 * n * n))
        length = math.sqrt(sum(turn * turn for turn in self.p_sigma))
        self.sigma *= math.exp(min(1, c_sigma / damping * (length / usual - 1)))
        # no step is smaller than 0.02 at the widest number, and none greater than the range
        widest = math.sqrt(max(self.variances))
        self.sigma = min(max(self.sigma, 0.02 / widest), 1 / widest)
        self.middle = middle


def folded(place: float) -> float:
    """A place within 0 and 1 by which one beyond an end is meant."""
    while not 0 <= place <= 1:
        place = -place if place < 0 else 2 - place
    return place
