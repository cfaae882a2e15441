"""Ratings with 95 % intervals: a rating is a strength on the capped scale, by which 400 more are odds of ten to one.

The interval holds the rating that endless play against these same robots would give. It comes from formulas: how sure each share
is shows in how its matches differ, and the fit says how a robot's strength moves with each share. What a robot's own matches do is a
sum, whose skewness moves the interval (Johnson; in sparse fields on the short side Hall), and whose variance is known as well as its
matches are many (Student). A tenth of an upset that it may have had, but didn't, widens it: one of any of its pairs, and in a sparse field
rather one of those that would move it most. What others' matches do adds by squares."""

import math
from operator import mul
from typing import Iterator, NamedTuple, Sequence

from results.standings import NOTHING, Rating

from .evidence import Evidence
from .intervals import NORMAL, quantile, together
from .matrices import Matrix, Vector, forms, product
from .parts import Rows, parts, rows
from .strengths import REAL, TIES, Fit, chances, fitted

# The version of the scale. The first one wasn't capped, and its intervals were drawn by chance.
VERSION = 2
SCALE = 400 / math.log(10)
UNSEEN = 0.1
SKEWED = (1 + 2 * NORMAL**2) / 6
STEPS_MAX, STEP_MAX, EXACT = 60, 1.0, 1e-9


def ratings(those: Evidence, anchor: int | None = None) -> list[Rating]:
    """The ratings of all robots by their positions.

    The robots of each part are rated by themselves: their mean is 0, and ratings of different parts can't be compared. With an
    anchor a rating says how far a robot is above that one; then those of other parts have none."""
    found = [NOTHING] * those.robots
    for part in parts(those.shares):
        if anchor is None or anchor in part:
            rated = Part(rows(those, part)).ratings(None if anchor is None else part.index(anchor))
            for robot, rating in zip(part, rated):
                found[robot] = rating
    return found


class Own(NamedTuple):
    """What a robot's own matches do to its strength, if chance were a straight line of strengths: the variance and the third moment
    of what was seen, and what unseen upsets add to both, on the side on which they are thought of; `among_all` is the part that its
    matches have in the variance by all matches, `freedom` says how well the variance is known, and `sparse` is the part of all pairs that
    haven't met."""

    seen: float
    third: float
    unseen: float
    more: float
    among_all: float
    freedom: float
    sparse: float

    def moved(self, side: int) -> float:
        """How far they may have moved it on a side."""
        deviation = math.sqrt(self.seen + self.unseen)
        if not deviation:
            return 0.0
        skewness = (side * self.third + self.more) / deviation**3
        return max(0.0, REAL * deviation * (quantile(self.freedom) + further(skewness, self.sparse)))


def further(skewness: float, sparse: float) -> float:
    """How much further than without it an end is, in standard deviations, by the skewness towards it; `sparse` is the part of all pairs
    that haven't met.

    On the side on which chance reaches less far it is nearer: in proportion, but less in a sparse field, where the one upset that was seen
    may be one of few."""
    straight = SKEWED * skewness
    if straight >= 0:
        return straight
    inside = -skewness * max(0.0, NORMAL + skewness / 6)
    root = 3 * math.expm1(math.log1p(inside) / 3) / -skewness - NORMAL
    return straight + sparse * (root - straight)


class Part:
    """The ratings of connected robots."""

    def __init__(self, those: Rows) -> None:
        self._rows = those
        self._fit: Fit = fitted(those.met, those.scores())
        self._sparse = those.sparse()
        self._variances = doubted(those)
        self._covariances = forms(covariance(those, self._variances))

    def ratings(self, anchor: int | None) -> list[Rating]:
        """All ratings, or how far they are above that of the anchor."""
        found = [self._rating(robot) for robot in range(self._rows.many)]
        return found if anchor is None else [*self._above(found, anchor)]

    def _rating(self, robot: int) -> Rating:
        weights, value = self._fit.inverse[robot], self._fit.strengths[robot]
        own = self._own(weights, robot)
        others = NORMAL * REAL * math.sqrt(max(0.0, product(weights, self._with_all(robot)) - own.among_all))
        low, high = (value + side * math.hypot(self._bent(robot, side * own.moved(side)), others) for side in (-1, 1))
        return Rating(SCALE * value, SCALE * low, SCALE * high)

    def _with_all(self, robot: int) -> list[float]:
        """The products of a robot's weights with all covariances."""
        return [of_row(self._fit.inverse[robot]) for of_row in self._covariances]

    def _own(self, weights: Vector, robot: int) -> Own:
        """What a robot's own matches do.

        How well their variance is known is measured for all pairs as one, which is enough, and for each group of more robots by itself:
        there one group may have nearly all of it."""
        those = self._rows
        far = [weights[robot] - weight for weight in weights]
        squares = [distance * distance for distance in far]
        spreads = [spread.moments(weights) for spread in those.spreads[robot]]
        more = sum(variance for variance, _ in spreads)
        of_pairs = product(squares, those.variances[robot])
        of_groups = ((variance, one.freedom) for (variance, _), one in zip(spreads, those.spreads[robot]))
        freedom = together([(of_pairs, those.freedom[robot]), *of_groups])
        third = product([*map(mul, squares, far)], those.thirds[robot]) + sum(moment for _, moment in spreads)
        half = those.size(robot) / 2
        upsets = [half * abs(distance) * each for distance, each in zip(far, those.each[robot])]
        unseen = [UNSEEN * upset * upset * part for upset, part in zip(upsets, self._parts(robot, upsets))]
        among_all = product(squares, self._variances[robot]) + more
        return Own(of_pairs + more, third, sum(unseen), product(unseen, upsets), among_all, freedom, self._sparse)

    def _parts(self, robot: int, upsets: Vector) -> Iterator[float]:
        """The parts that a robot's pairs have of its unseen upsets: where all have met, all alike, else rather by their squares."""
        whole, alike = product(upsets, upsets), (1 - self._sparse) / self._rows.opponents(robot)
        return (alike + self._sparse * upset * upset / whole for upset in upsets)

    def _bent(self, robot: int, moved: float) -> float:
        """How far a robot's strength moves if its score does as it would for this way on a straight line.

        The others stay where they are to each other. So if it moves by some way, they move back, since the mean is 0."""
        met, strengths = self._rows.met[robot], self._fit.strengths
        ours, many, back = chances(strengths, robot), self._rows.opponents(robot), len(strengths) / (len(strengths) - 1)
        score, bend, least = product(met, ours), product(met, [share * (1 - share) for share in ours]), many * TIES / 2
        wanted = min(max(score + bend * back * moved, least), many - least)
        return (alone(met, strengths, strengths[robot], wanted) - strengths[robot]) / back

    def _above(self, those: Sequence[Rating], anchor: int) -> Iterator[Rating]:
        """How far ratings are above that of the anchor. Squares add up; what both have in common counts where that is wider."""
        base, with_all = those[anchor], self._with_all(anchor)
        for robot, rating in enumerate(those):
            common = min(0.0, product(self._fit.inverse[robot], with_all))
            both = 2 * (SCALE * REAL * NORMAL) ** 2 * common
            value = rating.value - base.value
            low = math.sqrt((rating.value - rating.low) ** 2 + (base.high - base.value) ** 2 - both)
            high = math.sqrt((rating.high - rating.value) ** 2 + (base.value - base.low) ** 2 - both)
            yield Rating(0.0, 0.0, 0.0) if robot == anchor else Rating(value, value - low, value + high)


def doubted(those: Rows) -> Matrix:
    """The variances of shares with what unseen upsets of others do: where each has met all others, these hardly count."""
    all_others = 1 / (those.many - 1)
    few = [UNSEEN * (1 / those.opponents(robot) - all_others) for robot in range(those.many)]
    return [[variance + (mine + theirs) * part * part for variance, part, theirs in zip(row, each, few)]
            for mine, row, each in zip(few, those.variances, those.each)]


def covariance(those: Rows, variances: Matrix) -> Matrix:
    """How the robots' scores vary together, by the variances of pairs and by matches of more robots."""
    found = [[-variance for variance in row] for row in variances]
    for at, row in enumerate(variances):
        found[at][at] = sum(row)
    for robot, spreads in enumerate(those.spreads):
        for spread in spreads:
            place = spread.group.index(robot)
            for scores, squares, _ in spread.changes:
                for other, score in zip(spread.group, scores):
                    found[robot][other] += squares * scores[place] * score
    return found


def alone(met: Vector, strengths: Vector, begin: float, wanted: float) -> float:
    """The strength by which a robot has the score that is wanted, if all others stay, by Newton's method."""
    others = [math.exp(strength) for strength, is_met in zip(strengths, met) if is_met]
    for _ in range(STEPS_MAX):
        power = math.exp(begin)
        shares = [power / (power + other) for other in others]
        step = (wanted - sum(shares)) / (sum(shares) - product(shares, shares))
        begin += max(-STEP_MAX, min(STEP_MAX, step))
        if abs(step) < EXACT:
            break
    return begin
