"""Intervals of means: of independent numbers in classes, by Student's distribution."""

import math
import statistics
from dataclasses import dataclass
from typing import Sequence

NORMAL = 1.959964
LEVEL = 0.95


@dataclass(frozen=True)
class Mean:
    """A mean with its interval."""

    value: float
    low: float
    high: float

    @property
    def is_sure(self) -> bool:
        """Reports whether 0 is outside of the interval."""
        return self.low > 0 or self.high < 0


def mean(classes: Sequence[Sequence[float]], weights: Sequence[float] = (), unseen: float = 0.0, level: float = LEVEL) -> Mean:
    """The mean of classes, each with two numbers or more, by their weights (all alike if there are none), with an interval of this level.

    The degrees of freedom of several classes are those of Welch and Satterthwaite. Few numbers that differ say little of how many
    there are. So the variance may be that of the numbers and of two more that weren't seen: one that is so much more, and one that
    is as much less."""
    parts = [weight / sum(weights) for weight in weights] or [1 / len(classes)] * len(classes)
    value = sum(part * statistics.fmean(numbers) for part, numbers in zip(parts, classes))
    variances = [part**2 * variance(numbers) / len(numbers) for part, numbers in zip(parts, classes)]
    counted = 1 / sum(part**2 / len(numbers) for part, numbers in zip(parts, classes))
    upsets = 2 * (unseen / counted) ** 2
    whole = sum(variances) + upsets
    if not whole:
        return Mean(value, value, value)
    freedom = whole**2 / (sum(of_class**2 / (len(numbers) - 1) for of_class, numbers in zip(variances, classes)) + upsets**2 / counted)
    margin = quantile(freedom, level) * math.sqrt(whole)
    return Mean(value, value - margin, value + margin)


def variance(numbers: Sequence[float]) -> float:
    """The variance that two numbers or more say of all. The library takes longer, by fractions."""
    middle = statistics.fmean(numbers)
    return math.fsum([(number - middle) ** 2 for number in numbers]) / (len(numbers) - 1)


def together(parts: Sequence[tuple[float, int]]) -> float:
    """The degrees of freedom of a sum of variances, of which each has its own: Satterthwaite's, without the bias that variances of few
    degrees have. They are 1 at least, and at most as many as all have."""
    most, whole = max(1, sum(freedom for _, freedom in parts)), sum(variance for variance, _ in parts)
    if not whole:
        return most
    return min(max(1.0, whole**2 / sum(variance**2 / (freedom + 2) for variance, freedom in parts) - 2), most)


def quantile(freedom: float, level: float = LEVEL) -> float:
    """Student's quantile, beyond which there is half of what is outside of an interval of this level: by its series in 1 / freedom
    from three degrees on; below that of fewer, whole ones, which have formulas."""
    if freedom < 2:
        return math.tan(math.pi * level / 2)
    if freedom < 3:
        return level * math.sqrt(2 / (1 - level**2))
    z, v = NORMAL if level == LEVEL else statistics.NormalDist().inv_cdf((1 + level) / 2), 4 * freedom
    return (z + (z**3 + z) / v + (5 * z**5 + 16 * z**3 + 3 * z) / (6 * v**2)
            + (3 * z**7 + 19 * z**5 + 17 * z**3 - 15 * z) / (6 * v**3)
            + (79 * z**9 + 776 * z**7 + 1482 * z**5 - 1920 * z**3 - 945 * z) / (360 * v**4))
