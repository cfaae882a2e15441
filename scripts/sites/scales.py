"""Scales: where a value stands on an axis, whose ends leave far outliers out."""

import math
import statistics
from dataclasses import dataclass
from typing import Sequence

# How far from the middle half of all values, in its widths, a value may be before it counts as an outlier.
FENCE = 1.5
TICKS = 6


@dataclass(frozen=True)
class Scale:
    """An axis from one value to another, drawn from one place to another."""

    low: float
    high: float
    begin: float
    end: float

    def at(self, value: float) -> float:
        """The place of a value; of one beyond the axis its end."""
        part = (min(max(value, self.low), self.high) - self.low) / (self.high - self.low)
        return round(self.begin + part * (self.end - self.begin), 1)

    def holds(self, value: float) -> bool:
        return self.low <= value <= self.high

    def ticks(self) -> list[float]:
        """Round values within the axis."""
        step = rounded((self.high - self.low) / TICKS)
        return [at * step for at in range(math.ceil(self.low / step), math.floor(self.high / step) + 1)]


def rounded(step: float) -> float:
    """The next of 1, 2, 5, 10, 20, .. from a step on."""
    power: float = 10.0 ** math.floor(math.log10(step))
    return next(factor * power for factor in (1, 2, 5, 10) if factor * power >= step * 0.999)


def scale(values: Sequence[float], begin: float, end: float) -> Scale:
    """A scale for values, with a little room at both ends. Outliers may be beyond it."""
    lowest, highest = min(values), max(values)
    if len(values) > 3:
        first, _, third = statistics.quantiles(values, n=4, method="inclusive")
        lowest = max(lowest, first - FENCE * (third - first))
        highest = min(highest, third + FENCE * (third - first))
    room = max((highest - lowest) * 0.04, 1)
    return Scale(lowest - room, highest + room, begin, end)
