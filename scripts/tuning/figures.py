"""Points and their differences as they are written, everywhere alike: with three digits, and a zero without a sign."""

import math

from tournaments.intervals import Mean

DIGITS = 3
# So many of the smallest differences that are written are one point.
UNITS = 10**DIGITS


def points(value: float) -> str:
    """Points, which have no sign."""
    return f"{abs(value):.{DIGITS}f}"


def difference(value: float) -> str:
    """Points more or less, with their sign; a zero has none."""
    shown = round(value, DIGITS)
    return f"{shown:+.{DIGITS}f}" if shown else points(0)


def interval(change: Mean) -> str:
    """From where to where a difference is."""
    return f"{difference(change.low)} to {difference(change.high)}"


def outward(mean: Mean) -> Mean:
    """An interval whose ends are moved outward to what is written: so a verdict that goes by it agrees with what a reader sees."""
    return Mean(mean.value, math.floor(mean.low * UNITS) / UNITS, math.ceil(mean.high * UNITS) / UNITS)
