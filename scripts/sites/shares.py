"""The 95 % interval of a pair's share: one's wins and half of the matches that both survived or both lost, of all."""

import math

from results.scores import Score
from tournaments.intervals import NORMAL


def interval(score: Score) -> tuple[float, float]:
    """Wilson's interval of the share. It takes each match as won or lost: with ties it is too wide, not too narrow."""
    if not score.played:
        return 0.0, 1.0
    value, spread = score.share, NORMAL**2 / score.played
    middle = (value + spread / 2) / (1 + spread)
    half = math.sqrt(spread * value * (1 - value) + spread**2 / 4) / (1 + spread)
    return max(0.0, middle - half), min(1.0, middle + half)
