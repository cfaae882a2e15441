"""What is decided of a value. There is one rule: it is better or worse if the interval of its change, as it is shown, has no 0.

Such an interval is so wide that those of all values hold at once, at each look that is taken at them: so whichever of them a reader
picks, and whenever matches end, a claim is wrong in at most 1 of 100 sweeps."""

from dataclasses import dataclass

from tournaments.intervals import Mean

# How often a sweep may claim anything that isn't so.
MISTAKEN = 0.01

# So many of 100 sweeps have all changes in their intervals at once. Points and single opponents have as many; so all of a table is right
# in as many as are left if both kinds fail in others.
CHANGES = round(100 * (1 - MISTAKEN))
WHOLE = round(100 * (1 - 2 * MISTAKEN))

BETTER, WORSE, TODAYS, NOTHING = "better", "worse", "today's", "no difference that these matches could show"


@dataclass(frozen=True)
class Levels:
    """How wide intervals are: of a change from today's value; of points, and of what is said of single opponents; of two values that race."""

    change: float
    single: float
    race: float


def levels(values: int, opponents: int, looks: int = 1, race: bool = False) -> Levels:
    """The levels for so many values, each compared with today's at so many looks. If they race, any two may be compared besides: then a
    half of the mistakes is for these. As many may be among points and single opponents, of which no verdict is made."""
    part = MISTAKEN / 2 if race else MISTAKEN
    changes = max(values - 1, 1) * looks
    singles = 2 * values * (opponents + 1) * looks
    return Levels(1 - part / changes, 1 - MISTAKEN / singles, 1 - part / (changes * values / 2))


def verdict(change: Mean) -> str:
    """What is said of a value whose change has this interval."""
    return BETTER if change.low > 0 else WORSE if change.high < 0 else NOTHING
