"""Tables: where each robot is, and whether that may be chance."""

from collections import Counter
from dataclasses import dataclass, field, replace
from decimal import Decimal
from typing import Callable, Iterable, Iterator, Mapping, NamedTuple, Sequence

from .scores import Score


class Rating(NamedTuple):
    """A rating with its 95 % interval."""

    value: float
    low: float
    high: float


# The rating of a robot of which nothing is known: its interval ends before it begins.
NOTHING = Rating(0.0, 1.0, -1.0)


@dataclass(frozen=True, slots=True)
class Standing:
    """A robot's row of a table, which goes by points a match. Its rank is one of its division, and 0 as long as it isn't known.

    A robot of a league has an id, one of a tournament its name. It is close if its points may be those of the row above."""

    robot: str
    rank: int
    score: Score
    points: Decimal
    rating: Rating
    close: bool = False
    division: int = 1
    # the hash of its bytes, if it may have had others
    sha256: str = ""
    # its points a match of each size, if sizes are added up
    by_size: Mapping[int, Decimal] = field(default_factory=dict)
    # its place among all robots, by which matches name it
    place: int = 0

    @property
    def is_rated(self) -> bool:
        """Reports whether it has played, also if only against the robot with the fixed rating. Else it has no rating."""
        return self.rating.low <= self.rating.high


def ranked(rows: Iterable[Standing]) -> Iterator[Standing]:
    """The rows, best first, with their ranks: equal points have an equal rank. One that has its rank keeps it."""
    many, above = Counter[int](), dict[int, Standing]()
    for row in rows:
        many[row.division] += 1
        last = above.get(row.division)
        rank = row.rank or (last.rank if last and last.points == row.points else many[row.division])
        above[row.division] = replace(row, rank=rank)
        yield above[row.division]


def marked(rows: Sequence[Standing], are_close: Callable[[int, int, float], bool]) -> Iterator[Standing]:
    """The rows, of which those that are close to the one above in their division say so: by the places of both robots, and by how far
    their points are apart."""
    for above, row in zip([*rows[:1], *rows], rows):
        is_known = above is not row and above.division == row.division and above.score.played > 0 and row.score.played > 0
        yield replace(row, close=is_known and are_close(above.place, row.place, float(above.points - row.points)))
