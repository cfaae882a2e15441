"""The questions of a robot: its calls of intrinsic functions, with their cycles and replies.

They are all that can be seen of a robot from outside. What it computes and what its variables hold is seen only if it asks
something else for it, or in another cycle."""

from dataclasses import dataclass
from itertools import zip_longest
from typing import Iterable, Iterator

from stepping.moments import Question


def questions(rows: Iterable[str]) -> Iterator[Question]:
    """The questions of the rows of `crobots-trace --asks`. From which line they come isn't seen from outside."""
    for number, row in enumerate(rows):
        if number:
            cycle, _, _, _, call, reply = row.split("\t")
            yield Question(int(cycle), call, int(reply))


@dataclass(frozen=True)
class Comparison:
    """How many questions two versions ask alike from the start, the last of these, and the next one of each.

    A version that asks nothing more has no next one, and neither has one if both never ask something else."""

    alike: int
    last: Question | None
    new: Question | None
    old: Question | None

    @property
    def cycle(self) -> int | None:
        """The first cycle in which the versions do something else, if there is one."""
        return min((question.cycle for question in (self.new, self.old) if question), default=None)


def comparison(new: Iterable[Question], old: Iterable[Question]) -> Comparison:
    """Compares the questions of both versions, up to the first that isn't the same."""
    alike, last = 0, None
    for one, other in zip_longest(new, old):
        if one != other:
            return Comparison(alike, last, one, other)
        alike, last = alike + 1, one
    return Comparison(alike, last, None, None)
