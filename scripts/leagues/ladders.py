"""A ladder: robots enter at the bottom, in the order in which they got their bytes, and climb as long as they win."""

from dataclasses import dataclass
from typing import Callable, Sequence

# Whether the first of two robots won against the second, or None if that isn't known yet.
Won = Callable[[int, int], bool | None]


@dataclass(frozen=True)
class Ladder:
    """The robots from the top to the bottom, those that haven't entered, and the pair that has to play next, if any."""

    rungs: tuple[int, ...]
    waiting: tuple[int, ...] = ()
    next: tuple[int, int] | None = None


def climbed(entering: Sequence[int], won: Won) -> Ladder:
    """The ladder as far as results are known."""
    rungs: list[int] = []
    for at, newcomer in enumerate(entering):
        place = len(rungs)
        while place > 0:
            result = won(newcomer, rungs[place - 1])
            if result is None:
                return Ladder(tuple(rungs), tuple(entering[at:]), (newcomer, rungs[place - 1]))
            if not result:
                break
            place -= 1
        rungs.insert(place, newcomer)
    return Ladder(tuple(rungs))
