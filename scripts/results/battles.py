"""How a match ended, and what each of its robots did by that."""

import functools
from dataclasses import dataclass
from typing import Sequence

from tools.rules import DEADLY

# What a robot did, by its letter.
DID = {"w": "won", "t": "tied", "l": "lost"}
# The places of some robots among all.
Group = tuple[int, ...]


@dataclass(frozen=True)
class Match:
    """How a match ended: its cycles, and the damage of each robot."""

    cycles: int
    damage: tuple[int, ...]

    @property
    def results(self) -> str:
        """What each robot did, as the totals of `crobots` count it: a letter w, t or l for each."""
        return letters([damage >= DEADLY for damage in self.damage])


def letters(died: Sequence[bool]) -> str:
    """What each robot did, by who died: the only one that lives has won, several have tied."""
    lived = "w" if len(died) - sum(died) == 1 else "t"
    return "".join("l" if is_dead else lived for is_dead in died)


def match(result: str) -> Match:
    """Reads a result, as 22275:0:100."""
    cycles, *damage = map(int, result.split(":"))
    return Match(cycles, tuple(damage))


@functools.lru_cache(1)
def endings(results: str) -> list[str]:
    """What the robots of each match did. A record is checked and then added up, so the last one's are kept."""
    return [ending(result.partition(":")[2]) for result in results.split(",")]


@functools.lru_cache(1 << 16)
def ending(damage: str) -> str:
    """What each robot did, of damage as 0:100; nothing if that can't be."""
    try:
        ended = match(f"0:{damage}")
    except ValueError:
        return ""
    return ended.results if max(ended.damage) <= DEADLY else ""
