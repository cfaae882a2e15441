"""Seats: in which orders the robots of a group are given to `crobots`, and the seed of each order.

A match puts its robots into quadrants that follow each other, beginning with a drawn one: so the first robot never has the
second straight to its west. What one seat is worth more than another is nothing that a table should show. So each group is
played in all its seatings, equally often: both orders of two robots, the rotations of three and four.

Each seating has a seed of its own, drawn from the tournament's seed and its robots: so matches are independent of each
other, and those of a group don't depend on who else plays."""

import functools
import hashlib
from typing import NamedTuple, Sequence


class Seating(NamedTuple):
    """An order of a group's robots, as places in the group, and the seed of its matches."""

    order: tuple[int, ...]
    seed: int


def keys(hashes: Sequence[str]) -> list[str]:
    """A name for each robot that says all that its matches may depend on: its hash, and its number among those of equal bytes."""
    return [sha256 if not (before := [*hashes[:at]].count(sha256)) else f"{sha256}.{before}" for at, sha256 in enumerate(hashes)]


def seatings(seed: int, group: Sequence[str]) -> list[Seating]:
    """The seatings of a group, by the keys of its robots in the tournament's order."""
    return [Seating(order, drawn(seed, [group[at] for at in order])) for order in orders(len(group))]


@functools.cache
def orders(size: int) -> list[tuple[int, ...]]:
    """The orders in which a group of this size sits."""
    places = range(size)
    return [(*places[first:], *places[:first]) for first in places]


def drawn(seed: int, seated: Sequence[str]) -> int:
    """The seed of the matches in which robots with these keys sit in this order: 64 bits of a hash."""
    said = "\n".join(["crobots seating", str(seed), *seated])
    return int.from_bytes(hashlib.sha256(said.encode()).digest()[:8], "big")


def rounded(matches: int, size: int) -> int:
    """A number of matches, rounded up so that each seating is played equally often."""
    return -(-matches // size) * size
