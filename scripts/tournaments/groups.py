"""The groups of a tournament: every pair, three or four of its robots, or a sample of them; and the series of each group."""

import hashlib
import heapq
import itertools
import math
from functools import lru_cache
from typing import Iterable, Iterator, Sequence

from results.battles import Group
from tools.faults import Fault

from .records import Series
from .seats import seatings
from .settings import Settings

MOST_NUMBERED = 5_000_000


def groups(settings: Settings, keys: Sequence[str]) -> Iterable[Group]:
    """All groups in their order: smaller ones first, then by the robots' positions."""
    if settings.sample:
        return sample(settings.seed, tuple(keys), settings.sizes[0], settings.sample, settings.those)
    every = itertools.chain.from_iterable(itertools.combinations(range(settings.robots), size) for size in settings.sizes)
    return filter(settings.has, every) if settings.those else every


def count(settings: Settings, size: int) -> int:
    """How many groups of a size there are."""
    return settings.sample or possible(settings, size)


def possible(settings: Settings, size: int) -> int:
    """How many groups of a size there may be: all, but those of one side alone."""
    sides = (len(settings.those), settings.robots - len(settings.those)) if settings.those else ()
    return math.comb(settings.robots, size) - sum(math.comb(many, size) for many in sides)


def whole_series(settings: Settings, keys: Sequence[str]) -> Iterator[Series]:
    """All matches of each seating of each group."""
    for group in groups(settings, keys):
        yield from series_of(settings, keys, group)


def series_of(settings: Settings, keys: Sequence[str], group: Group) -> Iterator[Series]:
    """All matches of each seating of a group."""
    matches = settings.each(len(group))
    for seating in seatings(settings.seed, [keys[at] for at in group]):
        yield Series(tuple([group[at] for at in seating.order]), seating.seed, 1, matches)


@lru_cache(1)
def sample(seed: int, keys: tuple[str, ...], size: int, many: int, those: Group = ()) -> list[Group]:
    """The `many` groups with the least numbers. A group's number depends on its robots and the seed alone."""
    return sorted(group for _, group in heapq.nsmallest(many, numbered(seed, keys, size, those)))


def numbered(seed: int, keys: Sequence[str], size: int, those: Group = ()) -> Iterator[tuple[bytes, Group]]:
    """Each group with its number: a hash of the seed and its robots. If one side is given no group is of a side alone."""
    every = math.comb(len(keys), size)
    if every > MOST_NUMBERED:
        raise Fault(f"a sample is drawn of at most {MOST_NUMBERED:,} groups, and {len(keys)} robots have {every:,} of {size}")
    begin = hashlib.sha256(f"crobots sample\n{seed}".encode())
    parts = [f"\n{key}".encode() for key in keys]
    side = {*those}
    for group in itertools.combinations(range(len(keys)), size):
        if side and not 0 < len(side.intersection(group)) < size:
            continue
        hashed = begin.copy()
        hashed.update(b"".join([parts[at] for at in group]))
        yield hashed.digest()[:8], group


def check_sample(settings: Settings, keys: Sequence[str]) -> None:
    """Refuses a sample that there isn't, or that leaves a robot out."""
    size, every = settings.sizes[0], possible(settings, settings.sizes[0])
    if settings.sample > every:
        raise Fault(f"there are only {every} groups of {size}")
    there = {at for group in groups(settings, keys) for at in group}
    if len(there) < len(keys):
        raise Fault(f"--sample {settings.sample} leaves {len(keys) - len(there)} of {len(keys)} robots out; "
                    f"{least(settings.seed, keys, size, settings.those)} groups have all")


def least(seed: int, keys: Sequence[str], size: int, those: Group = ()) -> int:
    """How few groups of a sample have each robot in one: as many as it takes up to the last robot's first group."""
    missing = {*range(len(keys))}
    for many, (_, group) in enumerate(sorted(numbered(seed, keys, size, those)), 1):
        missing -= {*group}
        if not missing:
            return many
    raise AssertionError("all groups have all robots")
