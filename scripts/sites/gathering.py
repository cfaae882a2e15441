"""Adds up matches for a site: what each two robots did to each other from each seat, and the matches worth a look.

Of all matches only those that are worth a look are kept, so memory grows with the pairs and not with the matches."""

import functools
import itertools
from collections import Counter, defaultdict
from dataclasses import dataclass, replace
from typing import Iterable, Iterator, Mapping, Sequence

from results.scores import Score, added, between
from tools.rules import DEADLY

from .facts import Battle, BySeat, Notable, Pair, RobotId, Series
from .notables import notables, shortness
from .shares import interval


@dataclass(slots=True)
class Between:
    """What two robots did to each other, by their seats, from the side of the higher one."""

    seats: tuple[BySeat, ...] = ()
    notable: tuple[Notable, ...] = ()


class Gathering:
    """All matches so far. The robots' rows in the table decide what an upset is."""

    def __init__(self, rows: Mapping[RobotId, int]) -> None:
        self._rows = rows
        self._pairs: defaultdict[tuple[RobotId, RobotId], Between] = defaultdict(Between)

    def add(self, battles: Sequence[Battle]) -> None:
        """Adds matches of the same robots in the same seats."""
        robots = [seat.robot for seat in battles[0].seats]
        for (seat, one), (against, other) in itertools.permutations(enumerate(robots, 1), 2):
            if self._rows[one] < self._rows[other]:
                pair = self._pairs[one, other]
                more = by_seat(seat, against, score(battles, seat, against))
                pair.seats = with_more(pair.seats, replace(more, series=series(battles)) if len(robots) == 2 else more)
                pair.notable = notables([*dict.fromkeys(known.battle for known in pair.notable), *battles], one, other)

    def pairs(self) -> Iterator[Pair]:
        """All pairs, in the order of the table. What was added is given away."""
        for key in sorted(self._pairs, key=lambda robots: [self._rows[robot] for robot in robots]):
            pair = self._pairs.pop(key)
            total = added(known.score for known in pair.seats)
            yield Pair(*key, total, *interval(total), pair.seats, pair.notable)


class Losses:
    """Of each robot the shortest match that it lost to each survivor."""

    def __init__(self, rows: Mapping[RobotId, int]) -> None:
        self._rows = rows
        self._lost: defaultdict[RobotId, dict[RobotId, Battle]] = defaultdict(dict)

    def add(self, battle: Battle) -> None:
        """Takes note of the robots that lost to another one."""
        survivors = [seat.robot for seat in battle.seats if seat.damage < DEADLY]
        for robot in {seat.robot for seat in battle.seats if seat.damage >= DEADLY}:
            for survivor in survivors:
                known = self._lost[robot].get(survivor)
                if known is None or shortness(battle) < shortness(known):
                    self._lost[robot][survivor] = battle

    def of(self, robot: RobotId, most: int) -> tuple[Battle, ...]:
        """The shortest lost matches of a robot, one to each of the lowest ones in the table that survived it."""
        found = sorted(self._lost[robot].items(), key=lambda item: -self._rows[item[0]])
        return tuple(dict.fromkeys(battle for _, battle in found))[:most]


def score(battles: Iterable[Battle], seat: int, against: int) -> Score:
    """What the robot in one seat did to that in another."""
    return between(Counter((battle.seats[seat - 1].damage >= DEADLY, battle.seats[against - 1].damage >= DEADLY) for battle in battles))


@functools.lru_cache(1 << 14)
def by_seat(seat: int, against: int, score: Score) -> BySeat:
    """A score by seat. In a large league many are equal, so they are one."""
    return BySeat(seat, against, score)


def with_more(seats: tuple[BySeat, ...], more: BySeat) -> tuple[BySeat, ...]:
    """The scores by seat, with one more, in the order of the seats."""
    same = [seat for seat in seats if (seat.seat, seat.against) == (more.seat, more.against)]
    one = by_seat(more.seat, more.against, added(seat.score for seat in (*same, more)))
    if parts := joined(part for seat in (*same, more) for part in seat.series):
        one = replace(one, series=parts)
    return tuple(sorted([*(seat for seat in seats if seat not in same), one], key=lambda seat: (seat.seat, seat.against)))


def series(battles: Sequence[Battle]) -> tuple[Series, ...]:
    """Matches in the same seats as series, in the order of their seeds and numbers."""
    return joined(Series(battle.seed, battle.number, 1) for battle in battles)


def joined(them: Iterable[Series]) -> tuple[Series, ...]:
    """Series of which none goes on where another one ends."""
    found: list[Series] = []
    for series in sorted(them):
        before = found[-1] if found else None
        if before and (before.seed, before.first + before.matches) == (series.seed, series.first):
            found[-1] = before._replace(matches=before.matches + series.matches)
        else:
            found.append(series)
    return tuple(found)
