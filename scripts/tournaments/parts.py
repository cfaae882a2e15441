"""Parts of a field: robots that pairs which have met connect, and what is known of them as rows."""

from dataclasses import dataclass, field
from typing import Iterable, Sequence

from results.battles import Group

from .evidence import Evidence, Share, Spread
from .matrices import Matrix
from .strengths import capped


def parts(pairs: Iterable[Group]) -> list[list[int]]:
    """The robots of each part; those that met none are in no part."""
    met: dict[int, list[int]] = {}
    for one, other in pairs:
        met.setdefault(one, []).append(other)
        met.setdefault(other, []).append(one)
    found, known = [], set[int]()
    for robot in sorted(met):
        if robot not in known:
            found.append(sorted(reached(met, robot)))
            known.update(found[-1])
    return found


def reached(met: dict[int, list[int]], robot: int) -> set[int]:
    """All robots to which pairs lead from one."""
    found, left = {robot}, [robot]
    while left:
        for other in met[left.pop()]:
            if other not in found:
                found.add(other)
                left.append(other)
    return found


def zeros(many: int) -> Matrix:
    return [[0.0] * many for _ in range(many)]


@dataclass
class Rows:
    """What is known of a part's robots: a row for each, with a number for each other one, and 0 where two haven't met.

    `met` has 1 for two that have met. `shares` are capped. `each` is what one match of a pair is of its share; `variances` and
    `thirds` are those of pairs' shares, as far as matches of two show them, and `freedom` says by how many of these matches, less the
    means that are taken of them. `spreads` are the matches of more robots with each one."""

    many: int
    met: Matrix = field(init=False)
    shares: Matrix = field(init=False)
    each: Matrix = field(init=False)
    variances: Matrix = field(init=False)
    thirds: Matrix = field(init=False)
    spreads: list[list[Spread]] = field(init=False)
    freedom: list[int] = field(init=False)

    def __post_init__(self) -> None:
        self.met, self.shares, self.each, self.variances, self.thirds = (zeros(self.many) for _ in range(5))
        self.spreads = [[] for _ in range(self.many)]
        self.freedom = [0] * self.many

    def add(self, one: int, other: int, pair: Share) -> None:
        """Adds a pair."""
        for mine, theirs, share, third in ((one, other, pair.value, pair.third), (other, one, 1 - pair.value, -pair.third)):
            self.met[mine][theirs] = 1.0
            self.shares[mine][theirs] = capped(share)
            self.each[mine][theirs] = pair.each
            self.variances[mine][theirs] = pair.variance
            self.thirds[mine][theirs] = third
            self.freedom[mine] += pair.freedom

    def add_spread(self, spread: Spread) -> None:
        """Adds matches of more robots."""
        for robot in spread.group:
            self.spreads[robot].append(spread)

    def scores(self) -> list[float]:
        """The sum of each robot's shares."""
        return [sum(row) for row in self.shares]

    def opponents(self, robot: int) -> int:
        """How many others it has met."""
        return round(sum(self.met[robot]))

    def sparse(self) -> float:
        """The part of all pairs that haven't met."""
        return 1 - sum(map(self.opponents, range(self.many))) / (self.many * (self.many - 1))

    def size(self, robot: int) -> int:
        """The most robots of a match in which it was."""
        return max([2, *(len(spread.group) for spread in self.spreads[robot])])


def rows(those: Evidence, part: Sequence[int]) -> Rows:
    """What is known of the robots of a part, by their places in it."""
    places = {robot: at for at, robot in enumerate(part)}
    found = Rows(len(part))
    for (one, other), share in those.shares.items():
        if one in places:
            found.add(places[one], places[other], share)
    for spread in those.spreads:
        if spread.group[0] in places:
            found.add_spread(Spread(tuple(places[at] for at in spread.group), spread.changes, spread.freedom))
    return found
