"""Adds up matches: of each seating how many ended in each way, and what each robot and each pair did by that."""

import itertools
from collections import Counter, defaultdict
from typing import Callable, Iterable, Sequence, TypeVar

from .battles import Group
from .scores import Score, between, counted

# How matches ended: a letter w, t or l for the robot of each seat.
Ended = str
Kind = TypeVar("Kind")


class Tally:
    """All matches, added up by their seatings."""

    def __init__(self, seatings: dict[Group, Counter[Ended]] | None = None) -> None:
        self.seatings: dict[Group, Counter[Ended]] = seatings or {}

    def add(self, seats: Group, ended: Iterable[Ended]) -> None:
        """Adds matches of a seating."""
        self.seatings.setdefault(seats, Counter()).update(ended)

    def scores(self, kind: Callable[[Group], Kind]) -> dict[Kind, dict[int, Score]]:
        """What each robot did in matches of each kind of seating."""
        found: dict[Kind, defaultdict[int, Counter[str]]] = {}
        for seats, endings in self.seatings.items():
            of_kind = found.setdefault(kind(seats), defaultdict(Counter))
            for ended, matches in endings.items():
                for robot, letter in zip(seats, ended):
                    of_kind[robot][letter] += matches
        return {of: {robot: counted(letters) for robot, letters in robots.items()} for of, robots in found.items()}

    def pairs(self) -> dict[Group, Score]:
        """What the first robot of each pair, which has the lower number, did in all matches in which both were."""
        found: defaultdict[Group, dict[tuple[bool, bool], int]] = defaultdict(dict)
        for seats, endings in self.seatings.items():
            for one, other in itertools.combinations(sorted(range(len(seats)), key=seats.__getitem__), 2):
                of_pair = found[seats[one], seats[other]]
                for ended, matches in endings.items():
                    died = ended[one] == "l", ended[other] == "l"
                    of_pair[died] = of_pair.get(died, 0) + matches
        return {pair: between(died) for pair, died in found.items()}

    def faced(self) -> dict[Group, Score]:
        """What each robot did against each other one that it met."""
        pairs = self.pairs().items()
        return {**dict(pairs), **{(other, one): score.turned for (one, other), score in pairs}}

    def groups(self) -> dict[Group, list[Counter[Ended]]]:
        """Of each group of robots how matches of each of its seatings ended, with the letters in the group's order."""
        found: defaultdict[Group, list[Counter[Ended]]] = defaultdict(list)
        for seats, endings in self.seatings.items():
            found[group_of(seats)].append(ordered(seats, endings))
        return dict(found)


def group_of(seats: Group) -> Group:
    """The robots of a seating, in the order of their places."""
    return tuple(sorted(seats))


def ordered(seats: Group, endings: Counter[Ended]) -> Counter[Ended]:
    """How matches ended, with the letters in the order of the robots' numbers."""
    places = sorted(range(len(seats)), key=seats.__getitem__)
    if places == [*range(len(seats))]:
        return endings
    return Counter({"".join([ended[at] for at in places]): matches for ended, matches in endings.items()})


# Matches of a seating that are so many are compared with each other. If they are fewer all of a group are.
FEW = 3


def strata(seatings: Sequence[Counter[Ended]]) -> Sequence[Counter[Ended]]:
    """The matches of a group that are compared with each other to see how much chance there is in them."""
    return seatings if all(seating.total() >= FEW for seating in seatings) else [sum(seatings, Counter[Ended]())]
