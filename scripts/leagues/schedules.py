"""Who plays whom: the groups of a season and the seatings of each."""

import itertools
from typing import Iterator, Sequence

from results.battles import Group
from tools.faults import Fault
from tournaments import groups as grouping
from tournaments import seats
from tournaments.settings import Settings

from .results import Results, Seated, seated
from .rules import GAUNTLET
from .seasons import Field, Season, field
from .store import Store


class Schedule:
    """The groups of a season. Robots are named by their places in its field."""

    def __init__(self, field: Field) -> None:
        self.field = field
        self.keys = [robot.key for robot in field.robots]
        rules = field.rules
        self.settings = Settings(rules.matches, rules.cycles, rules.seed, rules.profile, rules.program,
                                 len(field.robots), rules.sizes, rules.sample)

    def groups(self) -> Iterator[Group]:
        """All groups, smaller ones first; of a ladder all that there may be."""
        if self.field.rules.mode != GAUNTLET:
            yield from self._in_divisions()
            return
        champion = self.place(self.field.rules.champion)
        yield from (group for group in self._in_divisions() if champion in group)

    def _in_divisions(self) -> Iterator[Group]:
        """The groups of each division."""
        divisions = self.field.rules.divisions
        for division in range(1, divisions + 1):
            yield from self._among(self.field.places(division) if divisions > 1 else range(len(self.keys)))

    def is_of_a_division(self, group: Group) -> bool:
        """Reports whether all robots of a group are of one division. Else one is there for the ratings alone."""
        return len({self.field.division(self.field.robots[at].robot) for at in group}) == 1

    def _among(self, places: Sequence[int]) -> Iterator[Group]:
        """The groups of these robots."""
        if not self.settings.sample:
            for size in self.settings.sizes:
                yield from itertools.combinations(places, size)
            return
        keys = tuple(self.keys[at] for at in places)
        for group in grouping.sample(self.settings.seed, keys, self.settings.sizes[0], self.settings.sample):
            yield tuple(places[at] for at in group)

    def place(self, robot: str) -> int:
        """The place of a robot that the rules name."""
        for at, entrant in enumerate(self.field.robots):
            if entrant.robot == robot:
                return at
        raise Fault(f"the rules name the robot {robot}, which doesn't play")

    def seatings(self, group: Group) -> list[tuple[Group, int]]:
        """The robots of a group in the order of their seats, with the seed, of each seating."""
        found = seats.seatings(self.settings.seed, [self.keys[at] for at in group])
        return [(tuple(group[at] for at in seating.order), seating.seed) for seating in found]

    def seated(self, robots: Group, seed: int) -> Seated:
        """How results name a seating."""
        return seated([self.field.robots[at].sha256 for at in robots], seed)


def scheduled(store: Store, season: Season) -> tuple[Schedule, Results]:
    """What is to be played in a season, and what was played by its rules."""
    return Schedule(field(store, season)), Results(store, season.rules)
