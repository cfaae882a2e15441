"""Plays variants of a robot against its opponents, if the journal doesn't have the matches, and keeps what they were worth.

Each opponent has starts of its own, and in each seat all variants have the same: so they are compared in the same matches."""

import argparse
import os
from dataclasses import dataclass, field, replace
from fractions import Fraction
from typing import Iterator, Mapping, Sequence

from tournaments.journals import Journal
from tournaments.plans import Plan
from tournaments.playing import Player
from tournaments.programs import Program
from tournaments.records import Record, Series
from tournaments.robots import Robot, laid
from tournaments.seats import keys, seatings
from tournaments.sessions import play
from tournaments.settings import Settings

from .far import Far
from .marks import Number, changed
from .opponents import Opponent
from .scoring import Scores

# In how many parts the matches of a round are cut for each job.
PARTS = 4

# Values of the numbers, in their order.
Values = tuple[int, ...]


@dataclass(frozen=True)
class Stretch:
    """Some matches of each seating, one after another: the number of the first, and how many."""

    first: int
    count: int


@dataclass(frozen=True)
class Starts:
    """Where matches begin: the seed, and what stands for the robot itself. Others have other starts."""

    seed: int
    key: str


@dataclass
class Games:
    """A robot, its numbers, and what was played with its variants. The folder has copies of all robots."""

    given: argparse.Namespace
    program: Program
    folder: str
    name: str
    source: bytes
    numbers: Sequence[Number]
    opponents: Sequence[Opponent]
    settings: Settings
    kept: Journal
    scores: Scores
    progress: Far
    judges: Sequence[Opponent] = ()
    variants: dict[Values, Robot] = field(default_factory=dict)

    @property
    def today(self) -> Values:
        return tuple(number.value for number in self.numbers)

    def weights(self, among: Sequence[Opponent] | None = None) -> Mapping[str, Fraction]:
        """What each opponent weighs, by its hash."""
        found: dict[str, Fraction] = {}
        for opponent in self.opponents if among is None else among:
            found[opponent.robot.sha256] = found.get(opponent.robot.sha256, Fraction(0)) + opponent.weight
        return found

    def variant(self, values: Values) -> Robot:
        """The robot with these values, as a copy in the folder."""
        if values not in self.variants:
            name = f"{self.name}[{named(self.numbers, values, ',')}]"
            self.variants[values] = laid(name, changed(self.source, self.numbers, values), self.folder)
        return self.variants[values]

    def play(self, several: Sequence[Values], starts: Starts, stretch: Stretch, among: Sequence[Opponent] | None = None) -> None:
        """Plays these variants against the opponents, or some of them, in a stretch of matches from these starts."""
        plan = self.plan(several, starts, stretch, self.opponents if among is None else among)
        hashes = {self.variant(values).sha256 for values in several}

        def add(record: Record) -> None:
            self.scores.add(record, hashes)

        parts = [*plan.resumed(self.kept)]
        for record in (record for there, record in parts if there):
            add(record)
            self.progress.keep(record.series.matches)
        missing = [record for there, record in parts if not there]
        play(Player(self.program, self.given.jobs, self.folder), iter(missing), self.kept, add, self.progress)

    def plan(self, several: Sequence[Values], starts: Starts, stretch: Stretch, among: Sequence[Opponent]) -> Plan:
        """All series of these matches."""
        variants = list({robot.sha256: robot for robot in map(self.variant, several)}.values())
        others = list({opponent.robot.sha256: opponent.robot for opponent in among}.values())
        settings = replace(self.settings, robots=len(variants) + len(others))
        only = tuple(series_of(len(variants), keys([robot.sha256 for robot in others]), starts, stretch))
        most = max(1, -(-sum(series.matches for series in only) // (PARTS * self.given.jobs)))
        return Plan(settings, [*variants, *others], most, only)


def series_of(variants: int, others: Sequence[str], starts: Starts, stretch: Stretch) -> Iterator[Series]:
    """The series of each variant against each opponent, which stand behind the variants."""
    for opponent, key in enumerate(others, variants):
        for seating in seatings(starts.seed, [starts.key, key]):
            for variant in range(variants):
                yield Series(tuple((variant, opponent)[at] for at in seating.order), seating.seed, stretch.first, stretch.count)


def matches_of(stretch: Stretch, variants: int, others: int) -> int:
    """How many matches a round has."""
    return 2 * stretch.count * variants * others


def named(numbers: Sequence[Number], values: Values, between: str = ", ") -> str:
    """Values with the names of their numbers."""
    return between.join(f"{number.name}={value}" for number, value in zip(numbers, values))


def readable(path: str) -> str:
    """A robot's name on a line: the last part of its path."""
    return os.path.basename(path) or path
