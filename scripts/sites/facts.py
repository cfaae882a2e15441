"""What a site shows: plain values, which a league or a tournament fills in.

A tournament is a league of which less is known: no authors, no days, no archive. What isn't known is empty, and then
the site leaves it out. Texts may have any letters, also the surrogates in names that are no UTF-8."""

from __future__ import annotations

from dataclasses import dataclass
from typing import Mapping, NamedTuple

from results.battles import letters
from results.scores import Score
from results.standings import Standing
from results.verdicts import BETTER, OPEN, WORSE, Verdict
from tools.rules import DEADLY

RobotId = str


@dataclass(frozen=True)
class Settings:
    """What the matches depend on beside the robots. A match has a seed of its own."""

    matches: int
    cycles: int
    seed: int
    profile: int
    sizes: tuple[int, ...] = (2,)
    # further rows of the page of settings, as ('sample', '400 groups')
    more: tuple[tuple[str, str], ...] = ()


@dataclass(frozen=True)
class Program:
    """The program that played, by what it says of itself and by the hash of its file."""

    version: str
    sha256: str


@dataclass(frozen=True, slots=True)
class Version:
    """A robot's source as it was played from a day on; None if only its hash is known.

    A day is written as 2026-11-27."""

    sha256: str
    source: bytes | None
    day: str = ""


@dataclass(frozen=True, slots=True)
class Seat:
    """A robot's seat in a match: with which damage it ended. It played with its last version."""

    robot: RobotId
    damage: int


@dataclass(frozen=True, slots=True)
class Battle:
    """A match that the site names: its robots in the order of their files, its number, its seed, and when it ended."""

    seats: tuple[Seat, ...]
    number: int
    seed: int
    cycles: int
    # the page that plays it, if there is one already
    replay: str = ""

    @property
    def results(self) -> str:
        """What each robot did: a letter w, t or l for each."""
        return letters([seat.damage >= DEADLY for seat in self.seats])


@dataclass(frozen=True)
class Sums:
    """What `crobots-trace` sums up of a robot, match by match: as `--sum` tells it, and as the objects of `--json`."""

    text: str = ""
    objects: str = ""


@dataclass(frozen=True)
class Robot:
    """A robot with all its versions, the last of which plays. It has an id that no other robot ever has."""

    id: RobotId
    name: str
    versions: tuple[Version, ...]
    author: str = ""
    # the day from which on it doesn't play any more
    withdrawn: str = ""
    # what it did in some of its matches
    sums: Sums = Sums()
    # matches that it lost; if they have days, its last ones, the last one first
    lost: tuple[Battle, ...] = ()
    # the robot of another author that had the same code before
    copied: RobotId = ""


@dataclass(frozen=True)
class Table:
    """An earlier table, as it was published on a day in a season."""

    day: str
    places: Mapping[RobotId, Standing]
    season: str = ""


class Stay(NamedTuple):
    """Where a robot was on a day, in a season."""

    day: str
    season: str
    place: Standing


@dataclass(frozen=True)
class Season:
    """A season that ended: its days, its rules as rows of a page, and its last table."""

    name: str
    begun: str
    ended: str
    rules: tuple[tuple[str, str], ...]
    standings: tuple[Standing, ...]
    divisions: int = 1


class Series(NamedTuple):
    """Matches of two robots in the same seats that one command line plays: their seed, the first one's number, and how many they are."""

    seed: int
    first: int
    matches: int


@dataclass(frozen=True, slots=True)
class BySeat:
    """What a pair's first robot did from one seat against the other robot in another. Seats count from 1."""

    seat: int
    against: int
    score: Score
    # all its matches, if no other robot was in them
    series: tuple[Series, ...] = ()


@dataclass(frozen=True, slots=True)
class Notable:
    """A match worth a look, and what it is: 'closest', 'shortest', 'longest', 'greatest upset'."""

    what: str
    battle: Battle


@dataclass(frozen=True, slots=True)
class Pair:
    """What two robots did to each other, from the first one's side.

    The interval is that of its share: wins and half of the matches that both survived or lost, of all; from 0 to 1."""

    one: RobotId
    other: RobotId
    score: Score
    low: float
    high: float
    seats: tuple[BySeat, ...] = ()
    notable: tuple[Notable, ...] = ()
    verdict: Verdict | None = None

    @property
    def decided(self) -> Verdict:
        """What is decided: by the sequential test, or by the interval if there was no test."""
        return self.verdict or Verdict(BETTER if self.low > 0.5 else WORSE if self.high < 0.5 else OPEN)

    @property
    def turned(self) -> Pair:
        """The same pair with its robots exchanged."""
        seats = tuple(BySeat(seat.against, seat.seat, seat.score.turned, seat.series) for seat in self.seats)
        return Pair(self.other, self.one, self.score.turned, 1 - self.high, 1 - self.low, seats, self.notable,
                    self.verdict and self.verdict.turned)


@dataclass(frozen=True)
class Facts:
    """All that a site shows. A pair is there once, whichever of its robots comes first."""

    title: str
    settings: Settings
    program: Program
    robots: tuple[Robot, ...]
    # division by division, each best first
    standings: tuple[Standing, ...]
    pairs: tuple[Pair, ...]
    # the day of this table, and the tables before, the oldest first
    day: str = ""
    earlier: tuple[Table, ...] = ()
    # what the table goes by
    points: str = "points"
    # the path of a file with sources, settings and results, and the command line that checks it
    archive: str = ""
    verify: str = ""
    # the address of the page that plays battles in a browser
    page: str = ""
    # the hash of this publication, by which any change of what it shows is seen
    hash: str = ""
    # the season of this table with the number of its divisions, and the seasons that ended before it, the oldest first
    season: str = ""
    divisions: int = 1
    seasons: tuple[Season, ...] = ()
    # why sources are not shown, if they aren't
    hidden: str = ""
