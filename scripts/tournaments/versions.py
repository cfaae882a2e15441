"""The matches of a robot's older version and its newer one: what each did in them, and the command lines that show them.

Robots are known by their positions: the newer version, the older one, and then the opponents."""

import argparse
from decimal import Decimal
from typing import Any, Collection, Sequence

from results.battles import DID, Match
from sites import commands
from sites.facts import Battle
from sites.facts import Settings as SiteSettings
from tools.faults import plain

from . import robots
from .records import Record

NEW, OLD = 0, 1
# What is in the place of both versions' keys, so that they have the same seeds.
CHALLENGER = "challenger"

# A match by the seat of a version and by its number.
Place = tuple[int, int]


class Versions:
    """The matches of both versions with each opponent, and with each other."""

    def __init__(self, given: argparse.Namespace, paths: list[str]) -> None:
        self._worth = dict(zip("wtl", (*given.points, Decimal(0))))
        self._settings = SiteSettings(given.matches, given.cycles, given.seed, given.profile)
        self._paths = paths
        self.full_names = robots.names(paths)
        self.names = [*map(plain, self.full_names)]
        self.opponents = range(2, len(paths))
        self._played: dict[tuple[int, int], dict[Place, Match]] = {}
        self._seeds: dict[tuple[int, ...], int] = {}

    def add(self, record: Record) -> None:
        seats = record.series.seats
        self._seeds[seats] = record.series.seed
        seat = seats.index(min(seats))
        matches = self._played.setdefault((min(seats), max(seats)), {})
        matches.update({(seat, number): match for number, match in record.matches()})

    def places(self, opponent: int) -> Collection[Place]:
        """The matches with an opponent, or with the older version."""
        return self._played[NEW, opponent]

    def matches(self) -> list[tuple[int, Place]]:
        """All matches with opponents."""
        return [(opponent, place) for opponent in self.opponents for place in self.places(opponent)]

    def did(self, version: int, opponent: int, place: Place) -> str:
        """What a version did in a match: 'won', 'tied' or 'lost'."""
        return DID[self._letter(version, opponent, place)]

    def points(self, version: int, opponent: int, place: Place) -> float:
        """What a match was worth to a version."""
        return float(self._worth[self._letter(version, opponent, place)])

    def cycles(self, version: int, opponent: int, place: Place) -> int:
        return self._played[version, opponent][place].cycles

    def gain(self, opponent: int, place: Place) -> float:
        """How many points more the new version has of a match."""
        return self.points(NEW, opponent, place) - self.points(OLD, opponent, place)

    def has_changed(self, opponent: int, place: Place) -> bool:
        """Whether one version won a match and the other one didn't, or it was worth another number of points to them."""
        new, old = (self.did(version, opponent, place) for version in (NEW, OLD))
        return self.gain(opponent, place) != 0 or (new == "won") != (old == "won")

    def called(self, opponent: int, place: Place) -> str:
        """Which match it is, in words."""
        seat, number = place
        return f"{number} against {self.names[opponent]} in seat {seat + 1}"

    def row(self, opponent: int, place: Place) -> dict[str, Any]:
        """A match that changed, as data."""
        seat, number = place
        did = {name: {"did": self.did(version, opponent, place), "cycles": self.cycles(version, opponent, place)}
               for name, version in (("new", NEW), ("old", OLD))}
        return {"match": number, "seat": seat + 1, **did, "seed": str(self._battle(NEW, opponent, place)[0].seed)}

    def again(self, version: int, opponent: int, place: Place) -> str:
        """The command line that plays a match of a version again."""
        return commands.line(commands.again(self._settings, *self._battle(version, opponent, place)))

    def showing(self, command: str, opponent: int, place: Place, more: Sequence[str] = ()) -> str:
        """The command line by which a command shows a match of the new version."""
        return commands.line(commands.showing(command, self._settings, *self._battle(NEW, opponent, place), more))

    def comparing(self, opponent: int, place: Place) -> str:
        """The command line that compares both versions in a match."""
        more = ["--robot", str(place[0] + 1), "--old", commands.dashless(self._paths[OLD])]
        return self.showing("crobots-compare", opponent, place, more)

    def _letter(self, version: int, opponent: int, place: Place) -> str:
        return self._played[version, opponent][place].results[place[0]]

    def _battle(self, version: int, opponent: int, place: Place) -> tuple[Battle, list[str]]:
        """A match as command lines have it, and its files."""
        seat, number = place
        seats = (version, opponent) if seat == 0 else (opponent, version)
        battle = Battle((), number, self._seeds[seats], self.cycles(version, opponent, place))
        return battle, [self._paths[at] for at in seats]
