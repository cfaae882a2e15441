"""The script `challenge`: what a change of a robot is worth, by the same matches with the older version and the newer one.

Both play each opponent in each seat from the same starts, and each opponent has starts of its own. So the differences of
two matches with one opponent, seat and number are independent of each other."""

import argparse
import json
import os
import statistics
from dataclasses import dataclass
from typing import Any, Iterator

from results.battles import DID
from sites import commands
from tools.faults import Fault
from tools.output import show
from tools.signals import stopping
from tools.tables import aligned, comma_separated

from . import plans, programs, robots, words
from .intervals import Mean, mean
from .playing import Player
from .records import Record, Series
from .robots import Robot
from .seats import keys, seatings
from .sessions import session, tell_rounded
from .settings import Settings
from .versions import CHALLENGER, NEW, OLD, Place, Versions

AGAINST = "against"


@dataclass
class Worth:
    """What matches with some opponents were worth to both, in points: of each opponent those of NEW and of OLD."""

    of_each: list[tuple[list[float], list[float]]]

    def change(self) -> Mean:
        return mean([[new - old for new, old in zip(*both)] for both in self.of_each])

    def mean(self, version: int) -> float:
        """What a match was worth to a version."""
        return statistics.fmean(points for both in self.of_each for points in both[version])

    def values(self) -> dict[str, float]:
        """All of it by name."""
        change = self.change()
        return {"new": self.mean(NEW), "old": self.mean(OLD), "change": change.value, "low": change.low, "high": change.high}

    def cells(self) -> list[str]:
        new, old, *change = self.values().values()
        return [f"{new:.2f}", f"{old:.2f}", *map(signed, change)]


def signed(value: float) -> str:
    """A number with its sign and two digits; a zero has a plus."""
    return f"{round(value, 2) + 0.0:+.2f}"


def series_of_both(settings: Settings, among: list[Robot]) -> Iterator[Series]:
    """All matches of both versions with each other robot, and with each other."""
    each = settings.each(2)
    for opponent, key in enumerate(keys([robot.sha256 for robot in among[2:]]), 2):
        for seating in seatings(settings.seed, [CHALLENGER, key]):
            for version in (NEW, OLD):
                yield Series(tuple((version, opponent)[at] for at in seating.order), seating.seed, 1, each)
    for seating in seatings(settings.seed, keys([robot.sha256 for robot in among[:2]])):
        yield Series(seating.order, seating.seed, 1, each)


class Challenge:
    """What both versions did against the field, and against each other."""

    def __init__(self, given: argparse.Namespace, paths: list[str]) -> None:
        self._all = given.all
        self._versions = Versions(given, paths)

    def add(self, record: Record) -> None:
        self._versions.add(record)

    def text(self, form: str) -> str:
        """The answer in a form."""
        worth = {opponent: self._worth(opponent) for opponent in self._versions.opponents}
        best_first = dict(sorted(worth.items(), key=lambda item: -item[1].change().value))
        whole = Worth([both for of_one in worth.values() for both in of_one.of_each])
        return {"csv": self._comma_separated, "json": self._everything, "table": self._told}[form](best_first, whole)

    def _told(self, worth: dict[int, Worth], whole: Worth) -> str:
        """What the change is worth, on which opponents, how both played each other, what was lost, and what changed if that is
        asked for."""
        names = self._versions.names
        rows = [[names[opponent], *of_one.cells()] for opponent, of_one in worth.items()]
        table = aligned([[AGAINST, *whole.values()], *rows, ["all", *whole.cells()]], (0,))
        changed = self._changed() if self._all else ""
        return table + self._said(worth, whole) + self._both() + self._lost() + changed

    def _comma_separated(self, worth: dict[int, Worth], whole: Worth) -> str:
        """The rows as comma-separated values, that of all opponents last."""
        rows = [*((self._versions.full_names[opponent], of_one) for opponent, of_one in worth.items()), ("all", whole)]
        return comma_separated([[AGAINST, *whole.values()], *([name, *of_one.values().values()] for name, of_one in rows)])

    def _everything(self, worth: dict[int, Worth], whole: Worth) -> str:
        """All of it as JSON."""
        versions, did = self._versions, [self._versions.did(NEW, OLD, place) for place in self._versions.places(OLD)]
        names = versions.full_names
        said: dict[str, Any] = {
            "new": names[NEW], "old": names[OLD], "matches": len(whole.of_each[0][NEW]),
            "opponents": [{AGAINST: names[opponent], **of_one.values()} for opponent, of_one in worth.items()],
            "all": whole.values(), "each_other": {how: did.count(how) for how in DID.values()},
        }
        if self._all:
            said["changed"] = [{AGAINST: names[opponent], **versions.row(opponent, place)} for _, opponent, place in self._changes()]
        return json.dumps(said, indent=1) + "\n"

    def _said(self, worth: dict[int, Worth], whole: Worth) -> str:
        """The same in words."""
        names = self._versions.names
        changes = sorted((of_one.change().value, names[opponent]) for opponent, of_one in worth.items() if of_one.change().is_sure)
        gained = [name for change, name in sorted(changes, key=lambda row: (-row[0], row[1])) if change > 0]
        lost = [name for change, name in changes if change < 0]
        _, _, change, low, high = whole.cells()
        matches = len(whole.of_each[0][NEW])
        return (
            f"{names[NEW]} in place of {names[OLD]}: {change} points a match, 95 % interval {low} to {high}, "
            f"by {matches} matches against each of {len(worth)}\n"
            f"gained on: {', '.join(gained) or 'none'}\nlost on: {', '.join(lost) or 'none'}\n"
        )

    def _worth(self, opponent: int) -> Worth:
        places = sorted(self._versions.places(opponent))
        new, old = ([self._versions.points(version, opponent, place) for place in places] for version in (NEW, OLD))
        return Worth([(new, old)])

    def _both(self) -> str:
        """What both versions did against each other."""
        did = [self._versions.did(NEW, OLD, place) for place in self._versions.places(OLD)]
        counts = ", ".join(f"{how} {did.count(how)}" for how in DID.values())
        return f"{self._versions.names[NEW]} against {self._versions.names[OLD]}: {counts} of {len(did)} matches\n"

    def _lost(self) -> str:
        """The match that the new version lost and in which the old one did best, of these the shortest, with a command that
        draws it."""
        versions, names = self._versions, self._versions.names
        lost = [(-versions.points(OLD, *match), versions.cycles(NEW, *match), *match)
                for match in versions.matches() if versions.did(NEW, *match) == "lost"]
        if not lost:
            return f"{names[NEW]} lost no match\n"
        _, cycles, opponent, place = min(lost)
        said = f"{versions.called(opponent, place)}, in {cycles} cycles; {names[OLD]} {versions.did(OLD, opponent, place)} it"
        return f"worst lost match: {said}\n{versions.showing('crobots-tracks', opponent, place)} > match.svg\n"

    def _changed(self) -> str:
        """All matches that changed, those first that cost most, each with the commands that show it."""
        matches, changed = self._versions.matches(), self._changes()
        lines = [line for number, (_, opponent, place) in enumerate(changed, 1) for line in self._change(number, opponent, place)]
        return "\n".join([f"{len(changed)} of {len(matches)} matches changed", *lines, ""])

    def _changes(self) -> list[tuple[float, int, Place]]:
        """The matches that changed, each with its gain, those first that cost most."""
        return sorted((self._versions.gain(*match), *match) for match in self._versions.matches() if self._versions.has_changed(*match))

    def _change(self, number: int, opponent: int, place: Place) -> list[str]:
        """A match that changed, in words, and the commands that play it with both versions, compare these, and show it."""
        versions, match = self._versions, (opponent, place)
        did = [f"{versions.names[version]} {versions.did(version, *match)} it in {versions.cycles(version, *match)} cycles" for version in (OLD, NEW)]
        return [
            f"changed match: {versions.called(*match)}; {', '.join(did)}", *(versions.again(version, *match) for version in (OLD, NEW)),
            versions.comparing(*match), f"{versions.showing('crobots-replay', *match)} > changed{number}.html",
        ]


def challenge(name: str, arguments: list[str]) -> None:
    """Does what the words ask for."""
    given = words.challenge(name).read(arguments)
    words.settle(given)
    both = [given.new, given.old]
    field = [path for path in given.field if os.path.abspath(path) not in {os.path.abspath(version) for version in both}]
    if not field:
        alone = commands.line(["crobots-tournament", *map(commands.dashless, both)])
        raise Fault(f"NEW and OLD are the only robots: `{alone}` plays them against each other, and a challenge needs another one")
    if given.all and given.form == "csv":
        raise Fault("--all lists matches in words or with --json, so it takes no --csv")
    program = programs.program(given.crobots)
    with robots.private() as folder:
        copies = robots.copied([*both, *field], folder)
        robots.compiled(program, given.profile, copies, folder)
        among = [*copies[:2], *robots.in_order(copies[2:])]
        settings = Settings(given.matches, given.cycles, given.seed, given.profile, program.sha256, len(among), (2,))
        tell_rounded(given, settings.sizes)
        only = tuple(series_of_both(settings, among))
        most = max(1, -(-sum(series.matches for series in only) // (8 * given.jobs)))
        answer = Challenge(given, [robot.path for robot in among])
        done = session(given, Player(program, given.jobs, folder), plans.Plan(settings, among, most, only), answer.add)
    with stopping(f"stopped while the answer was made: {done}"):
        show([answer.text(given.form)])
