"""Takes the records that a plan's command lines wrote. Each is checked by itself, and may be given again.

Some of them are played again before anything is taken, or all of them: who played them needn't be trusted. Those that
are taken are kept with the worker they came from, so that they can be taken back."""

from __future__ import annotations

import argparse
import itertools
import os
import random
from contextlib import closing
from dataclasses import dataclass, field
from typing import IO, Iterator, NamedTuple, Sequence

from tools.faults import Fault
from tools.output import say, show
from tools.signals import watch
from tournaments import seats
from tournaments.merging import opened
from tournaments.playing import Player
from tournaments.programs import Program, program
from tournaments.records import BEGIN, NoRecord, Record, played

from .archives import shown
from .completeness import Judge, judges_of
from .days import given_day
from .entries import AUTHOR_MAX
from .keys import copies_of, possible
from .results import keep, seated
from .rules import Rules
from .seasons import Season, refuse_ended, running
from .sessions import checked as checked_program
from .sources import laid
from .store import Store
from .store import opened as opened_league

# How many lines are read before some are played again, one of how many that is, and how many are told of each file.
BATCH = 1000
SHARE = 20
MOST_TOLD = 10
STANDARD_INPUT = "standard input"


class Line(NamedTuple):
    """A record, and the number of its line."""

    number: int
    record: Record


@dataclass
class Taken:
    """What came of it: matches that are new, and that were there; and what is wrong with which line."""

    new: int = 0
    known: int = 0
    wrong: int = 0
    said: list[str] = field(default_factory=list)

    def refuse(self, place: str, why: object) -> None:
        """A line is refused. Of a file's the first ones are told."""
        self.wrong += 1
        self.said.append(f"{place} {why}")


class Taker:
    """Takes records for the season that goes on."""

    def __init__(self, store: Store, season: Season, day: str, again: Replays | None) -> None:
        self._store, self._day, self._again = store, day, again
        self._season, self._rules = season, season.rules
        self._copies = copies_of(store)
        self._judges = judges_of(store, season)

    def take(self, lines: IO[str], worker: str, place: str) -> Taken:
        """Takes the records of a file. What is right is kept, whatever else is wrong, unless one was not played as it
        says."""
        taken = Taken()
        numbered = enumerate(lines, 1)
        while batch := [*itertools.islice(numbered, BATCH)]:
            if not any(line.startswith(BEGIN) for _, line in batch):
                taken.refuse(place, "has no records")
                break
            right = [*self._right(batch, place, taken)]
            wrong = self._again.wrong(right) if self._again else {}
            for line in right:
                if line.number in wrong:
                    taken.refuse(f"line {line.number} of {place}", wrong[line.number])
            if wrong and self._again and not self._again.is_whole:
                taken.said.append(f"{place} is not taken from there on")
                break
            self._keep([line for line in right if line.number not in wrong], worker, place, taken)
        return taken

    def _right(self, batch: Sequence[tuple[int, str]], place: str, taken: Taken) -> Iterator[Line]:
        """The records of lines that are such of the season."""
        for number, line in batch:
            try:
                yield Line(number, asked_for(checked(line, self._rules, self._copies), self._judges, self._copies))
            except NoRecord as why:
                taken.refuse(f"line {number} of {place}", why)

    def _keep(self, lines: Sequence[Line], worker: str, place: str, taken: Taken) -> None:
        """Keeps records, with their worker if anything is new."""
        with self._store.change():
            refuse_ended(self._store, self._season)
            by, is_new = worker_of(self._store, worker)
            before = taken.new
            for number, record in lines:
                where = seated([robot.sha256 for robot in record.robots], record.series.seed)
                try:
                    new, known = keep(self._store, self._rules, where, record.series.first, record.results, self._day, by)
                    taken.new, taken.known = taken.new + new, taken.known + known
                except Fault as why:
                    taken.refuse(f"line {number} of {place}", why)
            if is_new and taken.new == before:
                self._store.run("DELETE FROM worker WHERE number = ?", by)


class Replays:
    """Plays records again, all of them or some."""

    def __init__(self, found: Program, jobs: int, folder: str, is_whole: bool) -> None:
        self._found, self._jobs, self._folder, self.is_whole = found, jobs, folder, is_whole

    def wrong(self, lines: Sequence[Line]) -> dict[int, str]:
        """What is wrong with which line, of those that are played again."""
        many = len(lines) if self.is_whole else -(-len(lines) // SHARE)
        chosen = random.SystemRandom().sample(lines, many)
        with watch() as stop, closing(Player(self._found, self._jobs, self._folder).play(
                [line.record._replace(results="") for line in chosen], stop.check)) as played_again:
            now = {(record.robots, record.series): record.results for record in played_again}
        return {line.number: f"was not played as it says: {differing(line.record, now[line.record.robots, line.record.series])}"
                for line in chosen if now[line.record.robots, line.record.series] != line.record.results}


def differing(record: Record, now: str) -> str:
    """The first match of a record that ends otherwise when it is played again."""
    pairs = enumerate(zip(record.results.split(","), now.split(",")), record.series.first)
    return next(f"match {number} is {one}, and played again {other}" for number, (one, other) in pairs if one != other)


def take(given: argparse.Namespace) -> None:
    """Takes records, and says what came of it."""
    with opened_league(given.league) as store:
        season = running(store)
        again = None if given.unchecked else replays(store, season, given)
        taker = Taker(store, season, given_day(given), again)
        them = [taken_from(taker, path, given.worker) for path in given.files or [None]]
    for taken in them:
        for why in [*taken.said[:MOST_TOLD], *([f"and {len(taken.said) - MOST_TOLD} more lines"] if taken.said[MOST_TOLD:] else [])]:
            say(given.script, why)
    show([f"{sum(taken.new for taken in them)} matches are new, {sum(taken.known for taken in them)} were there\n"])
    if wrong := sum(taken.wrong for taken in them):
        raise Fault(f"{wrong} lines were refused")


def replays(store: Store, season: Season, given: argparse.Namespace) -> Replays:
    """What plays records again, by the season's program."""
    found = program(given.crobots)
    checked_program(season, found)
    hashes = (sha256 for sha256, in store.rows("SELECT sha256 FROM source"))
    return Replays(found, given.jobs, laid(store, hashes), given.check)


def taken_from(taker: Taker, path: str | None, worker: str | None) -> Taken:
    """Takes the records of a file, or of standard input. If no worker is given it is the file's name."""
    with opened(path) as lines:
        return taker.take(lines, worker or shown(os.path.basename(path or STANDARD_INPUT))[:AUTHOR_MAX], path or STANDARD_INPUT)


def worker_of(store: Store, name: str) -> tuple[int, bool]:
    """The number of a worker, and whether it is a new one."""
    found = store.one("SELECT number FROM worker WHERE name = ?", name)
    if found:
        return int(found[0]), False
    return store.run("INSERT INTO worker (name, publication) VALUES (?, ?)", name, store.next()), True


def checked(line: str, by: Rules, copies: dict[str, int]) -> Record:
    """The record of a line, if it is one of a season with these rules."""
    record = played(line)
    settings = record.settings
    for name, theirs, ours in (("limit", settings.cycles, by.cycles), ("profile", settings.profile, by.profile),
                               ("program", settings.program[:16], by.program[:16])):
        if theirs != ours:
            raise NoRecord(f"was played with another {name}: {theirs}, and not {ours}")
    hashes = [robot.sha256 for robot in record.robots]
    if not copies.keys() >= {*hashes}:
        raise NoRecord("is of a robot that this league never had")
    if record.series.seed not in (seats.drawn(by.seed, keys) for keys in possible(hashes, copies)):
        raise NoRecord("has a seed that these robots don't have in this season")
    return record


def asked_for(record: Record, judges: Sequence[Judge], copies: dict[str, int]) -> Record:
    """A record, if the season asked for its matches at any time, by any of its rules."""
    found = ((judge, judge.group(keys, str(record.series.seed))) for judge in judges
             for keys in possible([robot.sha256 for robot in record.robots], copies))
    if record.series.last > max((judge.most(group) for judge, group in found if group is not None), default=0):
        raise NoRecord("has matches that this season doesn't ask for")
    return record
