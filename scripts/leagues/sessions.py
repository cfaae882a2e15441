"""A session: plays what a league wants, keeps each series when it ends, and looks again what is wanted."""

import argparse
import math
from dataclasses import dataclass, replace

from results.battles import Group
from tools.faults import Fault
from tools.output import say, show
from tools.signals import Stopped
from tournaments.plans import Plan
from tournaments.playing import Player
from tournaments.programs import Program, program
from tournaments.progress import Progress
from tournaments.records import Record, Series
from tournaments.robots import Robot
from tournaments.sessions import done, played_series

from .days import given_day
from .farm import planned
from .locks import alone
from .missing import missing, nearest
from .results import Results, keep, seated
from .schedules import Schedule, scheduled
from .scores import points, scores
from .seasons import Season, refuse_ended, running
from .sources import laid
from .store import Store, opened


@dataclass(frozen=True)
class Wanted:
    """What is to be played now: a plan of it, and the folder with the robots."""

    plan: Plan
    folder: str

    @property
    def records(self) -> list[Record]:
        """The series; of an empty plan none."""
        return [*self.plan.planned()] if self.plan.only else []


def by_gap(schedule: Schedule, results: Results, series: list[Series]) -> list[Series]:
    """The series of robots that are close in the table first; a robot that hasn't played is close to all."""
    parts = scores(schedule, results)
    worth = points(parts, len(schedule.keys), schedule.field.rules)
    known = {at for group in parts for at in group}

    def gap(group: Group) -> float:
        there = [worth[at] for at in group]
        return float(max(there) - min(there)) if known.issuperset(group) else 0.0

    return nearest(series, gap)


def wanted(store: Store, season: Season, jobs: int, piece: int | None) -> Wanted:
    """What a season wants now, cut into series."""
    schedule, results = scheduled(store, season)
    series = by_gap(schedule, results, [*missing(schedule, results)])
    folder = laid(store, {robot.sha256 for robot in schedule.field.robots})
    robots = [Robot(f"{folder}/{entrant.sha256}", entrant.sha256) for entrant in schedule.field.robots]
    most = piece or max(1, math.ceil(sum(run.matches for run in series) / (8 * jobs)))
    return Wanted(Plan(schedule.settings, robots, most, tuple(series)), folder)


def checked(season: Season, found: Program) -> None:
    """Refuses a program that isn't the season's."""
    if found.sha256 != season.rules.program:
        raise Fault(f"{found.path} is not the program of this season: its hash is {found.sha256[:16]}, "
                    f"that of the season's is {season.rules.program[:16]}")


def play(given: argparse.Namespace) -> None:
    """Plays what is missing, or prints it."""
    given_day(given)
    found = program(given.crobots)
    with opened(given.league) as store:
        if not given.plan:
            play_all(store, given, found)
            return
        season = running(store)
        checked(season, found)
        plan = relative(wanted(store, season, given.jobs, given.piece).plan)
        show(planned(plan, store.folder, found.path, given.piece, given.chunk))


def relative(plan: Plan) -> Plan:
    """A plan whose robots are named by their hashes, as the league's folder of sources has them."""
    return replace(plan, robots=[Robot(robot.sha256, robot.sha256) for robot in plan.robots])


def play_all(store: Store, given: argparse.Namespace, found: Program) -> None:
    """Plays until nothing is wanted any more, or a signal asks for the end."""
    with alone(store.folder):
        matches = 0
        while True:
            season = running(store)
            checked(season, found)
            now = wanted(store, season, given.jobs, given.piece)
            if not now.records:
                if not given.quiet:
                    say(given.script, f"{matches} matches were played, and none is missing")
                return
            matches += play_round(store, given, found, season, now)


def play_round(store: Store, given: argparse.Namespace, found: Program, season: Season, now: Wanted) -> int:
    """Plays what is wanted now; answers how many matches that were."""
    progress = Progress(len(now.records), given.quiet, given.script)
    try:
        with played_series(Player(found, given.jobs, now.folder), now.records, progress) as ended:
            for record in ended:
                keep_record(store, season, record, given_day(given))
    except Stopped as why:
        raise Stopped(why.number, f"stopped: {done(progress)}, and are kept") from why
    finally:
        progress.clear()
    return progress.matches


def keep_record(store: Store, season: Season, record: Record, day: str) -> tuple[int, int]:
    """Keeps what a series came to; answers how many matches are new, and how many were there."""
    where = seated([robot.sha256 for robot in record.robots], record.series.seed)
    with store.change():
        refuse_ended(store, season)
        return keep(store, season.rules, where, record.series.first, record.results, day)
