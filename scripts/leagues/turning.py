"""The command season: lists the seasons, ends one, begins one."""

import argparse
from dataclasses import replace

from tools.faults import Fault
from tools.output import show
from tools.tables import aligned
from tournaments.programs import program
from tools.rules import MOST_SEED

from . import publications, seasons
from .days import given_day
from .entries import entries, playing
from .missing import missing
from .rules import Rules, played_by
from .schedules import scheduled
from .seasons import Season
from .standings import standings
from .store import Store, opened
from .words import checked, ruled


def season(given: argparse.Namespace) -> None:
    """Does what is asked of the seasons."""
    if (given.what == "begin") != bool(given.name):
        raise Fault("`begin` takes a season's name, and nothing else does")
    with opened(given.league) as store:
        if given.what:
            with store.change():
                (end if given.what == "end" else begin)(store, given)
        show([listed(seasons.seasons(store))])


def listed(them: list[Season]) -> str:
    """The seasons with their days and rules."""
    rows = [[season.name, season.begun, season.ended or "goes on", f"{season.rules.mode}, {season.rules.matches} a group"] for season in them]
    return aligned([["season", "begun", "ended", "rules"], *rows], range(4))


def end(store: Store, given: argparse.Namespace) -> None:
    """Ends the season that goes on, on a day that is given."""
    ended(store, given_day(given), given.unfinished)


def ended(store: Store, day: str, unfinished: bool) -> None:
    """Ends the season that goes on, with its table."""
    season = seasons.running(store)
    schedule, results = scheduled(store, season)
    left = sum(series.matches for series in missing(schedule, results))
    if left and not unfinished:
        raise Fault(f"{left} matches are missing; `play` plays them, and --unfinished ends the season without them")
    seasons.end(store, season, day, left)
    publications.publish(store, season, day, standings(schedule, results), left, final=True)


def begin(store: Store, given: argparse.Namespace) -> None:
    """Begins a season after the last one ended. Robots change their divisions by its table."""
    last = seasons.season(store)
    if not last.ended:
        raise Fault(f"the season {last.name} goes on; `season end` ends it")
    day = given_day(given)
    if day < last.ended:
        raise Fault(f"the season {last.name} ended on {last.ended}, so none can begin on {day}")
    seed = (last.rules.seed + 1) % (MOST_SEED + 1)
    by = replace(last.rules, seed=seed, divisions=given.divisions or last.rules.divisions)
    by = checked(ruled(by, given))
    if given.crobots:
        by = played_by(by, program(given.crobots))
    seasons.begin(store, given.name, day, by, divided(store, last, by, given.move))


def divided(store: Store, last: Season, by: Rules, move: int) -> dict[str, int]:
    """The division of each robot in the next season."""
    if by.divisions == 1:
        return {}
    now = playing(entries(store))
    table = [standing for standing in publications.final(store, last) if standing.robot in now]
    if by.divisions == last.rules.divisions:
        parts = seasons.promoted([[standing.robot for standing in table if standing.division == division] for division in range(1, by.divisions + 1)], move)
    else:
        parts = seasons.split([standing.robot for standing in table], by.divisions)
    return {robot: division for division, part in enumerate(parts, 1) for robot in part}
