"""The command final: a last season with a fresh seed, in which nothing is handed in any more, and the checklist that comes of it."""

import argparse
import time
from dataclasses import replace

from leagues import publications, seasons, sessions, turning
from leagues.days import today
from leagues.entries import last_day
from leagues.locks import is_played
from leagues.missing import missing
from leagues.schedules import scheduled
from leagues.seasons import Season
from leagues.store import Store, opened
from leagues.words import checked
from tools.faults import Fault
from tools.output import say, show
from tools.signals import watch
from tools.tables import aligned, comma_separated
from tournaments.programs import program

from . import schema, seeds
from .accounts import ORGANISER
from .audits import note
from .organisers import COLUMNS, cells, lines
from .terms import terms

LOOKS, LOOK = 20, 0.1


def final(given: argparse.Namespace) -> None:
    """Announces the seed, or plays the final to its end, and prints the checklist. A final that is over is only printed."""
    with opened(given.league) as store:
        schema.ready(store)
        if given.announce:
            announce(store)
            return
        if not seeds.is_final(store, seasons.season(store)):
            with store.change():
                begin(store, given)
        play(store, given)
        with store.change():
            if not seasons.season(store).ended:
                turning.ended(store, day_of(store), False)
        show([checklist(store, given.csv)])


def announce(store: Store) -> None:
    """Draws the seed of the next final, and shows its hash."""
    with store.change():
        drawn = seeds.drawn(store, True)
        note(store, ORGANISER, "announce the final", "")
    show([f"the seed of the final is drawn; the SHA-256 of its digits is {drawn.hash}\n"])


def begin(store: Store, given: argparse.Namespace) -> None:
    """Ends the season that goes on, and begins the final."""
    by = terms(store)
    if by.closes and today() <= by.last_day() and not given.early:
        raise Fault(f"robots are handed in until {by.last_day()}; --early begins the final now")
    if not seasons.season(store).ended:
        turning.ended(store, day_of(store), given.unfinished)
    before, drawn = seasons.season(store), seeds.drawn(store, False)
    rules = checked(replace(before.rules, seed=drawn.seed, matches=given.matches or before.rules.matches))
    seasons.begin(store, given.name, max(day_of(store), before.ended), rules, turning.divided(store, before, rules, 0))
    seeds.use(store, drawn, seasons.season(store))
    note(store, ORGANISER, "final", given.name)


def day_of(store: Store) -> str:
    """Today, or the last day that was written down, if a clock was wrong."""
    return max(today(), seasons.season(store).begun, last_day(store))


def play(store: Store, given: argparse.Namespace) -> None:
    """Plays what is missing, or waits while the ladder's own player does it."""
    found = program(given.crobots)
    waits = False
    while left := missing_of(store, seasons.season(store)):
        if not is_played(store.folder):
            sessions.play_all(store, given, found)
            continue
        if not waits and not given.quiet:
            say(given.script, f"the league is being played: the final waits for {left} matches")
        waits = True
        wait()


def missing_of(store: Store, season: Season) -> int:
    """How many matches of a season are missing; of one that ended none counts."""
    if season.ended:
        return 0
    return sum(series.matches for series in missing(*scheduled(store, season)))


def wait() -> None:
    """Waits a little, unless a signal asks for the end."""
    with watch() as stop:
        for _ in range(LOOKS):
            stop.check()
            time.sleep(LOOK)


def checklist(store: Store, comma: bool) -> str:
    """The checklist with the ranks of the final."""
    ranks = {standing.robot: str(standing.rank) for standing in publications.final(store, seasons.season(store))}
    rows = [[*COLUMNS], *(cells(line) for line in lines(store, ranks))]
    return comma_separated(rows) if comma else aligned(rows, range(len(COLUMNS)))
