"""The commands that show something: status and table."""

import argparse

from results.standings import Standing
from tools.faults import Fault
from tools.output import show

from . import decided, tables
from .locks import is_played
from .missing import missing
from .publications import final, publications
from .schedules import scheduled
from .seasons import Field, Season, field, season
from .standings import standings
from .store import Store, opened


def table(given: argparse.Namespace) -> None:
    """Prints a season's table. That of one that ended is as it was then."""
    with opened(given.league) as store, store.view():
        chosen = season(store, given.season)
        rows = rated(store, chosen)
        pairs = [*decided.decided(*scheduled(store, chosen))] if given.pairs or given.json else []
    if given.pairs and not chosen.rules.sure:
        raise Fault("--pairs shows what the sequential test says, and this season has none")
    if given.json:
        show([tables.everything(chosen, rows, pairs)])
    elif given.pairs:
        show([decided.comma(pairs) if given.csv else decided.table(pairs)])
    else:
        show([tables.comma(rows) if given.csv else tables.table(chosen, rows)])


def rated(store: Store, season: Season) -> list[Standing]:
    """The standings of a season, as they are now or were at its end."""
    return final(store, season) or standings(*scheduled(store, season))


def status(given: argparse.Namespace) -> None:
    """Says how things are."""
    with opened(given.league) as store, store.view():
        last = season(store)
        there = field(store, last)
        said = [*of_season(last), *last.rules.said(), *of_robots(store, there), *of_matches(store, there), *of_pairs(store, there)]
        show(f"{name}: {value}\n" for name, value in said)


def of_season(season: Season) -> list[tuple[str, str]]:
    return [("season", f"{season.name}, since {season.begun}" + (f" until {season.ended}" if season.ended else ""))]


def of_robots(store: Store, there: Field) -> list[tuple[str, str]]:
    """How many robots play, and how many left."""
    ever = store.one("SELECT count(*) FROM robot")[0]
    return [("robots", f"{len(there.robots)} play, {ever - len(there.robots)} left")]


def of_pairs(store: Store, there: Field) -> list[tuple[str, str]]:
    """What the sequential test says of all pairs, if the season has it."""
    if not there.rules.sure:
        return []
    return [("verdicts", decided.in_short([*decided.decided(*scheduled(store, there.season))]))]


def of_matches(store: Store, there: Field) -> list[tuple[str, str]]:
    """How many matches were played and are missing, and whether somebody plays."""
    left = [*missing(*scheduled(store, there.season))]
    shown = publications(store)
    played = store.one("SELECT count(*) FROM battle")[0]
    return [("played", f"{played} matches in all seasons"),
            ("missing", f"{sum(series.matches for series in left)} matches of {len(left)} seatings"),
            ("now", "is being played" if is_played(store.folder) else "nobody plays"),
            ("published", shown[-1].day if shown else "never")]
