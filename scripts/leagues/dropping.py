"""The command drop: takes matches back, which are played again. What they were stays in the history, with the reason."""

import argparse
from typing import Iterable, Iterator

from tools.faults import Fault
from tools.output import show

from .completeness import Judge, judges_of
from .days import given_day
from .keys import copies_of, possible
from .schema import DAMAGE
from .seasons import running
from .store import Store, opened
from .verdicts import EACH_LOOK

MATCH = f"seating, number, cycles, {DAMAGE}, day, worker, publication"
# A match: its seating and its number.
At = tuple[int, int]


def drop(given: argparse.Namespace) -> None:
    """Takes matches of the season that goes on back: all that fit each word that is given."""
    if not (given.worker or given.played or given.robot):
        raise Fault("`drop` takes one at least of --worker, --played and --robot")
    with opened(given.league) as store, store.change():
        there = seated(store)
        found = chosen(store, there, given)
        if not found:
            raise Fault("no match of this season is so")
        more = [*later(store, there, found)] if running(store).rules.sure else []
        take_back(store, {*found, *more}, what(given), given.why, given_day(given))
    show([f"{len({*found, *more})} matches are taken back; `play` plays those again that are wanted\n"])


def what(given: argparse.Namespace) -> str:
    """Which matches were meant, in words."""
    words = (("worker", given.worker), ("day", given.played), ("robot", given.robot))
    return ", ".join(f"{name} {value}" for name, value in words if value)


def seated(store: Store) -> dict[int, tuple[str, ...]]:
    """The robots of each seating of the season that goes on."""
    season, copies = running(store), copies_of(store)
    them = judges_of(store, season)
    rows = store.rows("SELECT number, hashes, seed, cycles, profile, program FROM seating")
    found = {number: robots(them, hashes.split(","), seed, by, copies) for number, hashes, seed, *by in rows}
    return {number: names for number, names in found.items() if names}


def robots(them: list[Judge], hashes: list[str], seed: str, by: list[object], copies: dict[str, int]) -> tuple[str, ...]:
    """The robots that sit so in the season; none if it is a seating of another one."""
    for judge in them:
        if [judge.rules.cycles, judge.rules.profile, judge.rules.program] == by:
            for keys in possible(hashes, copies):
                if (group := judge.group(keys, seed)) is not None:
                    return tuple(sorted(judge.field.robots[at].robot for at in group))
    return ()


def chosen(store: Store, there: dict[int, tuple[str, ...]], given: argparse.Namespace) -> list[At]:
    """The matches that fit each word that is given."""
    if given.worker and not store.one("SELECT 1 FROM worker WHERE name = ?", given.worker):
        raise Fault(f"there is no worker {given.worker}")
    query = ("SELECT seating, battle.number FROM battle LEFT JOIN worker ON worker.number = worker "
             "WHERE (? IS NULL OR name = ?) AND (? IS NULL OR day = ?)")
    rows = store.rows(query, given.worker, given.worker, given.played, given.played)
    return [(seating, number) for seating, number in rows
            if seating in there and given.robot in (None, *there[seating])]


def later(store: Store, there: dict[int, tuple[str, ...]], found: Iterable[At]) -> Iterator[At]:
    """The matches that were played because of others: those of the same pair from the same look on, and of later ones."""
    first: dict[tuple[str, ...], int] = {}
    for seating, number in found:
        look = (number - 1) // EACH_LOOK * EACH_LOOK
        first[there[seating]] = min(look, first.get(there[seating], look))
    for seating, number in store.rows("SELECT seating, number FROM battle"):
        if there.get(seating) in first and number > first[there[seating]]:
            yield seating, number


def take_back(store: Store, them: set[At], said: str, why: str, day: str) -> None:
    """Moves matches to those that were removed."""
    number = store.run("INSERT INTO removal (day, what, why, publication) VALUES (?, ?, ?, ?)", day, said, why, store.next())
    where = "FROM battle WHERE seating = ? AND number = ?"
    store.database.executemany(f"INSERT INTO removed SELECT {number}, {MATCH} {where}", sorted(them))
    store.database.executemany(f"DELETE {where}", sorted(them))
