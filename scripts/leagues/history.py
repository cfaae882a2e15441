"""The command history: says what was ever done, by days. Nothing of it goes away."""

import argparse
from typing import Iterator, NamedTuple

from tools.output import show

from .entries import ADD, CHANGE, WITHDRAW
from .store import Store, opened

WORDS = {ADD: "joined", CHANGE: "changed", WITHDRAW: "left"}
QUERIES = {
    "season": "SELECT publication, begun, name FROM season ORDER BY number",
    "entry": "SELECT publication, day, number, what, robot FROM entry ORDER BY number",
    "ruling": "SELECT ruling.publication, day, name FROM ruling JOIN season ON season.number = season "
              "WHERE ruling.rules != '' ORDER BY ruling.number",
    "correction": "SELECT publication, day, what, of, other_day, why FROM correction ORDER BY number",
    "removal": "SELECT publication, day, (SELECT count(*) FROM removed WHERE removed.removal = removal.number), what, why FROM removal "
               "ORDER BY number",
    "ending": "SELECT ending.publication, day, name, missing FROM ending JOIN season ON number = season ORDER BY number",
    "publication": "SELECT number, day, number, hash FROM publication ORDER BY number",
}


class Done(NamedTuple):
    """What was done on a day, and which publication showed it first."""

    publication: int
    day: str
    said: str


def history(given: argparse.Namespace) -> None:
    """Says what was done."""
    with opened(given.league) as store, store.view():
        them = [event for table in QUERIES for event in done(store, table)]
    show(f"{event.day}  {event.said}\n" for event in sorted(them, key=lambda event: (event.publication, event.day)))


def done(store: Store, table: str) -> Iterator[Done]:
    """What was done of one kind."""
    for publication, day, *cells in store.rows(QUERIES[table]):
        yield Done(publication, day, said(table, *cells))


def said(table: str, *cells: object) -> str:
    """What was done, in words."""
    match table, *cells:
        case "season", name:
            return f"season {name} began"
        case "entry", number, what, robot:
            return f"entry {number}: {robot} {WORDS[str(what)]}"
        case "ruling", name:
            return f"season {name} got other rules"
        case "correction", what, of, day, why:
            return f"{what} {of} {f'is of {day}' if day else 'was taken back'}: {why}"
        case "removal", many, what, why:
            return f"{many} matches were taken back, of {what}: {why}"
        case "ending", name, missing:
            return f"season {name} ended" + (f", {missing} matches missing" if missing else "")
    return f"publication {cells[0]} {cells[1]}".rstrip()
