"""The command correct: takes the latest entries back, or gives them another day, or the season. All of it stays in the
history."""

import argparse

from tools.faults import Fault
from tools.output import show

from . import seasons
from .days import given_day, today
from .entering import named
from .entries import BEGIN, END, ENTRY, entries
from .store import Store, opened


def correct(given: argparse.Namespace) -> None:
    """Puts right what was entered last."""
    if given.undo == bool(given.to):
        raise Fault("`correct` takes --to with the right day, or --undo")
    if given.to and given.to > today() and not given.future:
        raise Fault(f"{given.to} is in the future; --future takes it")
    with opened(given.league) as store, store.change():
        if given.what == ENTRY:
            said = correct_entries(store, given)
        elif given.undo or given.last != 1:
            raise Fault(f"of a season's {given.what} only the day can be corrected")
        else:
            said = correct_season(store, given)
        named(store, seasons.season(store).rules)
    show(f"{line}\n" for line in said)


def correct_entries(store: Store, given: argparse.Namespace) -> list[str]:
    """Corrects the latest entries."""
    them = entries(store)
    chosen, before = them[-given.last:], them[:-given.last]
    if len(chosen) < given.last:
        raise Fault(f"there are only {len(chosen)} entries")
    ended = max([season.last_entry or 0 for season in seasons.seasons(store)])
    if chosen[0].number <= ended:
        raise Fault(f"a season ended with entry {ended}, whose table stays")
    if given.to and before and given.to < before[-1].day:
        raise Fault(f"the entry before is of {before[-1].day}, so none can be of {given.to}")
    for entry in reversed(chosen):
        write_down(store, ENTRY, entry.number, given)
    return [f"entry {entry.number}, {entry.what} of {entry.robot}: {f'is of {given.to}' if given.to else 'is taken back'}"
            for entry in chosen]


def correct_season(store: Store, given: argparse.Namespace) -> list[str]:
    """Corrects the day on which the last season began or ended."""
    season = seasons.season(store)
    others = [one.ended for one in seasons.seasons(store)[:-1]]
    inside = [one.day for one in entries(store, season.last_entry)]
    if given.what == END and not season.ended:
        raise Fault(f"the season {season.name} goes on")
    earliest, latest = (max([*others, ""]), season.ended) if given.what == BEGIN else (max([season.begun, *inside]), "")
    if given.to < earliest or (latest and given.to > latest):
        raise Fault(f"the {given.what} of season {season.name} can't be on {given.to}")
    write_down(store, given.what, season.number, given)
    return [f"season {season.name}: the {given.what} is on {given.to}"]


def write_down(store: Store, what: str, of: int, given: argparse.Namespace) -> None:
    count = store.one("SELECT count(*) FROM entry")[0]
    columns = "day, what, of, other_day, why, entries, publication"
    store.run(f"INSERT INTO correction ({columns}) VALUES (?, ?, ?, ?, ?, ?, ?)", given_day(given), what, of,
              given.to, given.why, count, store.next())
