"""Whether the rows of an archive fit each other: robots and their entries, seasons and their days, tables and the chain."""

from dataclasses import replace
from typing import Callable, Iterator

from results.standings import NOTHING, Standing

from . import chain
from .entries import ADD, BEGIN, CHANGE, END, ENTRY, WITHDRAW, corrections, entries
from .publications import SCALE, every, published, values
from .seasons import seasons
from .store import Store

NEAR = 1e-6
# Tables whose rows are numbered from 1 on; of publications some may lack.
NUMBERED = ("entry", "season", "ruling", "correction", "worker", "removal", "handed")
USED = {
    "robot": ("SELECT id FROM robot WHERE id NOT IN (SELECT robot FROM entry)", "the robot {} never joined"),
    "source": ("SELECT sha256 FROM source WHERE sha256 NOT IN (SELECT sha256 FROM entry)", "no robot had the source {}"),
    "worker": ("SELECT name FROM worker WHERE number NOT IN (SELECT worker FROM battle WHERE worker IS NOT NULL UNION "
               "SELECT worker FROM removed WHERE worker IS NOT NULL)", "no match is from the worker {}"),
    "seating": ("SELECT number FROM seating WHERE number NOT IN (SELECT seating FROM battle UNION "
                "SELECT seating FROM removed)", "no match was played of the seating {}"),
    "removal": ("SELECT number FROM removal WHERE number NOT IN (SELECT removal FROM removed)",
                "no match was taken back by removal {}"),
    "standing": ("SELECT DISTINCT publication FROM standing WHERE played != won + tied + lost",
                 "publication {} has a row whose matches don't add up"),
}


def inconsistent(store: Store) -> Iterator[str]:
    """All that doesn't fit."""
    checks: tuple[Callable[[Store], Iterator[str]], ...] = (numbers, unused, histories, days, turns, corrected, chained)
    for check in checks:
        yield from check(store)


def numbers(store: Store) -> Iterator[str]:
    """Tables that lack a row, or have one before the first."""
    for table in NUMBERED:
        many, first, last = store.one(f"SELECT count(*), min(number), max(number) FROM {table}")
        if many and (first, last) != (1, many):
            yield f"{many} rows of {table}.csv are numbered from {first} to {last}"


def unused(store: Store) -> Iterator[str]:
    """Rows that nothing else names."""
    for query, said in USED.values():
        yield from (said.format(value) for value, in store.rows(query))


def histories(store: Store) -> Iterator[str]:
    """Entries that can't follow those before: a robot joins once, and only one that plays leaves."""
    known: set[str] = set()
    now: dict[str, str] = {}
    for entry in entries(store):
        may = {ADD: entry.robot not in known, CHANGE: entry.robot in known and now.get(entry.robot) != entry.sha256,
               WITHDRAW: now.get(entry.robot) == entry.sha256}
        if not may[entry.what]:
            yield f"entry {entry.number} can't be: {entry.what} of {entry.robot}"
        known.add(entry.robot)
        now[entry.robot] = "" if entry.what == WITHDRAW else entry.sha256


def copies(store: Store) -> Iterator[str]:
    """Entries whose copy isn't the number of robots that had these bytes before."""
    had: dict[str, list[str]] = {}
    for number, robot, sha256, copy in store.rows("SELECT number, robot, sha256, copy FROM entry ORDER BY number"):
        before = had.setdefault(sha256, [])
        if robot not in before:
            before.append(robot)
        if copy != before.index(robot):
            yield f"entry {number} has the copy {copy} and not {before.index(robot)}"


def days(store: Store) -> Iterator[str]:
    """Entries that are of an earlier day than the one before."""
    last = ""
    for entry in entries(store):
        if entry.day < last:
            yield f"entry {entry.number} is of {entry.day}, and the one before of {last}"
        last = entry.day


def turns(store: Store) -> Iterator[str]:
    """Seasons that don't follow each other."""
    them, many = seasons(store), store.one("SELECT count(*) FROM entry")[0]
    for season in them:
        if season.ended and not season.begun <= season.ended:
            yield f"season {season.name} began on {season.begun} and ended on {season.ended}"
        if not 0 <= season.first_entry <= (many if season.last_entry is None else season.last_entry) <= many:
            yield f"season {season.name} began with entry {season.first_entry} and ended with entry {season.last_entry}"
    for one, other in zip(them, them[1:]):
        if not one.ended or one.ended > other.begun or (one.last_entry or 0) > other.first_entry:
            yield f"season {other.name} began before season {one.name} ended"
    for number, count in store.rows("SELECT season, entries FROM ruling WHERE rules != ''"):
        one = them[number - 1] if 0 < number <= len(them) else them[-1]
        if not one.first_entry <= count <= (many if one.last_entry is None else one.last_entry):
            yield f"season {one.name} got other rules when it didn't go on"
    for number, division in store.rows("SELECT season, division FROM member"):
        if not 1 <= division <= them[min(number, len(them)) - 1].rules.divisions:
            yield f"season {number} has no division {division}"


def corrected(store: Store) -> Iterator[str]:
    """Corrections of what isn't there, or wasn't there then."""
    numbered = {ENTRY: "entry", BEGIN: "season", END: "ending"}
    many = store.one("SELECT count(*) FROM entry")[0]
    for correction in corrections(store):
        key = "season" if correction.what == END else "number"
        there = store.one(f"SELECT 1 FROM {numbered[correction.what]} WHERE {key} = ?", correction.of)
        if not there or not correction.entries <= many or (correction.what == ENTRY and not correction.of <= correction.entries):
            yield f"there is no {correction.what} {correction.of} to correct"
        elif correction.day is None and correction.what != ENTRY:
            yield f"the {correction.what} of season {correction.of} has no day"


def chained(store: Store) -> Iterator[str]:
    """Publications whose hash isn't that of their rows, or that don't name the one before."""
    found, before = chain.hashes(store), ""
    for publication in every(store):
        if publication.hash:
            if publication.hash != found.pop(publication.number, ""):
                yield f"publication {publication.number} of {publication.day} has another hash than its rows: something of it was changed"
            if publication.before != before:
                yield f"publication {publication.number} of {publication.day} doesn't name the hash of the one before"
            before = publication.hash
        elif before:
            yield f"publication {publication.number} of {publication.day} has no hash"
    if found and before:
        yield "there are rows that no publication shows"


def last_table(store: Store, table: list[Standing]) -> Iterator[str]:
    """Rows of the last publication that aren't those of a table."""
    them = [publication for publication in every(store) if publication.hash]
    if them:
        shown, wanted = ({row.robot: row if them[-1].scale == SCALE else replace(row, rating=NOTHING, close=False) for row in rows}
                         for rows in (published(store, them[-1].number), table))
        for robot in sorted(shown.keys() | wanted.keys()):
            if not are_equal(shown.get(robot), wanted.get(robot)):
                yield f"the last publication has other numbers of {robot} than its results come to"


def are_equal(one: Standing | None, other: Standing | None) -> bool:
    """Reports whether two rows are the same, but for the last digits of ratings, which machines may round otherwise."""
    if one is None or other is None:
        return one is other
    pairs = ((one.rating.value, other.rating.value), (one.rating.low, other.rating.low), (one.rating.high, other.rating.high))
    bare = (values(replace(row, rating=NOTHING)) for row in (one, other))
    return next(bare) == next(bare) and all(abs(this - that) < NEAR for this, that in pairs)
