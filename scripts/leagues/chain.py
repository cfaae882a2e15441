"""The chain of publications: each has a hash of all rows that it shows first, of which one is the hash of the one before.

So the hash of a publication says all that it shows, and all that was ever shown before. docs/archives.md has its bytes."""

import hashlib
from heapq import merge
from itertools import groupby
from operator import itemgetter
from typing import Iterable, Iterator, NamedTuple

from .schema import DAMAGE
from .store import Store

BEGIN = "crobots league 1"
# The tables whose rows are hashed, in this order. Of removed matches there are two lines: as a match, and as removed.
TABLES = ("robot", "entry", "season", "ruling", "ending", "correction", "member", "worker", "seating", "battle",
          "removal", "removed", "publication", "standing", "handed", "code")
BATTLE = f"seating, number, cycles, {DAMAGE}, day, worker, publication"
QUERIES = {
    "battle": f"SELECT publication, {BATTLE} FROM (SELECT 1 AS stands, 0 AS removal, {BATTLE} FROM battle UNION ALL "
              f"SELECT 0, removal, {BATTLE} FROM removed) WHERE publication > ? "
              "ORDER BY publication, seating, number, stands, removal",
    "removed": "SELECT removal.publication, removal, seating, removed.number FROM removed "
               "JOIN removal ON removal.number = removal WHERE removal.publication > ? ORDER BY 1, 2, 3, 4",
    "publication": "SELECT number, number, season, day, final, missing, scale, before FROM publication "
                   "WHERE number > ? ORDER BY number",
}


class Link(NamedTuple):
    """A publication in the chain."""

    number: int
    hash: str


def links(store: Store) -> list[Link]:
    """The publications that have a hash, in their order. Those of the version before this one have none."""
    return [Link(*row) for row in store.rows("SELECT number, hash FROM publication WHERE hash != '' ORDER BY number")]


def query(store: Store, table: str) -> str:
    """What gives the rows of a table after a publication, by the publication that shows them first, and then by their
    key."""
    if table in QUERIES:
        return QUERIES[table]
    columns = store.rows(f"PRAGMA table_info({table})")
    key = [name for _, name, *_, place in sorted(columns, key=itemgetter(5)) if place]
    names = ", ".join(name for _, name, *_ in columns)
    return f"SELECT publication, {names} FROM {table} WHERE publication > ? ORDER BY {', '.join(['publication', *key])}"


def line(table: str, cells: Iterable[object]) -> str:
    """A row as it is hashed: its cells after the table's name, with tabs between them; no value is an empty cell."""
    return "\t".join([table, *("" if cell is None else str(cell) for cell in cells)]) + "\n"


def lines(store: Store, after: int) -> Iterator[tuple[int, str]]:
    """The rows after a publication, each with the number of the publication that shows it first."""

    def of_table(place: int, table: str) -> Iterator[tuple[int, int, str]]:
        for publication, *cells in store.database.execute(query(store, table), (after,)):
            yield int(publication), place, line(table, cells)

    rows = merge(*(of_table(place, table) for place, table in enumerate(TABLES)), key=itemgetter(0, 1))
    return ((publication, text) for publication, _, text in rows)


def segments(store: Store, after: int = 0) -> Iterator[tuple[int, Iterator[str]]]:
    """The rows after a publication, each time those up to a link of the chain: its number, and its lines.

    What no link shows comes last, with the number 0."""
    ends = [link.number for link in links(store) if link.number > after]

    def end(row: tuple[int, str]) -> int:
        while ends and ends[0] < row[0]:
            ends.pop(0)
        return ends[0] if ends else 0

    for number, rows in groupby(lines(store, after), end):
        yield number, (text for _, text in rows)


def hashed(texts: Iterable[str]) -> str:
    """The hash of a publication, by the lines of all rows that it shows first."""
    found = hashlib.sha256(f"{BEGIN}\n".encode())
    for text in texts:
        found.update(text.encode())
    return found.hexdigest()


def hashes(store: Store) -> dict[int, str]:
    """The hash that each publication has by its rows; with the number 0 there are rows that none shows."""
    return {number: hashed(texts) for number, texts in segments(store)}
