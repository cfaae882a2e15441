"""Tables as they were published: they stay as they were shown."""

from dataclasses import dataclass, replace
from decimal import Decimal
from typing import Sequence

from results.scores import Score
from results.standings import Rating, Standing, ranked
from tournaments.ratings import VERSION

from . import chain
from .seasons import Season
from .store import Store

COLUMNS = "division, rank, robot, sha256, won, tied, lost, points, rating, low, high, close"
# The number of the way in which ratings are worked out: 1 was that of leagues without a chain. Tables of another scale keep their numbers.
SCALE = VERSION


@dataclass(frozen=True)
class Publication:
    """A table of a day; final if its season ended with it. The hash is that of the chain, if it is in it."""

    number: int
    season: int
    day: str
    final: bool
    missing: int | None
    scale: int
    before: str
    hash: str


def publish(store: Store, season: Season, day: str, standings: Sequence[Standing], missing: int,
            final: bool = False) -> Publication:
    """Keeps a table, while so many matches are missing, in the chain. One that is like the last one is that one."""
    last = latest(store)
    wanted = season.number, day, final, missing, SCALE
    if last and (last.season, last.day, last.final, last.missing, last.scale) == wanted and is_last(store, last, standings):
        return last
    before = chain.links(store)
    number = store.run("INSERT INTO publication (season, day, final, missing, scale, before, hash) "
                       "VALUES (?, ?, ?, ?, ?, ?, '')", *wanted, before[-1].hash if before else "")
    store.database.executemany(f"INSERT INTO standing (publication, played, {COLUMNS}) VALUES ({', '.join('?' * 14)})",
                               [(number, standing.score.played, *values(standing)) for standing in standings])
    found = chain.hashed(text for _, text in chain.lines(store, before[-1].number if before else 0))
    store.run("UPDATE publication SET hash = ? WHERE number = ?", found, number)
    return Publication(number, *wanted, before[-1].hash if before else "", found)


def is_last(store: Store, last: Publication, standings: Sequence[Standing]) -> bool:
    """Reports whether nothing was added since the last publication, and its table is this one."""
    shown = [values(standing) for standing in published(store, last.number)]
    return not any(chain.lines(store, last.number)) and sorted(shown) == sorted(map(values, standings))


def latest(store: Store) -> Publication | None:
    """The last publication."""
    found = every(store)
    return found[-1] if found else None


def values(standing: Standing) -> tuple[object, ...]:
    score = standing.score
    return (standing.division, standing.rank, standing.robot, standing.sha256, score.won, score.tied, score.lost, str(standing.points),
            *standing.rating, int(standing.close))


def every(store: Store) -> list[Publication]:
    """All publications in their order."""
    rows = store.rows("SELECT number, season, day, final, missing, scale, before, hash FROM publication ORDER BY number")
    return [Publication(number, season, day, bool(final), *more) for number, season, day, final, *more in rows]


def publications(store: Store) -> list[Publication]:
    """The publications in their order; of those of one day, in one season, the last one."""
    return [*{(publication.season, publication.day, publication.final): publication for publication in every(store)}.values()]


def published(store: Store, number: int) -> list[Standing]:
    """The table of a publication."""
    rows = store.rows(f"SELECT {COLUMNS} FROM standing WHERE publication = ? ORDER BY division, rank, robot", number)
    found = [*ranked(Standing(robot, rank, Score(won, tied, lost), Decimal(points), Rating(rating, low, high), bool(close), division, sha256)
                     for division, rank, robot, sha256, won, tied, lost, points, rating, low, high, close in rows)]
    # tables of the first scale don't say who is close
    return [replace(standing, close=overlaps(above, standing)) if row[-1] is None else standing
            for above, standing, row in zip([None, *found], found, rows)]


def overlaps(above: Standing | None, standing: Standing) -> bool:
    """Reports whether a robot was close to the one above by the first scale: their intervals overlap in whole numbers."""
    if above is None or above.division != standing.division or not (above.is_rated and standing.is_rated):
        return False
    ours, theirs = standing.rating, above.rating
    return round(ours.low) <= round(theirs.high) and round(theirs.low) <= round(ours.high)


def scale(store: Store) -> int:
    """The scale of the last table; one of the version before has the first."""
    last = latest(store)
    return last.scale if last and last.hash else 1


def final(store: Store, season: Season) -> list[Standing]:
    """The table with which a season ended; of one that goes on none."""
    rows = store.rows("SELECT number FROM publication WHERE season = ? AND final ORDER BY number", season.number)
    return published(store, rows[-1][0]) if rows else []
