"""A league as it is published: a copy of one instant, which has the publication, while the league itself goes on."""

import contextlib
import os
import sqlite3
import tempfile
from dataclasses import dataclass
from typing import Iterator, Sequence

from results.standings import Standing
from tools.faults import writing

from .missing import missing
from .publications import Publication, publish
from .results import Results
from .schedules import Schedule, scheduled
from .seasons import Season, season
from .standings import standings
from .store import NAME, Store, connected, path_of, told


@dataclass(frozen=True)
class Published:
    """What is published: the copy, the last season with its groups and results, its table, and the publication."""

    store: Store
    season: Season
    schedule: Schedule
    results: Results
    table: Sequence[Standing]
    publication: Publication


@contextlib.contextmanager
def published(store: Store, day: str) -> Iterator[Published]:
    """Publishes the last season's table as it is now. What is added meanwhile waits until the next publication."""
    with writing(tempfile.gettempdir()):
        folder = tempfile.TemporaryDirectory(prefix="crobots-")
    with folder as path, contextlib.closing(sqlite3.connect(os.path.join(path, NAME), isolation_level=None)) as database:
        with store.change(), told(path):
            with contextlib.closing(connected(path_of(store.folder))) as now:
                now.backup(database)
            found = published_in(Store(path, database), day)
            publish(store, found.season, day, found.table, found.publication.missing or 0)
        yield found


def published_in(store: Store, day: str) -> Published:
    """Publishes the last season's table of a store."""
    last = season(store)
    schedule, results = scheduled(store, last)
    table = standings(schedule, results)
    left = sum(series.matches for series in missing(schedule, results))
    return Published(store, last, schedule, results, table, publish(store, last, day, table, left))
