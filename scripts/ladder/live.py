"""The live table: what the player writes and the pages show, as one small file that is replaced in one piece."""

import contextlib
import functools
import hashlib
import json
import os
import threading
from dataclasses import asdict, dataclass
from decimal import Decimal

from results.columns import COUNTS, data
from results.scores import Score
from results.standings import NOTHING, Rating, Standing
from tools.output import replaced

FOLDER, NAME = "ladder", "table.json"
reading = threading.Lock()
TAG_LETTERS = 20
# What the file has of a robot.
NAMES = ("division", "rank", "robot", *COUNTS, "points", "rating", "low", "high")


@dataclass(frozen=True)
class Fought:
    """A match that was played just now: its seating and number, as the database has them, and the robots."""

    hashes: str
    seed: str
    number: int
    robots: tuple[str, ...]


@dataclass(frozen=True)
class Live:
    """The table as it is now: how many matches there are and are missing, and the last ones."""

    season: str = ""
    played: int = 0
    missing: int = 0
    rows: tuple[Standing, ...] = ()
    last: tuple[Fought, ...] = ()

    def text(self) -> str:
        rows = [data(NAMES, row) | {"points": str(row.points)} for row in self.rows]
        return json.dumps({"season": self.season, "played": self.played, "missing": self.missing, "rows": rows, "last": [*map(asdict, self.last)]})

    @functools.cached_property
    def tag(self) -> str:
        """What changes if anything of it does."""
        return hashlib.sha256(self.text().encode()).hexdigest()[:TAG_LETTERS]


def folder_of(league: str) -> str:
    """The folder of what the ladder makes: all of it can be made anew."""
    return os.path.join(league, FOLDER)


def path_of(league: str) -> str:
    return os.path.join(folder_of(league), NAME)


def write(league: str, live: Live) -> None:
    os.makedirs(folder_of(league), exist_ok=True)
    replaced(path_of(league), live.text().encode())


def read(league: str) -> Live:
    """The table that was written last; an empty one if there is none. It is read once, however many ask for it at a time."""
    try:
        status = os.stat(path_of(league))
    except OSError:
        return Live()
    with reading:
        found = parsed(league, (status.st_ino, status.st_mtime_ns, status.st_size))
        _ = found.tag  # so this is worked out once, too
    return found


@functools.lru_cache(8)
def parsed(league: str, _: tuple[int, ...]) -> Live:
    """The table of a file as it was then; an empty one if it is one of another version."""
    with contextlib.suppress(OSError, ValueError, TypeError, KeyError, ArithmeticError), open(path_of(league), encoding="utf-8") as file:
        said = json.load(file)
        rows = tuple(standing(**row) for row in said["rows"])
        last = tuple(Fought(fought["hashes"], fought["seed"], fought["number"], tuple(fought["robots"])) for fought in said["last"])
        return Live(said["season"], said["played"], said["missing"], rows, last)
    return Live()


def standing(division: int, rank: int, robot: str, played: int, won: int, tied: int, lost: int, points: str,
             rating: float | None, low: float | None, high: float | None) -> Standing:
    """A row of the file."""
    rated = NOTHING if rating is None or low is None or high is None else Rating(rating, low, high)
    return Standing(robot, rank, Score(won, tied, lost), Decimal(points), rated, division=division)
