"""The forms of what a tournament says: a table, comma-separated values, a matrix, a row a match and robot, JSON.

The last two are made piece by piece, since they have all matches."""

import json
from typing import Any, Iterable, Iterator, Mapping

from results.battles import DID, Group
from results.columns import COUNTS, WORTH, data, texts
from results.scores import Score
from results.standings import Standing
from tools.tables import aligned, comma_separated

from .records import Record
from .robots import Robot
from .settings import SIZE_NAMES, Settings
from .standings import Weighed

LONG = ["seed", "match", "cycles", "seat", "robot", "damage", "result"]
# What each robot did against each other one that it met, by their places.
Faced = Mapping[Group, Score]


def rows(table: list[Standing], by_size: bool) -> list[list[str]]:
    """The table's cells, with its head."""
    sizes, first = list(table[0].by_size) if by_size and table else [], ("rank", "robot", *COUNTS)
    head = [*first, *(SIZE_NAMES[size] for size in sizes), *WORTH]
    return [head, *([*texts(first, row), *(f"{row.by_size[size]:.3f}" for size in sizes), *texts(WORTH, row)] for row in table)]


def table(standings: list[Standing], by_size: bool) -> str:
    head, *others = rows(standings, by_size)
    return aligned([[*head[:-1], ""], *others], (1, len(head) - 1))


def matrix(standings: list[Standing], faced: Faced) -> str:
    """Head to head, in the order of the table: won/tied/lost of the row's robot against the column's."""
    head = ["", *(str(place) for place in range(1, len(standings) + 1))]
    rows = [[f"{place} {row.robot}", *(cell(faced.get((row.place, other.place))) for other in standings)]
            for place, row in enumerate(standings, 1)]
    return aligned([head, *rows], (0,))


def cell(score: Score | None) -> str:
    return f"{score.won}/{score.tied}/{score.lost}" if score else "-"


def long(records: Iterable[Record], names: list[str]) -> Iterator[str]:
    """A row for each robot of each match, the robots of a match in the order of their seats."""
    yield comma_separated([LONG])
    for record in records:
        series, found = record.series, list[list[object]]()
        for number, match in record.matches():
            for seat, (robot, damage, letter) in enumerate(zip(series.seats, match.damage, match.results), 1):
                found.append([series.seed, number, match.cycles, seat, names[robot], damage, DID[letter]])
        yield comma_separated(found)


def everything(
    settings: Settings, scoring: Weighed, robots: list[Robot], standings: list[Standing], faced: Faced, records: Iterable[Record],
) -> Iterator[str]:
    """All of it as JSON."""
    names = {row.place: row.robot for row in standings}
    weights, those = scoring.weights, [names[at] for at in settings.those]
    said: dict[str, Any] = {
        "settings": {
            "matches": settings.matches, "cycles": settings.cycles, "seed": settings.seed, "profile": settings.profile,
            "program": settings.program, "sizes": settings.sizes, "sample": settings.sample,
            **({"those": those} if those else {}),
            "points": {"won": float(scoring.won), "tied": float(scoring.tied)},
            "weights": {SIZE_NAMES[size]: float(weight) for size, weight in weights.items()} if weights else None,
        },
        "robots": [{"name": names[at], "file": robot.path, "sha256": robot.sha256} for at, robot in enumerate(robots)],
        "table": [{**data(("rank", "robot", *COUNTS), row), "points_a_match": {SIZE_NAMES[size]: float(mean) for size, mean in row.by_size.items()},
                   **data(WORTH, row)} for row in standings],
        "pairs": [{"robot": names[one], "against": names[other], "won": score.won, "tied": score.tied, "lost": score.lost}
                  for (one, other), score in sorted(faced.items())],
    }
    yield json.dumps(said, indent=1).removesuffix("\n}") + ',\n "matches": ['
    before = "\n  "
    for record in records:
        for match in matches(record, names):
            yield before + json.dumps(match)
            before = ",\n  "
    yield "\n ]\n}\n"


def matches(record: Record, names: dict[int, str]) -> Iterator[dict[str, Any]]:
    """The matches of a record for JSON. A seed is a text, since readers round large numbers."""
    robots = [names[robot] for robot in record.series.seats]
    for number, match in record.matches():
        results = [DID[letter] for letter in match.results]
        yield {"seed": str(record.series.seed), "match": number, "cycles": match.cycles,
               "robots": robots, "damage": match.damage, "results": results}
