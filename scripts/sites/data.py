"""The same as data: the table and the pairs as comma-separated values, and everything as JSON."""

import functools
import json
from typing import Any, Iterable, Iterator

from results import columns
from results.columns import COUNTS, WORTH
from results.scores import Score
from results.standings import Standing

from . import commands, places
from .columns import PAIRS, STANDINGS, written
from .facts import Battle, Pair, Robot, Season, Table, Version
from .lookups import Lookup

NAMES = ("division", "rank", "robot", *COUNTS, *WORTH)


def table(lookup: Lookup) -> str:
    """The table, a row a robot."""
    return written(lookup, STANDINGS, lookup.facts.standings)


def pairs(lookup: Lookup) -> str:
    """The pairs, a row for each of both sides."""
    return written(lookup, PAIRS, (pair for robot in lookup.facts.robots for pair in lookup.opponents(robot.id)))


def everything(lookup: Lookup) -> str:
    """All facts as JSON, but for sources, which are files of the site, and for what the data files have of pairs beside their scores.

    Each robot, row, pair and table is a line."""
    return "".join(pieces(lookup))


def pieces(lookup: Lookup) -> Iterator[str]:
    """The same in pieces: a large league has much of it."""
    facts = lookup.facts
    for at, (name, value) in enumerate(head(lookup).items()):
        yield f"{',' if at else '{'}{json.dumps(name)}: {json.dumps(value)}\n"
    lists: dict[str, Iterable[dict[str, Any]]] = {
        "robots": map(functools.partial(robot, lookup), facts.robots),
        "table": map(standing, facts.standings),
        "pairs": map(pair, facts.pairs),
        "earlier": map(earlier, facts.earlier),
        "seasons": map(season, facts.seasons),
    }
    for name, rows in lists.items():
        yield f",{json.dumps(name)}: [\n"
        for at, row in enumerate(rows):
            yield f"{',' * bool(at)}{json.dumps(row)}\n"
        yield "]\n"
    yield "}\n"


def head(lookup: Lookup) -> dict[str, Any]:
    """What there is once."""
    facts, settings = lookup.facts, lookup.facts.settings
    return {
        "title": facts.title, "day": facts.day,
        "settings": {"matches": settings.matches, "cycles": settings.cycles, "seed": settings.seed,
                     "profile": settings.profile, "sizes": settings.sizes, **dict(settings.more)},
        "program": {"version": facts.program.version, "sha256": facts.program.sha256},
        "archive": places.archive_file(facts.archive) if facts.archive else None, "hash": facts.hash or None,
        "season": facts.season, "divisions": facts.divisions,
    }


def score(counts: Score) -> dict[str, int]:
    return {"played": counts.played, "won": counts.won, "tied": counts.tied, "lost": counts.lost}


def both(counts: Score) -> dict[str, int]:
    """The score of a pair."""
    return {**score(counts), "both_lost": counts.both}


def robot(lookup: Lookup, robot: Robot) -> dict[str, Any]:
    return {
        "id": robot.id, "name": robot.name, "author": robot.author, "withdrawn": robot.withdrawn, "copied": robot.copied or None,
        "page": places.robot_page(robot.id), "data": places.data_file(robot.id),
        "versions": [version(robot, one) for one in robot.versions],
        "lost": [battle(lookup, one) for one in robot.lost],
    }


def version(robot: Robot, version: Version) -> dict[str, Any]:
    source = None if version.source is None else places.source_file(robot.id, version)
    return {"sha256": version.sha256, "day": version.day, "source": source}


def standing(row: Standing) -> dict[str, Any]:
    return columns.data(NAMES, row)


def earlier(table: Table) -> dict[str, Any]:
    places = {robot: {"rank": row.rank, "rating": row.rating.value, "low": row.rating.low, "high": row.rating.high, "division": row.division}
              for robot, row in table.places.items()}
    return {"day": table.day, "season": table.season, "table": places}


def season(season: Season) -> dict[str, Any]:
    return {"name": season.name, "begun": season.begun, "ended": season.ended, "rules": dict(season.rules), "divisions": season.divisions,
            "page": places.season_page(season.name), "table": [*map(standing, season.standings)]}


def pair(pair: Pair) -> dict[str, Any]:
    return {"robot": pair.one, "against": pair.other, **both(pair.score), "share": round(pair.score.share, 4), "low": round(pair.low, 4),
            "high": round(pair.high, 4), "verdict": pair.decided.said, "page": places.pair_page(pair.one, pair.other)}


def battle(lookup: Lookup, battle: Battle) -> dict[str, Any]:
    return {
        "robots": [seat.robot for seat in battle.seats], "damage": [seat.damage for seat in battle.seats], "match": battle.number,
        "seed": battle.seed, "cycles": battle.cycles,
        "command": commands.line(commands.again(lookup.facts.settings, battle, lookup.files(battle))),
    }
