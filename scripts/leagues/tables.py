"""The forms of a league's table: columns, comma-separated values, JSON."""

import json
from typing import Sequence

from results.columns import COUNTS, WORTH, data, texts
from results.standings import Standing
from tools.tables import aligned, comma_separated

from .decided import Pair
from .decided import everything as everything_of
from .seasons import Season

HEAD = ("rank", "robot", *COUNTS, *WORTH)
VALUES = ("division", "rank", "robot", "sha256", *COUNTS, *WORTH)


def table(season: Season, standings: Sequence[Standing]) -> str:
    """The table of each division in columns."""
    rows = [[*HEAD[:-1], ""]]
    several = season.rules.divisions > 1
    for division in range(1, season.rules.divisions + 1):
        there = [texts(HEAD, row) for row in standings if row.division == division]
        rows += ([[str(division), "division", *[""] * (len(HEAD) - 2)]] if several else []) + there
    return aligned(rows, (1, len(HEAD) - 1))


def comma(standings: Sequence[Standing]) -> str:
    """All divisions as comma-separated values."""
    head = ("division", *HEAD)
    return comma_separated([head, *(texts(head, row) for row in standings)])


def everything(season: Season, standings: Sequence[Standing], pairs: Sequence[Pair]) -> str:
    """The table as JSON, with what the sequential test says of pairs."""
    return json.dumps({"season": season.name, "begun": season.begun, "ended": season.ended or None,
                       "rules": json.loads(season.rules.text()), "table": [data(VALUES, row) for row in standings],
                       **({"pairs": everything_of(pairs)} if pairs else {})}, indent=1) + "\n"
