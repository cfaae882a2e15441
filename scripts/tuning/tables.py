"""The forms of an answer: columns, comma-separated values, JSON. Each says against whom."""

import json
from dataclasses import replace
from typing import Any, Iterator, Sequence

from tools.tables import aligned, comma_separated

from . import figures
from .breakdowns import ALL, distinct, listed
from .games import Games
from .judging import Judged
from .sweeps import Row, shown
from .verdicts import CHANGES, WHOLE

# The columns of rows beside the values: those of comma-separated values, and what a table has above them.
HEADS = {"against": "against", "points": "points a match", "from": "at least", "to": "at most", "change": "change from {}", "low": "at least", "high": "at most",
         "low95": "", "high95": "", "matches": "matches", "verdict": "verdict"}
# What they are, in words. The first one has a number's name.
MEANINGS = {
    "value": "{}: {}",
    "against": "against: the opponent",
    "points": "points a match: {} for a win, {} for a tie",
    "change": "change from {0}: how many points a match more than with {0} in the same matches",
    "low": "at least, at most: {} in {} of 100 {}",
    "matches": "matches: how many it had, of which points and change are",
    "verdict": "verdict: better or worse only where at least and at most have no 0 between them",
}


def of_sweep(games: Games, rows: Sequence[Row], form: str) -> str:
    """The table of a sweep."""
    if form == "json":
        return of_data(games, {"sweep": [of_row(row) for row in rows]})
    return cells_of(games, rows, form)


def of_tuning(games: Games, judged: Judged, form: str) -> str:
    """The numbers, as they are and as the search has them; by opponent, if that is asked for, what both are worth."""
    if form == "json":
        return of_data(games, of_judged(games, judged))
    by_opponent = games.given.by_opponent
    if form == "csv" and by_opponent:
        return cells_of(games, judged.rows, form)
    if form == "csv":
        return comma_separated(numbers_in_lines(games, judged))
    table = aligned([*numbers_in_columns(games, judged)], (0,))
    return table + (cells_of(games, judged.rows, form) + legend(games, judged.rows, "tunings") if by_opponent else "")


def numbers_in_lines(games: Games, judged: Judged) -> Iterator[list[str]]:
    yield ["number", "place", "low", "high", "today", "tuned"]
    for one, value in zip(games.numbers, judged.tuned.values):
        yield [one.name, str(one.place), str(one.range.low), str(one.range.high), str(one.value), str(value)]


def numbers_in_columns(games: Games, judged: Judged) -> Iterator[list[str]]:
    """The same for a reader: a number that hasn't a name is called by its place."""
    yield ["number", "line:column", "range", "today's", "tuned"]
    for one, value in zip(games.numbers, judged.tuned.values):
        yield [one.name, str(one.place), f"{one.range.low}..{one.range.high}", str(one.value), str(value)]


def columns(games: Games, form: str) -> list[str]:
    """Which columns rows have. Whom they are against is one, but of a table that has no rows by opponent."""
    by_opponent = games.given.by_opponent
    left_out = {*(() if by_opponent or form == "csv" else ("against",)), *(() if by_opponent else ("from", "to")),
                *(() if form == "csv" else ("low95", "high95"))}
    return [name for name in HEADS if name not in left_out]


def cells_of(games: Games, rows: Sequence[Row], form: str) -> str:
    """Rows with their heads."""
    names, numbers = columns(games, form), [one.name for one in games.numbers]
    lines = [[*map(str, row.values), *(line[name] for name in names)] for row in rows for line in lines_of(games, row)]
    if form == "csv":
        return comma_separated([[*numbers, *names], *lines])
    heads = [*numbers, *(HEADS[name].format(shown(games.today)) for name in names)]
    return aligned([heads, *lines], [at for at, name in enumerate(heads) if name in ("against", "verdict")])


def lines_of(games: Games, row: Row) -> Iterator[dict[str, str]]:
    """The lines of a row: of each opponent, if that is asked for, and of all."""
    whole = replace(row.whole, name=ALL if games.given.by_opponent else ", ".join(listed(games)))
    for did in (*row.singles, whole):
        cells = {"against": did.name, **dict(zip(("points", "from", "to"), map(figures.points, (did.points.value, did.points.low, did.points.high))))}
        changes = (did.change.value, did.change.low, did.change.high, did.alone.low, did.alone.high)
        cells |= dict(zip(("change", "low", "high", "low95", "high95"), map(figures.difference, changes)))
        yield {**cells, "matches": str(did.matches), "verdict": row.said if did is whole else ""}


def legend(games: Games, rows: Sequence[Row], what: str) -> str:
    """What the columns of a table are, in one line. Rows of single opponents may be wrong as often again."""
    win, tie = (f"{games.scores.worth[letter]:g}" for letter in "wt")
    every, often = (f"all {len(rows) - 1} changes lie there at once" if len(rows) > 2 else "the change lies there"), CHANGES
    if games.given.by_opponent:
        every, often = "all points and changes lie there at once", WHOLE
    values = "values of these numbers" if len(games.numbers) > 1 else "value of this number"
    words = {"value": [", ".join(one.name for one in games.numbers), values], "points": [win, tie], "change": [shown(games.today)], "low": [every, str(often), what]}
    said = [text.format(*words.get(name, [])) for name, text in MEANINGS.items() if name in ("value", *columns(games, "table"))]
    return f"({'; '.join(said)})\n"


def of_data(games: Games, more: dict[str, Any]) -> str:
    """An answer as JSON: the robot, whom it met, and more."""
    against = [{"robot": name, "weight": weight} for name, _, weight in distinct(games)]
    numbers = [number(row) for row in numbers_of(games)]
    return json.dumps({"robot": games.name, "against": against, "numbers": numbers, **more}, indent=1) + "\n"


def of_row(row: Row) -> dict[str, Any]:
    """A row as data."""
    return {"values": row.values, "points": row.points.value, "matches": row.matches, **of_change(row), "verdict": row.said, **by_opponent_of(row)}


def of_change(row: Row) -> dict[str, Any]:
    """What a row is worth against today's value."""
    return {"change": row.change.value, "low": row.change.low, "high": row.change.high, "level": row.level,
            "low95": row.whole.alone.low, "high95": row.whole.alone.high}


def of_judged(games: Games, judged: Judged) -> dict[str, Any]:
    """What a search came to, as data."""
    tuned = judged.tuned
    them = [{**number(row), "tuned": value} for row, value in zip(numbers_of(games), tuned.values)]
    return {"numbers": them, "points": tuned.points.value, "before": judged.today.points.value, **of_change(tuned), "better": judged.is_better,
            **by_opponent_of(tuned)}


def by_opponent_of(row: Row) -> dict[str, Any]:
    """What a variant did by opponent, if that is asked for."""
    return {"by_opponent": [one.data() for one in row.singles]} if row.singles else {}


def numbers_of(games: Games) -> list[tuple[str, int, int, int, int, int]]:
    return [(one.name, one.place.line, one.place.column, one.range.low, one.range.high, one.value) for one in games.numbers]


def number(row: tuple[str, int, int, int, int, int]) -> dict[str, Any]:
    return dict(zip(("name", "line", "column", "low", "high", "today"), row))
