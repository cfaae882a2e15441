"""The columns of a table: what each says of a robot, as data and as text. A table is a choice of them, by their names."""

from typing import Any, Callable, Iterable, NamedTuple

from .standings import Standing


class Column(NamedTuple):
    """A column: its value, which is one of JSON, and its text."""

    value: Callable[[Standing], Any]
    text: Callable[[Standing], str]


def plainly(value: Callable[[Standing], Any]) -> Column:
    """A column whose text is its value."""
    return Column(value, lambda row: str(value(row)))


def if_rated(value: Callable[[Standing], float]) -> Column:
    """A column that is empty for a robot without a rating."""
    return Column(lambda row: value(row) if row.is_rated else None, lambda row: str(round(value(row))) if row.is_rated else "")


COLUMNS = {
    "division": plainly(lambda row: row.division),
    "rank": plainly(lambda row: row.rank),
    "robot": plainly(lambda row: row.robot),
    "sha256": plainly(lambda row: row.sha256),
    "played": plainly(lambda row: row.score.played),
    "won": plainly(lambda row: row.score.won),
    "tied": plainly(lambda row: row.score.tied),
    "lost": plainly(lambda row: row.score.lost),
    "points": Column(lambda row: float(row.points), lambda row: f"{row.points:.3f}"),
    "rating": if_rated(lambda row: row.rating.value),
    "low": if_rated(lambda row: row.rating.low),
    "high": if_rated(lambda row: row.rating.high),
    "close": Column(lambda row: row.close, lambda row: "close" if row.close else ""),
}
# What a robot did, and what that comes to.
COUNTS, WORTH = ("played", "won", "tied", "lost"), ("points", "rating", "low", "high", "close")


def texts(names: Iterable[str], row: Standing) -> list[str]:
    """A row's cells."""
    return [COLUMNS[name].text(row) for name in names]


def data(names: Iterable[str], row: Standing) -> dict[str, Any]:
    """A row for JSON."""
    return {name: COLUMNS[name].value(row) for name in names}
