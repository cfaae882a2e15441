"""The columns of tables of robots and of pairs, each in one place: on pages, in comma-separated values, and what it says.

A page has those that have a cell, in the order in which they stand here. Data have those with a number, in the order of these."""

from dataclasses import dataclass
from typing import Callable, Generic, Iterable, NamedTuple, Protocol, Sequence, TypeVar

from results.scores import Score
from results.standings import Standing
from tools.tables import comma_separated

from . import charts, places
from .facts import Pair, Table
from .lookups import Lookup
from .markup import Markup, joined, name_of, tag
from .names import named, shown
from .numbers import INTERVAL, count, decimal, interval, percent, tenth
from .scales import Scale
from .tables import NAME, NUMBER, TEXT, table


class View(NamedTuple):
    """Where rows are shown: the way up to the site's folder, the axis of ratings if they are drawn, the table before if there is one,
    and whether robots that are close are marked."""

    lookup: Lookup
    up: str = ""
    axis: Scale = Scale(0, 1, 0, 1)
    before: Table | None = None
    is_marked: bool = False


class Scored(Protocol):
    @property
    def score(self) -> Score: ...


Row = TypeVar("Row", contravariant=True)


@dataclass(frozen=True)
class Column(Generic[Row]):
    """A column: its name in data; its title on pages, what kind it is, and its cell; its number among those of data, and its value
    there; what is said of it to readers, and where it is left out."""

    name: str
    title: str | Callable[[View], str] = ""
    kind: str | None = TEXT
    cell: Callable[[View, Row], str] | None = None
    order: int = 0
    value: Callable[[Lookup, Row], object] | None = None
    help: str = ""
    is_there: Callable[[View], bool] = lambda view: True


def scores(first: int) -> list[Column[Scored]]:
    """What a robot did, as data from this number on."""
    return [Column("won", "Won", NUMBER, lambda _, row: count(row.score.won), first, lambda _, row: row.score.won),
            Column("tied", "Tied", NUMBER, lambda _, row: count(row.score.tied), first + 1, lambda _, row: row.score.tied),
            Column("lost", "Lost", NUMBER, lambda _, row: count(row.score.lost), first + 2, lambda _, row: row.score.lost)]


def robot(view: View, row: Standing) -> Markup:
    """A robot with its author."""
    robot = view.lookup.robots[row.robot]
    by = tag("span", tag("bdi", named(robot.author)), class_="author") if robot.author else Markup("")
    return joined(view.lookup.robot_link(row.robot, view.up), by, tag("span", "the code of another", class_="author") if robot.copied else Markup(""))


def close(row: Standing) -> Markup:
    """The mark of a robot whose points may be those of the one above."""
    if not row.close:
        return tag("span", class_="close")
    return tag("abbr", "≈", title="close to the robot above: their order may be chance", class_="close")


def trend(view: View, row: Standing) -> Markup:
    """How many ranks a robot rose or fell since the table before, in the same division."""
    was = view.before.places.get(row.robot) if view.before else None
    if was is None or was.division != row.division:
        return tag("span", "new", class_="trend new")
    rose = was.rank - row.rank
    way, sign, by = ("up", "▲", f"{rose}") if rose > 0 else ("down", "▼", f"{-rose}") if rose < 0 else ("same", "=", "")
    return tag("span", tag("span", sign, aria_hidden="true"), tag("span", f"{way} ", class_="unseen"), by,
               class_=f"trend {way}")


def matches(view: View, pair: Pair) -> Markup:
    """The link to a pair's matches."""
    against = tag("span", " against ", name_of(view.lookup.robots[pair.other].name), class_="unseen")
    return tag("a", "matches", against, href=view.up + places.pair_page(pair.one, pair.other))


STANDINGS: list[Column[Standing]] = [
    Column("division", order=1, value=lambda _, row: row.division),
    Column("rank", "Rank", NUMBER, lambda view, row: str(row.rank), 2, lambda _, row: row.rank),
    Column("trend", "Trend", TEXT, trend, is_there=lambda view: view.before is not None),
    Column("robot", "Robot", NAME, robot, 3, lambda _, row: row.robot),
    Column("name", order=4, value=lambda lookup, row: lookup.robots[row.robot].name),
    Column("author", order=5, value=lambda lookup, row: lookup.robots[row.robot].author),
    Column("points", lambda view: view.lookup.facts.points.capitalize(), NUMBER, lambda view, row: decimal(row.points), 10,
           lambda _, row: decimal(row.points)),
    Column("rating", "Rating", NUMBER, lambda view, row: joined(charts.whole(row.rating.value), close(row) if view.is_marked else Markup("")), 11,
           lambda _, row: tenth(row.rating.value),
           "A rating says how often a robot beats another: at a distance of 400 it wins ten times as often as it loses. "),
    Column("chart", lambda view: joined(tag("span", "Rating and interval", class_="unseen"), charts.rating_axis(view.axis)), TEXT,
           lambda view, row: charts.rating_row(view.axis, row.rating),
           help=f"A dot is a rating, its bar the {INTERVAL}, and an arrow says that the bar goes on. "),
    Column("interval", INTERVAL, TEXT, lambda view, row: interval(row.rating.low, row.rating.high)),
    Column("low", order=12, value=lambda _, row: tenth(row.rating.low)),
    Column("high", order=13, value=lambda _, row: tenth(row.rating.high)),
    Column("close", order=14, value=lambda _, row: "close" if row.close else "",
           help="≈ marks a robot whose points may differ by chance alone from those of the robot above."),
    Column("played", "Played", NUMBER, lambda view, row: count(row.score.played), 6, lambda _, row: row.score.played),
    *scores(7),
    Column("results", "Results", TEXT, lambda view, row: charts.parts(row.score)),
]
PAIRS: list[Column[Pair]] = [
    Column("robot", order=1, value=lambda _, pair: pair.one),
    Column("against", "Opponent", TEXT, lambda view, pair: view.lookup.robot_link(pair.other, view.up), 2, lambda _, pair: pair.other),
    Column("share", "Share", NUMBER, lambda view, pair: percent(pair.score.share), 8, lambda _, pair: round(pair.score.share, 4)),
    Column("interval", INTERVAL, TEXT, lambda view, pair: f"{percent(pair.low)} to {percent(pair.high)}"),
    Column("played", order=3, value=lambda _, pair: pair.score.played),
    *scores(4),
    Column("both_lost", order=7, value=lambda _, pair: pair.score.both),
    Column("low", order=9, value=lambda _, pair: round(pair.low, 4)),
    Column("high", order=10, value=lambda _, pair: round(pair.high, 4)),
    Column("verdict", order=11, value=lambda _, pair: pair.decided.said),
    Column("results", "Results", TEXT, lambda view, pair: charts.parts(pair.score, 80)),
    Column("pair", "Pair", TEXT, matches),
]


def chosen(columns: Iterable[Column[Row]], *names: str) -> list[Column[Row]]:
    """The columns with these names."""
    return [column for column in columns if column.name in names]


def cells(view: View, columns: Iterable[Column[Row]], row: Row) -> list[str]:
    """A row's cells."""
    return [column.cell(view, row) for column in columns if column.cell and column.is_there(view)]


def heads(view: View, columns: Iterable[Column[Row]]) -> list[tuple[str, str | None]]:
    """The titles of columns, with their kinds."""
    shown = (column for column in columns if column.cell and column.is_there(view))
    return [(column.title if isinstance(column.title, str) else column.title(view), column.kind) for column in shown]


def tabled(view: View, columns: Sequence[Column[Row]], caption: str, rows: Iterable[Row], style: str = "") -> Markup:
    """A table of a page. Its rows are named by the cell that leads to a robot."""
    kinds = [kind for _, kind in heads(view, columns)]
    return table(caption, heads(view, columns), [cells(view, columns, row) for row in rows], kinds.index(NAME) if NAME in kinds else 0, style)


def written(lookup: Lookup, columns: Iterable[Column[Row]], rows: Iterable[Row]) -> str:
    """Comma-separated values, without what can't be shown."""
    there = sorted(filter(lambda column: column.value, columns), key=lambda column: column.order)
    text = comma_separated([[column.name for column in there], *([column.value(lookup, row) for column in there if column.value] for row in rows)])
    return "\n".join(map(shown, text.split("\n")))
