"""The page of a robot: where it is in the table, its opponents, its versions and its source."""

from itertools import compress
from typing import Sequence

from results.standings import Standing

from . import charts, places, sources, sums
from .battles import Replays, card
from .columns import PAIRS, STANDINGS, View, cells, chosen, heads, tabled
from .facts import Battle, Pair, Robot, Stay
from .frames import above, page, section, sentence
from .lookups import Lookup
from .markup import Markup, block, joined, name_of, separated, tag
from .names import file_name, named
from .numbers import INTERVAL, count, counted, decimal, interval
from .tables import NUMBER, TEXT, Column, listed, scrolling, table

# How many opponents are listed as the best, and how many as the worst.
FEW = 5


def robot_page(lookup: Lookup, replays: Replays, robot: Robot) -> str:
    """The page of a robot."""
    place = places.robot_page(robot.id)
    up = above(place)
    return page(lookup, place, named(robot.name), tag("h1", name_of(robot.name)), author(robot), copied(lookup, robot, up), standing(lookup, robot),
                history(lookup, robot), past(lookup, robot, up), opponents(lookup, robot, up), summed(robot), lost(lookup, replays, robot, up),
                versions(lookup, robot, up), source(lookup, robot), scripted=is_long(lookup, robot))


def author(robot: Robot) -> Markup:
    """Who wrote it, and whether it still plays; its id, if its name is another."""
    parts = [joined("by ", tag("bdi", named(robot.author)))] if robot.author else []
    parts += [joined(f"id {robot.id}")] if robot.id != robot.name else []
    parts += [joined(f"withdrawn on {robot.withdrawn}")] if robot.withdrawn else []
    return tag("p", separated(" · ", parts), class_="lead") if parts else Markup("")


def copied(lookup: Lookup, robot: Robot, up: str) -> Markup:
    """Whose code it has."""
    if not robot.copied:
        return Markup("")
    other = lookup.robots[robot.copied]
    by = joined(" by ", tag("bdi", named(other.author))) if other.author else ""
    return sentence("It has the same code as ", lookup.robot_link(other.id, up), by, ", which had it before.", kind="lead")


def standing(lookup: Lookup, robot: Robot) -> Markup:
    """Its row of the table."""
    row = lookup.standing(robot.id)
    said = [tag("div", tag("dt", term), tag("dd", said)) for term, said in tiles(lookup, row)] if row else []
    return tag("dl", *said, class_="tiles") if said else Markup("")


def tiles(lookup: Lookup, row: Standing) -> list[tuple[str, Markup]]:
    """What is said of it at a glance."""
    score, many = row.score, sum(other.division == row.division for other in lookup.facts.standings)
    within = f" of {many}" + (f" in division {row.division}" if lookup.facts.divisions > 1 else "")
    return [
        ("Rank", joined(str(row.rank), tag("small", within))),
        ("Rating", joined(charts.whole(row.rating.value), tag("small", f" {interval(*row.rating[1:])}"))),
        (lookup.facts.points.capitalize(), joined(decimal(row.points))),
        ("Won", joined(count(score.won), tag("small", f" of {count(score.played)}"))),
        ("Tied", joined(count(score.tied))), ("Lost", joined(count(score.lost))),
    ]


def history(lookup: Lookup, robot: Robot) -> Markup:
    """Its rating over time, if there are two tables at least."""
    found = lookup.history(robot.id)
    if len(found) < 2:
        return Markup("")
    days = [stay.day for stay in found]
    first, last = (charts.whole(stay.place.rating.value) for stay in (found[0], found[-1]))
    label = f"Rating from {days[0]} to {days[-1]}: from {first} to {last}"
    changes = [version.day for version in robot.versions[1:] if version.day]
    chart = scrolling(charts.over_time(found, changes, label), label)
    note = " A dotted line is a new version." if charts.during(days, changes) else ""
    note += " Each season has a line of its own: its matches and opponents are others." if len({stay.season for stay in found}) > 1 else ""
    return section("Rating over time", chart, sentence(f"The band is the {INTERVAL}.{note}", kind="note"),
                   tag("details", tag("summary", "As a table"), by_day(lookup, found)))


def by_day(lookup: Lookup, found: Sequence[Stay]) -> Markup:
    """The same as a table, the last day first; with seasons and divisions if there are several."""
    view, columns = View(lookup), chosen(STANDINGS, "rank", "rating", "interval")
    head: list[Column] = [("Day", TEXT), ("Season", TEXT), ("Division", NUMBER), *heads(view, columns)]
    is_there = [True, len({stay.season for stay in found}) > 1, any(stay.place.division > 1 for stay in found), *[True] * len(columns)]
    rows = [[stay.day, tag("bdi", named(stay.season)), str(stay.place.division), *cells(view, columns, stay.place)] for stay in found[::-1]]
    return table("Rating by day", [*compress(head, is_there)], [[*compress(row, is_there)] for row in rows])


def past(lookup: Lookup, robot: Robot, up: str) -> Markup:
    """Where it was at the end of each past season, the last one first."""
    view, columns = View(lookup, up), chosen(STANDINGS, "rank", "points", "rating", "interval", "played", "won", "tied", "lost")
    rows = [[tag("a", tag("bdi", named(season.name)), href=up + places.season_page(season.name)),
             str(row.division) if season.divisions > 1 else "-", *cells(view, columns, row)]
            for season in reversed(lookup.facts.seasons) for row in season.standings if row.robot == robot.id]
    head = [("Season", TEXT), ("Division", NUMBER), *heads(view, columns)]
    return section("Past seasons", table("At the end of each season", head, rows)) if rows else Markup("")


def played(lookup: Lookup, robot: Robot) -> list[Pair]:
    """Its pairs, in the order of the table."""
    return [pair for pair in lookup.opponents(robot.id) if pair.score.played]


def is_long(lookup: Lookup, robot: Robot) -> bool:
    """Whether it has more opponents than its page lists without the script."""
    return len(played(lookup, robot)) > 2 * FEW


def opponents(lookup: Lookup, robot: Robot, up: str) -> Markup:
    """What it did against others: the best and the worst ones, if there are many, and all of them from its data."""
    every = played(lookup, robot)
    if not every:
        return Markup("")
    best = sorted(every, key=lambda pair: -pair.score.share)
    if len(every) <= 2 * FEW:
        return section("Opponents", against(lookup, "Opponents, the best results first", best, up))
    return section("Opponents", against(lookup, "Its best opponents", best[:FEW], up),
                   against(lookup, "Its worst opponents", best[:-FEW - 1:-1], up),
                   tag("details", tag("summary", f"All {count(len(every))} opponents"), tag("div", data_opponents=file_name(robot.id))))


def against(lookup: Lookup, caption: str, pairs: list[Pair], up: str) -> Markup:
    """Rows of opponents."""
    return tabled(View(lookup, up), PAIRS, caption, pairs, "opponents")


def summed(robot: Robot) -> Markup:
    """Its shots and what hurt it."""
    if not robot.sums.objects:
        return Markup("")
    many, said = sums.matches(robot.sums.objects), "What crobots-trace says"
    text = scrolling(tag("pre", block(robot.sums.text.splitlines())), said, "listing")
    return section("Shots and damage", sentence(f"In {counted(many, 'match')}:") if many else Markup(""),
                   listed(sums.rows(robot.sums.objects)), tag("details", tag("summary", said), text))


def lost(lookup: Lookup, replays: Replays, robot: Robot, up: str) -> Markup:
    """Matches that it lost: if they have days, its last ones."""
    cards = [card(lookup, replays, tag("h3", beaten_by(lookup, robot, battle)), battle, up) for battle in robot.lost]
    title = "Last lost matches" if lookup.facts.day else "Lost matches"
    return section(title, tag("div", *cards, class_="battles")) if cards else Markup("")


def beaten_by(lookup: Lookup, robot: Robot, battle: Battle) -> Markup:
    """Against whom it lost."""
    others = [name_of(lookup.robots[seat.robot].name) for seat in battle.seats if seat.robot != robot.id]
    return joined("Against ", separated(", ", others))


def versions(lookup: Lookup, robot: Robot, up: str) -> Markup:
    """All its versions, the last one first."""
    rows = [[version.day or "-", tag("code", version.sha256[:16], title=version.sha256), download(lookup, robot, at, up)]
            for at, version in reversed([*enumerate(robot.versions)])]
    columns = [("From", TEXT), ("SHA-256", TEXT), ("Source", TEXT)]
    return section("Versions", table("Versions, the last one first", columns, rows)) if rows else Markup("")


def download(lookup: Lookup, robot: Robot, at: int, up: str) -> Markup:
    """A link to a version's source."""
    version = robot.versions[at]
    if version.source is None:
        return joined("hidden" if lookup.facts.hidden else "not kept")
    said = counted(len(version.source), "byte")
    return tag("a", said, href=up + places.source_file(robot.id, version), type="text/plain")


def source(lookup: Lookup, robot: Robot) -> Markup:
    """The source of its last version."""
    last = robot.versions[-1].source if robot.versions else None
    if last is None:
        return section("Source", sentence(lookup.facts.hidden)) if lookup.facts.hidden else Markup("")
    return section("Source", scrolling(sources.coloured(last), "Source", "listing"))
