"""The first page: the table, with ratings as a chart."""

from typing import Sequence

from results.standings import Standing

from . import charts, places
from .columns import STANDINGS, View, tabled
from .facts import Table
from .frames import page, section, sentence
from .lookups import Lookup
from .markup import Markup, tag
from .names import named
from .numbers import counted

DATA = ((places.TABLE, "the table (CSV)"), (places.PAIRS, "the pairs (CSV)"), (places.EVERYTHING, "everything (JSON)"))


def index(lookup: Lookup) -> str:
    """The page of the table."""
    facts = lookup.facts
    title = tag("h1", tag("bdi", named(facts.title)))
    if not facts.standings:
        return page(lookup, places.INDEX, "", title, sentence("Nothing was played yet."), others(lookup), past(lookup), downloads())
    return page(lookup, places.INDEX, "", title, summary(lookup), *standings(lookup), reading(lookup), others(lookup),
                past(lookup), downloads())


def summary(lookup: Lookup) -> Markup:
    """How large all of it is."""
    facts = lookup.facts
    season = f"season {named(facts.season)}" if facts.seasons else ""
    parts = [facts.day, season, counted(len(facts.standings), "robot"), counted(matches(lookup), "match")]
    return tag("p", " · ".join(filter(None, parts)), class_="lead")


def matches(lookup: Lookup) -> int:
    """How many matches were played, if each had robots of one size; else what the pairs played."""
    facts = lookup.facts
    if len(facts.settings.sizes) == 1:
        return sum(standing.score.played for standing in facts.standings) // facts.settings.sizes[0]
    return sum(pair.score.played for pair in facts.pairs)


def standings(lookup: Lookup) -> list[Markup]:
    """The table of each division, in order."""
    facts = lookup.facts
    return tables(lookup, facts.standings, facts.divisions, lookup.before())


def tables(lookup: Lookup, every: Sequence[Standing], divisions: int, before: Table | None = None, up: str = "") -> list[Markup]:
    """The table of each division that has robots, under its name if there are several."""
    view = View(lookup, up, charts.rating_scale([standing.rating for standing in every]), before, True)
    found = []
    for division in range(1, divisions + 1):
        there = [standing for standing in every if standing.division == division or divisions == 1]
        title, caption = (f"Division {division}", f"Table of division {division}") if divisions > 1 else ("", "Table")
        if there:
            body = tabled(view, STANDINGS, caption, there)
            found.append(tag("section", tag("h2", title) if title else Markup(""), body, class_="standings"))
    return found


def reading(lookup: Lookup) -> Markup:
    """What the columns mean."""
    facts = lookup.facts
    said = [column.help for column in STANDINGS]
    if facts.divisions > 1:
        said.append(" Ranks are those of the robot's division.")
    if before := lookup.before():
        said.append(f" The trend is the change of rank since {before.day}.")
    return section("How to read it", sentence(*said), kind="note")


def others(lookup: Lookup) -> Markup:
    """The robots that have no row."""
    found = [robot for robot in lookup.facts.robots if lookup.standing(robot.id) is None]
    if not found:
        return Markup("")
    left = [f", withdrawn on {robot.withdrawn}" if robot.withdrawn else "" for robot in found]
    items = [tag("li", lookup.robot_link(robot.id, ""), when) for robot, when in zip(found, left)]
    return section("Robots that are not in the table", tag("ul", *items, class_="links"))


def past(lookup: Lookup) -> Markup:
    """The seasons that ended."""
    items = [tag("li", tag("a", tag("bdi", named(season.name)), href=places.season_page(season.name)), f", {season.begun} to {season.ended}")
             for season in reversed(lookup.facts.seasons)]
    return section("Past seasons", tag("ul", *items, class_="links")) if items else Markup("")


def downloads() -> Markup:
    """The same as data."""
    items = [tag("li", tag("a", said, href=place)) for place, said in DATA]
    return section("Data", tag("ul", *items, class_="links"))
