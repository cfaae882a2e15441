"""The heat map: what each robot did against each other. A cell leads to the pair."""

import functools

from results.standings import Standing

from . import colours, places
from .facts import Pair
from .frames import page, sentence
from .lookups import Lookup
from .markup import Markup, tag
from .names import named
from .numbers import count, percent
from .tables import scrolling

# From this number of robots on the cells have no room for numbers, and the site's script lets them lead to the pairs.
DENSE = 25
# The map has room for this number of robots.
MOST = 400


def heat_map(lookup: Lookup) -> str:
    """The page of the heat map."""
    said = ("Each cell is the share of the robot on its left against the one above: its wins, and half of the matches "
            "that both survived or lost. Blue is more than a half, orange less. A cell leads to the pair.")
    many = len(lookup.facts.standings)
    few = sentence(f"The map has the first {MOST} of {count(many)} robots.") if many > MOST else Markup("")
    past = tag("a", "past the map", href="#after", class_="skip")
    after = tag("p", tag("a", "Download the pairs (CSV)", href=places.PAIRS), id="after")
    return page(lookup, places.MAP, "Pairs", tag("h1", "Pairs"), sentence(said, kind="lead"), few, past,
                tag("section", legend(), grid(lookup), class_="map"), after, scripted=many >= DENSE and bool(lookup.facts.pairs))


def legend() -> Markup:
    """The steps with their shares."""
    steps = [tag("span", class_=f"h{at}") for at in range(colours.STEPS + 1)]
    return tag("p", "0 % ", tag("span", *steps, class_="steps", aria_hidden="true"), " 100 %", class_="legend")


def grid(lookup: Lookup) -> Markup:
    """The map as a table."""
    standings = lookup.facts.standings[:MOST]
    is_dense = len(standings) >= DENSE
    columns = (column(lookup, at, standing) for at, standing in enumerate(standings, 1))
    head = tag("tr", tag("th", "Robot", scope="col", class_="text"), *columns)
    rows = [tag("tr", row_head(lookup, at, standing), *(cell(lookup, standing, other, is_dense) for other in standings))
            for at, standing in enumerate(standings, 1)]
    caption = "Share of each robot against each other"
    whole = tag("table", tag("caption", caption), tag("thead", head), tag("tbody", *rows), data_map="" if is_dense else None)
    return scrolling(whole, caption, "scroll heat dense" if is_dense else "scroll heat")


def column(lookup: Lookup, at: int, standing: Standing) -> Markup:
    """The head of a column: a robot's place, with its name for who asks."""
    return tag("th", tag("abbr", str(at), title=named(lookup.robots[standing.robot].name)), scope="col")


def row_head(lookup: Lookup, at: int, standing: Standing) -> Markup:
    return tag("th", tag("span", f"{at} ", class_="place"), lookup.robot_link(standing.robot, ""), scope="row", class_="text")


def cell(lookup: Lookup, one: Standing, other: Standing, is_dense: bool) -> Markup:
    """What a robot did against another."""
    pair = lookup.pair(one.robot, other.robot)
    if pair is None or not pair.score.played:
        return tag("td", class_="same" if one is other else "none")
    value = pair.score.share
    if is_dense:
        return bare(colours.step(value))
    link = tag("a", f"{100 * value:.0f}", href=places.pair_page(one.robot, other.robot), title=told(lookup, pair))
    return tag("td", link, class_=f"h{colours.step(value)}")


@functools.cache
def bare(step: int) -> Markup:
    """A cell that has its colour alone."""
    return tag("td", class_=f"h{step}")


def told(lookup: Lookup, pair: Pair) -> str:
    """The same in words."""
    one, other = (named(lookup.robots[robot].name) for robot in (pair.one, pair.other))
    return f"{one} against {other}: {percent(pair.score.share)}"
