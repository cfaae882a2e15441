"""A match as a page shows it: how it ended, what plays it, and the command line that plays it again."""

from typing import AbstractSet

from results.battles import DID

from . import charts, commands
from .facts import Battle, Seat
from .films import MOST_CYCLES
from .lookups import Lookup
from .markup import Markup, joined, tag
from .numbers import count
from .tables import command_line

Replays = AbstractSet[str]


def card(lookup: Lookup, replays: Replays, heading: Markup, battle: Battle, up: str) -> Markup:
    """A match with its heading. Its replay is linked if it is one of those that there are."""
    seats = tag("ol", *(in_seat(lookup, seat, DID[letter], up) for seat, letter in zip(battle.seats, battle.results)), class_="seats")
    return tag("article", heading, tag("p", ended(battle), class_="ended"), seats, ways(lookup, replays, battle, up),
               command(lookup, battle), class_="battle")


def ended(battle: Battle) -> str:
    return f"Match {battle.number}, {count(battle.cycles)} cycles"


def in_seat(lookup: Lookup, seat: Seat, did: str, up: str) -> Markup:
    """A robot in its seat, with its damage and what it did."""
    return tag("li", tag("span", lookup.robot_link(seat.robot, up)), tag("span", did, class_=f"did {did}"),
               tag("span", charts.damage(seat.damage), f" {seat.damage} % damage", class_="hurt"))


def ways(lookup: Lookup, replays: Replays, battle: Battle, up: str) -> Markup:
    """Links to what plays the match."""
    replay, browser = lookup.replay(battle), lookup.browser(battle)
    part = not battle.replay and battle.cycles > MOST_CYCLES
    said = f"Watch its last {count(MOST_CYCLES)} cycles" if part else "Watch the replay"
    found = [tag("a", said, href=up + replay, class_="button")] if replay in replays else []
    if browser:
        found.append(tag("a", "Open it in the browser's page", href=browser, class_="button"))
    return tag("p", joined(*found), class_="ways") if found else Markup("")


def command(lookup: Lookup, battle: Battle) -> Markup:
    """The command line that plays the match again, in the site's folder, if all sources are there."""
    if not lookup.sources(battle):
        return Markup("")
    return command_line(commands.again(lookup.facts.settings, battle, lookup.files(battle)))
