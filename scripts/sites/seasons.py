"""The page of a season that ended: its last table, and its rules."""

from . import places
from .facts import Season
from .frames import above, page, section
from .index import tables
from .lookups import Lookup
from .markup import tag
from .names import named
from .numbers import counted
from .tables import listed


def season_page(lookup: Lookup, season: Season) -> str:
    """The page of a season."""
    place, title = places.season_page(season.name), f"Season {named(season.name)}"
    lead = tag("p", f"{season.begun} to {season.ended} · {counted(len(season.standings), 'robot')}", class_="lead")
    shown = tables(lookup, season.standings, season.divisions, None, above(place)) if season.standings else []
    return page(lookup, place, title, tag("h1", "Season ", tag("bdi", named(season.name))), lead, *shown, section("Rules", listed(season.rules)))
