"""Publishes a site: all its pages and files, from the facts, into a folder."""

import os
from dataclasses import dataclass
from functools import partial
from pathlib import Path
from typing import Callable, Iterator, Sequence

from tools.faults import FILE, Fault, writing
from tools.programs import TRACE, installed

from . import colours, data, films, places, robot_data
from .facts import Battle, Facts
from .folders import Folder, Foreign
from .heat import heat_map
from .index import index
from .lookups import Lookup
from .pairs import pair_page
from .robots import robot_page
from .seasons import season_page
from .settings import settings_page

HERE = os.path.dirname(os.path.abspath(__file__))
Content = Callable[[], bytes]


def publish(facts: Facts, folder: str, replays: int = 0, jobs: int = 1) -> None:
    """Writes the site of these facts into a folder, and at most `replays` new replays, if `crobots-trace` is there.

    Replays that the folder has from before are kept. Raises Foreign if a file is in the way, and OSError."""
    lookup, site = Lookup(facts), Folder(folder)
    with site.open():
        wanted = chosen(lookup, site, replays if replays and installed(TRACE) else 0)
        there = {*wanted.kept, *wanted.given, *wanted.orders}
        older = older_archives(site, facts)
        contents = files(lookup, there, older)
        site.announce([*contents, *there])
        for place, text in films.made(wanted.orders, jobs) if wanted.orders else ():
            site.write(place, text)
        there = {place for place in there if place in wanted.given or site.has(place)}
        contents = files(lookup, there, older)
        site.fill({**wanted.given, **contents})
        site.keep({*contents, *there, *older})


def published(facts: Facts, folder: str, replays: int, jobs: int) -> None:
    """Does the same, or says why the folder can't have it."""
    try:
        with writing(folder):
            publish(facts, folder, replays, jobs)
    except Foreign as why:
        raise Fault(str(why), FILE) from why


@dataclass(frozen=True)
class Wanted:
    """The replays of matches that the site names, by their places: those that are kept, those that are given, and orders for new ones."""

    kept: set[str]
    given: dict[str, Content]
    orders: dict[str, films.Order]


def chosen(lookup: Lookup, site: Folder, most: int) -> Wanted:
    """Chooses the replays, of which at most so many are new: those of the first matches that have none."""
    found = Wanted(set(), {}, {})
    for battle in battles(lookup):
        place = lookup.replay(battle)
        if battle.replay:
            found.given[place] = partial(str.encode, battle.replay, "utf-8", "replace")
        elif site.has(place):
            found.kept.add(place)
        elif len(found.orders) < most and (robots := lookup.sources(battle)):
            found.orders[place] = films.order(lookup.facts.settings, battle, robots, films.ways_back(battle))
    return found


def battles(lookup: Lookup) -> Iterator[Battle]:
    """All matches that the site names: lost ones in the order of the table, then those of pairs, the best first."""
    facts = lookup.facts
    for robot in sorted(facts.robots, key=lambda robot: lookup.row(robot.id)):
        yield from robot.lost
    for pair in sorted(facts.pairs, key=lambda pair: sorted(map(lookup.row, (pair.one, pair.other)), reverse=True)):
        yield from (notable.battle for notable in pair.notable)


def older_archives(site: Folder, facts: Facts) -> list[str]:
    """The archives that were published before, which stay: whoever has one can see what was changed since."""
    now = places.archive_file(facts.archive) if facts.archive else ""
    return sorted(archive for archive in site.before if archive.startswith(places.ARCHIVES) and archive != now and site.has(archive))


def files(lookup: Lookup, replays: set[str], older: Sequence[str]) -> dict[str, Content]:
    """All files of the site but the replays, each made when it is written."""
    facts = lookup.facts
    pages: dict[str, Callable[[], str]] = {
        places.STYLE: style, places.TABLE: partial(data.table, lookup), places.PAIRS: partial(data.pairs, lookup),
        places.EVERYTHING: partial(data.everything, lookup), places.SETTINGS: partial(settings_page, lookup, older),
        **(data_pages(lookup, replays) if facts.pairs else {}),
        **{places.robot_page(robot.id): partial(robot_page, lookup, replays, robot) for robot in facts.robots},
        **{places.season_page(season.name): partial(season_page, lookup, season) for season in facts.seasons},
        places.MAP: partial(heat_map, lookup), places.INDEX: partial(index, lookup),
    }
    return {**sources(facts), **archive(facts), **{place: partial(encoded, make) for place, make in pages.items()}}


def data_pages(lookup: Lookup, replays: set[str]) -> dict[str, Callable[[], str]]:
    """The page of all pairs, its script, and the data that this shows."""
    data = {places.data_file(robot.id): partial(robot_data.robot_data, lookup, replays, robot) for robot in lookup.facts.robots}
    return {places.SCRIPT: partial(text_of, "site.js"), **data, places.NAMES: partial(robot_data.names, lookup),
            places.PAIR: partial(pair_page, lookup)}


def sources(facts: Facts) -> dict[str, Content]:
    """The sources of all versions that are known."""
    return {places.source_file(robot.id, version): partial(bytes, version.source)
            for robot in facts.robots for version in robot.versions if version.source is not None}


def archive(facts: Facts) -> dict[str, Content]:
    """The archive, if there is one."""
    return {places.archive_file(facts.archive): Path(facts.archive).read_bytes} if facts.archive else {}


def encoded(make: Callable[[], str]) -> bytes:
    return make().encode()


def style() -> str:
    """The style of all pages."""
    return text_of("site.css") + colours.style()


def text_of(name: str) -> str:
    """A file of this folder."""
    return Path(HERE, name).read_text(encoding="utf-8")
