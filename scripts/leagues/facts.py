"""What the site of a league shows, from its database."""

import functools
from collections import defaultdict
from dataclasses import dataclass, replace
from typing import Iterable, Iterator, Sequence

from results.standings import Standing
from sites.facts import Battle, Facts, Pair, Program, Robot, Seat, Settings, Sums, Table, Version
from sites.facts import Season as SiteSeason
from sites.gathering import Gathering
from tools.rules import DEADLY

from .entries import WITHDRAW, Entrant, Entry, entries, source
from .naming import names as given_names
from .publications import final, publications, published
from .results import Played, Results
from .schedules import Schedule
from .seasons import Season, seasons
from .store import Store
from .verdicts import Verdicts

# A robot's page has at most this number of its last lost matches.
LOST = 5
HIDDEN = "Sources and the archive are shown when the season ends."
Lost = dict[str, list[tuple[str, Battle]]]
# Robots in the order of their seats, and the seed of their matches.
Seated = tuple[tuple[str, ...], int]


@dataclass(frozen=True)
class Words:
    """What the site shows beside the league: its title and day, the archive, how it is checked, robots' sums, copies, and the hash of the
    publication. Of copies each robot is there that has the code of another author's robot, with that one."""

    title: str
    day: str
    archive: str
    verify: str
    page: str
    sums: dict[str, Sums]
    copied: dict[str, str]
    hash: str = ""


def facts_of_league(store: Store, schedule: Schedule, results: Results, standings: Sequence[Standing], words: Words) -> Facts:
    """All that the site shows."""
    rules, season = schedule.field.rules, schedule.field.season
    happened = entries(store, season.last_entry)
    ranks = {standing.robot: row for row, standing in enumerate(standings)}
    guests = left(happened, season)
    ranks |= {guest.robot: len(ranks) + row for row, guest in enumerate(guests)}
    gathering, lost = gathered(seatings(schedule, guests), results, ranks)
    settings = Settings(rules.matches, rules.cycles, rules.seed, rules.profile, rules.sizes, tuple(more(season)))
    return Facts(
        words.title, settings, Program(rules.version, rules.program), tuple(robots(store, happened, season, lost, words)),
        rows(standings), tuple(decided(gathering.pairs(), schedule, results)), words.day,
        tuple(earlier(store, season, words.day)), "points a match", words.archive, words.verify, words.page, hash=words.hash,
        season=season.name, divisions=rules.divisions, seasons=tuple(past(store, season)),
        hidden=HIDDEN if is_hidden(season) else "")


def decided(pairs: Iterable[Pair], schedule: Schedule, results: Results) -> Iterator[Pair]:
    """The pairs with what the sequential test says of each, if the rules have it: its decision, and its interval."""
    if not schedule.field.rules.sure:
        yield from pairs
        return
    verdicts = Verdicts(schedule, results)
    places = {robot.robot: at for at, robot in enumerate(schedule.field.robots)}
    for pair in pairs:
        if pair.one not in places or pair.other not in places:
            yield pair
            continue
        one, other = places[pair.one], places[pair.other]
        told = verdicts.told((min(one, other), max(one, other)))
        assert told
        seen = told if one < other else told.turned
        yield replace(pair, low=seen.low, high=seen.high, verdict=seen.verdict)


def is_hidden(season: Season) -> bool:
    """Whether the sources of a season's new robots aren't shown yet."""
    return season.rules.hidden and not season.ended


def more(season: Season) -> Iterator[tuple[str, str]]:
    """The rules that not every tournament has."""
    shown = {"matches", "limit", "seed", "profile"}
    yield "Season", f"{season.name}, since {season.begun}" + (f", until {season.ended}" if season.ended else "")
    for name, value in season.rules.said():
        if name not in shown:
            yield name.capitalize(), value


def rows(standings: Sequence[Standing]) -> tuple[Standing, ...]:
    """The rows of the tables of all divisions, of robots that have a rating."""
    return tuple(standing for standing in standings if standing.is_rated)


def earlier(store: Store, season: Season, day: str) -> Iterator[Table]:
    """The tables that were published before this one, the oldest first: of a day the last one of each season."""
    found: dict[tuple[str, int], int] = {}
    for publication in publications(store):
        if publication.season < season.number and publication.day <= day or publication.season == season.number and publication.day < day:
            found[publication.day, publication.season] = publication.number
    names = {season.number: season.name for season in seasons(store)}
    for (of_day, number), last in sorted(found.items(), key=lambda item: (item[0][1], item[0][0])):
        yield Table(of_day, {row.robot: row for row in rows(published(store, last))}, names[number])


def past(store: Store, season: Season) -> Iterator[SiteSeason]:
    """The seasons that ended before this one."""
    for older in seasons(store):
        if older.number < season.number:
            said = tuple((name.capitalize(), value) for name, value in older.rules.said())
            yield SiteSeason(older.name, older.begun, older.ended, said, rows(final(store, older)), older.rules.divisions)


def robots(store: Store, happened: Sequence[Entry], season: Season, lost: Lost, words: Words) -> Iterator[Robot]:
    """The robots that play, and those that left."""
    authors = dict(store.rows("SELECT id, author FROM robot"))
    shown = {entry.sha256 for entry in happened if entry.number <= season.first_entry or not is_hidden(season)}
    names = given_names(store)
    for robot in dict.fromkeys(entry.robot for entry in happened):
        own = [entry for entry in happened if entry.robot == robot]
        gone = own[-1].day if own[-1].what == WITHDRAW else ""
        battles = tuple(battle for _, battle in lost.get(robot, ()))
        yield Robot(robot, names.get(robot, robot), tuple(versions(store, own, shown)), authors[robot], gone,
                    words.sums.get(robot, Sums()), battles, words.copied.get(robot, ""))


def versions(store: Store, own: Sequence[Entry], shown: set[str]) -> Iterator[Version]:
    """The versions of a robot, each since the day on which it got it; with its source, if that is shown."""
    for entry in own:
        if entry.what != WITHDRAW:
            yield Version(entry.sha256, source(store, entry.sha256) if entry.sha256 in shown else None, entry.day)


def left(happened: Sequence[Entry], season: Season) -> list[Entrant]:
    """The robots that left while the season went on, with the bytes that they had."""
    last = {entry.robot: entry for entry in happened}
    gone = [entry for entry in happened if entry.number > season.first_entry and entry.what == WITHDRAW and last[entry.robot] is entry]
    return [Entrant(entry.robot, entry.sha256, entry.copy) for entry in gone]


def seatings(schedule: Schedule, guests: Sequence[Entrant]) -> Iterator[tuple[tuple[str, str], Seated]]:
    """All seatings of a season, as results name them, also those of robots that left meanwhile."""
    yield from named(schedule, schedule.groups())
    if guests:
        field = schedule.field
        among = tuple(sorted([*field.robots, *guests], key=lambda entrant: (entrant.sha256, entrant.robot)))
        wider = Schedule(replace(field, robots=among))
        places = {at for at, entrant in enumerate(among) if entrant in guests}
        yield from named(wider, (group for group in wider.groups() if not places.isdisjoint(group)))


def named(schedule: Schedule, groups: Iterable[tuple[int, ...]]) -> Iterator[tuple[tuple[str, str], Seated]]:
    """The seatings of groups, with the robots' ids in the order of their seats."""
    ids = [robot.robot for robot in schedule.field.robots]
    for group in groups:
        for seats, seed in schedule.seatings(group):
            yield schedule.seated(seats, seed), (tuple(ids[at] for at in seats), seed)


def gathered(them: Iterable[tuple[tuple[str, str], Seated]], results: Results, ranks: dict[str, int]) -> tuple[Gathering, Lost]:
    """Adds up all matches of a season, and finds the last ones that each robot lost."""
    found, lost = Gathering(ranks), defaultdict[str, list[tuple[str, Battle]]](list)
    for where, (robots, seed) in them:
        if played := results.battles(where):
            battles = [battle(robots, seed, play) for play in played]
            found.add(battles)
            for at, robot in enumerate(robots):
                there = [(play.day, one) for play, one in zip(played, battles) if play.match.damage[at] >= DEADLY]
                lost[robot] = last_ones([*lost[robot], *there])
    return found, lost


def last_ones(lost: Iterable[tuple[str, Battle]]) -> list[tuple[str, Battle]]:
    """The last lost matches, by their days and then by their numbers, the last one first."""
    return sorted(lost, key=lambda dated: (dated[0], dated[1].number), reverse=True)[:LOST]


def battle(robots: Sequence[str], seed: int, play: Played) -> Battle:
    """A match as the site names it."""
    return Battle(tuple(map(seat, robots, play.match.damage)), play.number, seed, play.match.cycles)


@functools.lru_cache(1 << 16)
def seat(robot: str, damage: int) -> Seat:
    """A robot with its damage: of a large league there are many equal ones."""
    return Seat(robot, damage)
