"""Seasons: from a day on a table is that of the season, by its rules and its robots. Robots may play in divisions."""

from dataclasses import dataclass
from typing import Sequence

from tools.faults import Fault

from .entries import BEGIN, END, Entrant, Entry, corrections, entries, last_day, playing
from .rules import Rules, rules
from .store import Store

QUERY = ("SELECT number, name, begun, ending.day, first_entry, last_entry, rules FROM season "
         "LEFT JOIN ending ON season = number ORDER BY number")


@dataclass(frozen=True)
class Season:
    """A season; one that goes on has no end."""

    number: int
    name: str
    begun: str
    ended: str
    first_entry: int
    last_entry: int | None
    rules: Rules


@dataclass(frozen=True)
class Field:
    """A season with the robots that play in it, in the order of their hashes and then of their ids."""

    season: Season
    robots: tuple[Entrant, ...]
    divisions: dict[str, int]
    # the number of the entry since which each robot has its bytes
    since: dict[str, int]

    @property
    def rules(self) -> Rules:
        return self.season.rules

    def division(self, robot: str) -> int:
        """A robot that has come since the season began plays in the lowest division."""
        return self.divisions.get(robot, self.rules.divisions)

    def places(self, division: int) -> list[int]:
        """Who plays in a division: its robots, and the one with the fixed rating, by which divisions are compared."""
        return [at for at, entrant in enumerate(self.robots)
                if self.division(entrant.robot) == division or entrant.robot == self.rules.anchor]


def begin(store: Store, name: str, day: str, by: Rules, divisions: dict[str, int]) -> None:
    """Begins a season."""
    if not name.isprintable() or not 1 <= len(name) <= 40:
        raise Fault("a season's name has 1 to 40 letters, all of which can be shown")
    if store.one("SELECT 1 FROM season WHERE name = ?", name):
        raise Fault(f"there was a season {name} already")
    count = store.one("SELECT count(*) FROM entry")[0]
    columns, after = "name, begun, first_entry, rules, publication", store.next()
    number = store.run(f"INSERT INTO season ({columns}) VALUES (?, ?, ?, ?, ?)", name, day, count, by.text(), after)
    rows = [(number, *member, after) for member in sorted(divisions.items())]
    store.database.executemany("INSERT INTO member VALUES (?, ?, ?, ?)", rows)


def end(store: Store, season: Season, day: str, missing: int) -> None:
    """Ends a season, in which so many matches are missing."""
    last = last_day(store)
    if day < max(season.begun, last):
        raise Fault(f"the season {season.name} began on {season.begun}, and the last entry is of {last or 'no day'}: "
                    f"it can't end on {day}")
    count = store.one("SELECT count(*) FROM entry")[0]
    store.run("INSERT INTO ending VALUES (?, ?, ?, ?, ?)", season.number, day, count, missing, store.next())


def settle(store: Store, season: Season, by: Rules, day: str) -> None:
    """Gives a season other rules."""
    count = store.one("SELECT count(*) FROM entry")[0]
    store.run("INSERT INTO ruling (day, season, entries, rules, publication) VALUES (?, ?, ?, ?, ?)", day, season.number,
              count, by.text(), store.next())


def seasons(store: Store) -> list[Season]:
    """All seasons in their order, with their last rules, and with their days as they were corrected."""
    rulings = dict(store.rows("SELECT season, rules FROM ruling WHERE rules != '' ORDER BY number"))
    days = {(correction.what, correction.of): correction.day for correction in corrections(store)}
    return [Season(number, name, days.get((BEGIN, number)) or begun, days.get((END, number)) or ended or "", first, last,
                   rules(rulings.get(number, text)))
            for number, name, begun, ended, first, last, text in store.rows(QUERY)]


def season(store: Store, name: str | None = None) -> Season:
    """The season with this name, or the last one."""
    found = [season for season in seasons(store) if name in (None, season.name)]
    if not found:
        raise Fault(f"there is no season {name}")
    return found[-1]


def running(store: Store) -> Season:
    """The season that goes on."""
    last = season(store)
    if last.ended:
        raise Fault(f"the season {last.name} ended on {last.ended}; `season begin` begins another")
    return last


def has_ended(store: Store, season: Season) -> bool:
    """Reports whether a season has ended, also since it was read."""
    return any(one.number == season.number and one.ended for one in seasons(store))


def refuse_ended(store: Store, season: Season) -> None:
    """Refuses to keep matches of a season that ended while they were played: its table is that of those that were kept before."""
    if has_ended(store, season):
        raise Fault(f"the season {season.name} ended while it was being played; what wasn't kept before doesn't count")


def field(store: Store, season: Season) -> Field:
    """The robots of a season, as they are now or were at its end."""
    happened = entries(store, season.last_entry)
    now = playing(happened)
    robots = sorted(now.values(), key=lambda one: (one.sha256, one.robot))
    members = dict(store.rows("SELECT robot, division FROM member WHERE season = ?", season.number))
    return Field(season, tuple(robots), members, since(happened))


def since(happened: Sequence[Entry]) -> dict[str, int]:
    """By which entry each robot got its last bytes."""
    return {entry.robot: entry.number for entry in happened}


def promoted(tables: Sequence[Sequence[str]], moves: int) -> list[list[str]]:
    """The divisions after a season, from the tables of its divisions, the highest first.

    From each division the last ones go down, and from the one below as many of the first ones go up."""
    found = [[*table] for table in tables]
    for above, below in zip(range(len(found)), range(1, len(found))):
        many = min(moves, len(tables[above]) // 2, len(tables[below]) // 2)
        if many:
            down, up = [*tables[above]][-many:], [*tables[below]][:many]
            found[above] = [robot for robot in found[above] if robot not in down] + up
            found[below] = down + [robot for robot in found[below] if robot not in up]
    return found


def split(table: Sequence[str], divisions: int) -> list[list[str]]:
    """A table cut into divisions, of which the first ones have one robot more if it doesn't divide."""
    size, more = divmod(len(table), divisions)
    ends = [0]
    for at in range(divisions):
        ends.append(ends[-1] + size + (at < more))
    return [[*table[begin:end]] for begin, end in zip(ends, ends[1:])]
