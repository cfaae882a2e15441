"""Whether an archive has the matches that its rules and entries ask for: none is missing that isn't said to be, and none
is there that nobody asked for."""

import math
from collections import Counter
from dataclasses import replace
from functools import cached_property
from typing import Iterable, Iterator, NamedTuple

from results.battles import Group
from tournaments.records import Series

from .entries import Entrant
from .keys import copies_of, possible
from .ladders import climbed
from .missing import missing
from .results import Results
from .rules import GAUNTLET, LADDER
from .schedules import Schedule, scheduled
from .seasons import Field, Season, field, seasons
from .store import Store
from .timelines import Ruled, State, is_known, ruled, within
from .verdicts import Verdicts

# Most groups for which it is worked out whether a sample had them at any time; of more any group may have been drawn.
MOST_GROUPS = 2_000_000
MOST_NAMED = 20


class Finding(NamedTuple):
    """What is to be said of an archive, and whether it is wrong."""

    is_wrong: bool
    said: str


class Judge:
    """Judges which matches a season may have, by rules that it had for a while."""

    def __init__(self, store: Store, season: Season, by: Ruled) -> None:
        self.rules = by.rules
        self._store, self._span = store, by.span
        self._is_known = is_known(store, season)
        self._there, ever = together(within(store, by.span))
        self.field = self._field(season, ever)
        self.schedule = Schedule(self.field)
        self._places = {key: at for at, key in enumerate(self.schedule.keys)}
        self._is_strict = self._is_known and len(ruled(store, season, by.span.last)) == 1 and not store.one(
            "SELECT 1 FROM removal")

    def _field(self, season: Season, robots: Iterable[Entrant], since: dict[str, int] | None = None) -> Field:
        """A field of the season with these robots."""
        members = dict(self._store.rows("SELECT robot, division FROM member WHERE season = ?", season.number))
        inside = tuple(sorted(robots, key=lambda one: (one.sha256, one.robot)))
        return Field(replace(season, rules=self.rules), inside, members, since or {})

    def group(self, keys: list[str], seed: str) -> Group | None:
        """The robots that sit so, if these rules seat them so."""
        if not self._places.keys() >= {*keys}:
            return None
        seats = tuple(self._places[key] for key in keys)
        group = tuple(sorted(seats))
        return group if (seats, int(seed)) in self.schedule.seatings(group) else None

    def most(self, group: Group) -> float:
        """Up to which number matches of a group's seatings may have been played; 0 if none."""
        if not (self._were_together(group) and self._are_of_a_group(group)):
            return 0
        if not self._is_known:
            return math.inf
        each = self.schedule.settings.each(len(group))
        return min(each, self._verdicts.wanted(group)) if self.rules.sure else each

    def _were_together(self, group: Group) -> bool:
        """Reports whether all of these robots played at one time."""
        keys = {self.schedule.keys[at] for at in group}
        return any(keys <= there for there in reversed(self._there))

    def _are_of_a_group(self, group: Group) -> bool:
        """Reports whether the rules have such a group."""
        robots = [self.field.robots[at] for at in group]
        if len(group) not in self.rules.sizes or not self._may_meet(group):
            return False
        if self.rules.mode == GAUNTLET:
            return self.rules.champion in {robot.robot for robot in robots}
        if self.rules.sample or self.rules.mode == LADDER:
            return self._groups is None or group in self._groups
        return True

    def _may_meet(self, group: Group) -> bool:
        """Reports whether a division has all of them."""
        many = self.rules.divisions
        return many == 1 or any({*group} <= {*self.field.places(division)} for division in range(1, many + 1))

    @cached_property
    def _groups(self) -> set[Group] | None:
        """The groups that were drawn or asked for at any time; nothing if that isn't worked out."""
        times = self._span.last - self._span.first + 1
        if not self._is_strict or times * math.comb(len(self._places), min(self.rules.sizes)) > MOST_GROUPS:
            return None
        return {group for state in within(self._store, self._span) for group in self._groups_of(state)}

    def _groups_of(self, state: State) -> Iterator[Group]:
        """The groups at one time."""
        if self.rules.mode == LADDER:
            yield from self._climbed(state)
            return
        there = Schedule(self._field(self.field.season, (entrant for entrant, _ in state.robots.values())))
        for group in there.groups():
            yield tuple(sorted(self._places[there.keys[at]] for at in group))

    def _climbed(self, state: State) -> list[Group]:
        """The pairs that have to meet until all robots of one time are on the ladder."""
        entering = [self._places[entrant.key] for entrant, _ in sorted(state.robots.values(), key=lambda one: one[1])]
        met: list[Group] = []

        def won(newcomer: int, other: int) -> bool | None:
            met.append((min(newcomer, other), max(newcomer, other)))
            return self._verdicts.won(newcomer, other)

        climbed(entering, won)
        return met

    @cached_property
    def _verdicts(self) -> Verdicts:
        return Verdicts(self.schedule, Results(self._store, self.rules))

    def named(self, group: Group) -> str:
        """A group's robots."""
        return among(self.field, group)


def among(there: Field, group: Iterable[int]) -> str:
    """The names of robots."""
    return ", ".join(there.robots[at].robot for at in group)


def together(them: Iterable[State]) -> tuple[list[set[str]], set[Entrant]]:
    """The keys of robots that played at one time, of times after which one of them went; and all robots."""
    largest: list[State] = []
    for state in them:
        if largest and state.has_all:
            largest.pop()
        largest.append(state)
    robots = [{entrant for entrant, _ in state.robots.values()} for state in largest]
    return [{entrant.key for entrant in there} for there in robots], {entrant for there in robots for entrant in there}


def judges(store: Store) -> list[Judge]:
    """A judge for each time of each season with the same rules."""
    return [judge for season in seasons(store) for judge in judges_of(store, season)]


def judges_of(store: Store, season: Season) -> list[Judge]:
    """A judge for each time of a season with the same rules."""
    last = store.one("SELECT count(*) FROM entry")[0] if season.last_entry is None else season.last_entry
    return [Judge(store, season, by) for by in ruled(store, season, last)]


def beyond(store: Store) -> Iterator[Finding]:
    """The matches that no rules ask for, and those after which a pair was decided already."""
    them, copies = judges(store), copies_of(store)
    known = {season.name: season for season in seasons(store)}
    played = {seating: last for seating, last in store.rows("SELECT seating, max(number) FROM battle GROUP BY 1")}
    for number, hashes, seed, *by in store.rows("SELECT number, hashes, seed, cycles, profile, program FROM seating"):
        found = [(judge, group) for judge in them if [judge.rules.cycles, judge.rules.profile, judge.rules.program] == by
                 for keys in possible(hashes.split(","), copies) if (group := judge.group(keys, seed)) is not None]
        most = max((judge.most(group) for judge, group in found), default=0 if all(
            is_known(store, season) for season in known.values()) else math.inf)
        if played.get(number, 0) > most:
            over = store.one("SELECT count(*) FROM battle WHERE seating = ? AND number > ?", number, most)[0]
            said = f"{found[0][0].named(found[0][1])} in season {found[0][0].field.season.name}" if found else hashes
            yield Finding(True, f"{over} matches of {said} are beyond what is asked for, from number {most + 1} on")


def lacking(store: Store) -> Iterator[Finding]:
    """The matches that are missing, and whether their number is the one that the archive says."""
    for season in seasons(store):
        there, left = field(store, season), missing_of(store, season)
        count, said = sum(series.matches for series in left), missing_by_itself(store, season)
        if said not in (None, count):
            yield Finding(True, f"{count} matches of season {season.name} are missing, and the archive says {said}")
        yield from (Finding(said not in (None, count), line) for line in listed(there, left))


def missing_of(store: Store, season: Season) -> list[Series]:
    """The matches of a season that are missing."""
    return [*missing(*scheduled(store, season))]


def missing_by_itself(store: Store, season: Season) -> int | None:
    """How many matches an archive says are missing of a season; None if it doesn't say."""
    found = store.one("SELECT missing FROM ending WHERE season = ?", season.number)
    if not found:
        found = store.one("SELECT missing FROM publication WHERE season = ? AND hash != '' ORDER BY number DESC", season.number)
    return found[0] if found else None


def listed(there: Field, left: list[Series]) -> Iterator[str]:
    """Which matches are missing, by groups."""
    counts = Counter[Group]()
    for series in left:
        counts[series.group] += series.matches
    for group, count in counts.most_common(MOST_NAMED):
        yield f"{count} matches of {among(there, group)} are missing in season {there.season.name}"
    if len(counts) > MOST_NAMED:
        yield f"and matches of {len(counts) - MOST_NAMED} more groups are missing in season {there.season.name}"
