"""What was played: each match by its robots' bytes in the order of their seats, its seed and its number."""

from collections import Counter
from itertools import groupby
from operator import itemgetter
from typing import Collection, Iterator, NamedTuple, Sequence

from results.battles import Match, letters, match
from results.scores import Score, between, counted
from tools.faults import FILE, Fault
from tools.rules import DEADLY, MOST_ROBOTS

from .rules import Rules
from .schema import DAMAGE, DAMAGES
from .store import Store

# Hashes in the order of seats, with commas between them, and the seed of the matches.
Seated = tuple[str, str]
# Whether the first robot of a pair died, and whether the second did.
DIED = [(one, other) for one in (False, True) for other in (False, True)]
BY = "seating.cycles = ? AND profile = ? AND program = ?"
COLUMNS = f"seating, battle.number, battle.cycles, {DAMAGE}, battle.day"
FOUGHT = f"number, cycles, {DAMAGE}, day"
JOINED = f"FROM battle JOIN seating ON seating.number = seating WHERE {BY}"
INSERT = f"INSERT INTO battle VALUES ({', '.join('?' * (6 + MOST_ROBOTS))})"


def seated(hashes: Sequence[str], seed: int) -> Seated:
    return ",".join(hashes), str(seed)


class Played(NamedTuple):
    """A match with its number and the day on which it was played."""

    number: int
    match: Match
    day: str


class Results:
    """The results that count by some rules."""

    def __init__(self, store: Store, rules: Rules) -> None:
        self._store = store
        self._by = (rules.cycles, rules.profile, rules.program)
        self._numbers: dict[Seated, int] = {}
        self.reread()

    def reread(self) -> None:
        """Learns which seatings there are now."""
        rows = self._store.rows(f"SELECT hashes, seed, number FROM seating WHERE {BY}", *self._by)
        self._numbers = {(hashes, seed): number for hashes, seed, number in rows}

    def number(self, where: Seated) -> int | None:
        """The number that the database has for a seating, if anything of it was played."""
        return self._numbers.get(where)

    def ends(self) -> dict[int, tuple[int, int]]:
        """Of each seating how many matches there are, and the highest of their numbers."""
        rows = self._store.rows(f"SELECT seating, count(*), max(battle.number) {JOINED} GROUP BY seating", *self._by)
        return {seating: (count, last) for seating, count, last in rows}

    def played(self, seating: int) -> list[int]:
        """The numbers of a seating's matches."""
        return [number for number, in self._store.rows("SELECT number FROM battle WHERE seating = ?", seating)]

    def battles(self, where: Seated) -> list[Played]:
        """The matches of a seating, by their numbers; none if nothing of it was played."""
        return matches(self._store, self.number(where))

    def counts(self, look: int) -> dict[int, dict[int, Score]]:
        """Of each seating of two robots what the first one did, in each part of `look` matches."""
        ended = ", ".join(f"sum((damage1 = {DEADLY}) = {one:d} AND (damage2 = {DEADLY}) = {other:d})" for one, other in DIED)
        query = f"SELECT seating, (battle.number - 1) / {look}, {ended} {JOINED} AND damage3 IS NULL GROUP BY 1, 2"
        found: dict[int, dict[int, Score]] = {}
        for seating, part, *counts in self._store.database.execute(query, self._by):
            found.setdefault(seating, {})[part] = between(dict(zip(DIED, counts)))
        return found

    def endings(self) -> dict[int, dict[str, int]]:
        """Of each seating how many matches ended so: a letter w, t or l for the robot of each seat."""
        died = ", ".join(f"{column} = {DEADLY}" for column in DAMAGES)
        found: dict[int, dict[str, int]] = {}
        query = f"SELECT seating, count(*), {died} {JOINED} GROUP BY 1, {died}"
        for seating, count, *dead in self._store.database.execute(query, self._by):
            found.setdefault(seating, {})[letters([is_dead for is_dead in dead if is_dead is not None])] = count
        return found

    def each(self) -> Iterator[tuple[int, list[Played]]]:
        """The matches of each seating, by their numbers."""
        rows = self._store.database.execute(f"SELECT {COLUMNS} {JOINED} ORDER BY seating, battle.number", self._by)
        for seating, battles in groupby(rows, itemgetter(0)):
            yield int(seating), [Played(at, ended(cycles, damage), day) for _, at, cycles, *damage, day in battles]


def scores_of(store: Store, rules: Rules, wanted: Collection[str]) -> dict[str, Score]:
    """What robots with these bytes did by some rules, each against whomever it met: by the hashes of the bytes. Of all seatings those that
    have none of these aren't kept in memory."""
    found = {sha256: Counter[str]() for sha256 in wanted}
    by = (rules.cycles, rules.profile, rules.program)
    each = ((number, hashes.split(",")) for number, hashes in store.database.execute(f"SELECT number, hashes FROM seating WHERE {BY}", by))
    for number, there in [seating for seating in each if not found.keys().isdisjoint(seating[1])]:
        for _, fought, _ in matches(store, number):
            for sha256, letter in zip(there, fought.results):
                if sha256 in found:
                    found[sha256][letter] += 1
    return {sha256: counted(letters_of) for sha256, letters_of in found.items()}


def matches(store: Store, seating: int | None) -> list[Played]:
    """The matches of a seating by its number, in their order."""
    rows = store.database.execute(f"SELECT {FOUGHT} FROM battle WHERE seating = ? ORDER BY number", [seating])
    return [Played(at, ended(cycles, damage), day) for at, cycles, *damage, day in rows]


def ended(cycles: int, damage: Sequence[int | None]) -> Match:
    return Match(cycles, tuple(percent for percent in damage if percent is not None))


def keep(store: Store, rules: Rules, where: Seated, first: int, results: str, day: str,
         worker: int | None = None) -> tuple[int, int]:
    """Keeps the results of a series, played here or by a worker; answers how many are new, and how many were there.

    A result that is there otherwise is refused, with the whole series: then either was not played as it says."""
    by = (rules.cycles, rules.profile, rules.program)
    columns, after = "hashes, seed, cycles, profile, program, publication", store.next()
    store.run(f"INSERT OR IGNORE INTO seating ({columns}) VALUES (?, ?, ?, ?, ?, ?)", *where, *by, after)
    number = int(store.one(f"SELECT number FROM seating WHERE hashes = ? AND seed = ? AND {BY}", *where, *by)[0])
    theirs = dict(enumerate(map(match, results.split(",")), first))
    known = ours(store, number, first, first + len(theirs) - 1)
    for at, result in known.items():
        if theirs[at] != result:
            raise Fault(f"has match {at} of these robots with another result than the league", FILE)
    new = [(*row(number, at, result), day, worker, after) for at, result in theirs.items() if at not in known]
    store.database.executemany(INSERT, new)
    return len(new), len(known)


def ours(store: Store, seating: int, first: int, last: int) -> dict[int, Match]:
    """The matches that are there already."""
    query = (f"SELECT number, cycles, {DAMAGE} FROM battle "
             "WHERE seating = ? AND number BETWEEN ? AND ?")
    return {number: ended(cycles, damage) for number, cycles, *damage in store.rows(query, seating, first, last)}


def row(seating: int, number: int, match: Match) -> tuple[int | None, ...]:
    empty: list[int | None] = [None] * (MOST_ROBOTS - len(match.damage))
    return seating, number, match.cycles, *match.damage, *empty
