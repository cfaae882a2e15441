"""Which robots and which rules a season had, from one entry to the next: also those that were changed or taken back."""

from collections import defaultdict
from dataclasses import dataclass
from typing import Iterator, NamedTuple

from .entries import ENTRY, WITHDRAW, Entrant, corrections
from .rules import Rules, rules
from .seasons import Season
from .store import Store


class Span(NamedTuple):
    """From when to when something was so: both are numbers of entries that there were then."""

    first: int
    last: int


@dataclass(frozen=True)
class State:
    """Who played when there were so many entries: each with the entry since which it had its bytes; and whether all of
    those before still do."""

    count: int
    robots: dict[str, tuple[Entrant, int]]
    has_all: bool = False


@dataclass(frozen=True)
class Ruled:
    """Rules that a season had for a while."""

    span: Span
    rules: Rules


def states(store: Store) -> Iterator[State]:
    """Who played at first, and after each entry and each correction."""
    undone = defaultdict[int, list[int]](list)
    for correction in corrections(store):
        if correction.what == ENTRY and correction.day is None:
            undone[correction.entries].append(correction.of)
    had: dict[str, list[tuple[int, Entrant | None]]] = defaultdict(list)
    yield State(0, {})
    for count, (number, what, robot, sha256, copy) in enumerate(
            store.rows("SELECT number, what, robot, sha256, copy FROM entry ORDER BY number"), 1):
        is_new = not (had[robot] and had[robot][-1][1])
        had[robot].append((number, None if what == WITHDRAW else Entrant(robot, sha256, copy)))
        yield State(count, standing(had), is_new)
        for of in undone[count]:
            for own in had.values():
                own[:] = [entry for entry in own if entry[0] != of]
            yield State(count, standing(had))


def standing(had: dict[str, list[tuple[int, Entrant | None]]]) -> dict[str, tuple[Entrant, int]]:
    """Who plays, by the entries of each robot that stand."""
    return {robot: (own[-1][1], own[-1][0]) for robot, own in had.items() if own and own[-1][1]}


def within(store: Store, span: Span) -> Iterator[State]:
    """The states of a time, with the one in which it began."""
    return (state for state in states(store) if span.first <= state.count <= span.last)


def ruled(store: Store, season: Season, last: int) -> list[Ruled]:
    """The rules of a season one after another, up to its last entry."""
    begun, = store.one("SELECT rules FROM season WHERE number = ?", season.number)
    rows = [(season.first_entry, begun), *store.rows(
        "SELECT entries, rules FROM ruling WHERE season = ? AND rules != '' ORDER BY number", season.number)]
    ends = [first for first, _ in rows[1:]] + [last]
    return [Ruled(Span(first, end), rules(text)) for (first, text), end in zip(rows, ends)]


def is_known(store: Store, season: Season) -> bool:
    """Reports whether all rules are known that a season ever had."""
    return not store.one("SELECT 1 FROM ruling WHERE season = ? AND rules = ''", season.number)
