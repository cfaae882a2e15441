"""In which order what is missing is played: breadth first, in turns of authors.

A pass has a piece of each seating that wants more. First a new robot meets some opponents all over the table, then each pair plays
once from each seat, then all of them go deeper by equal pieces."""

from collections import Counter
from dataclasses import dataclass
from typing import Iterable, Iterator, Mapping

from leagues.missing import gaps, needs
from leagues.results import Results
from leagues.schedules import Schedule
from results.battles import Group
from tournaments.records import Series

# A robot with fewer matches is a new one: it meets so many groups first.
NEW, SPREAD = 24, 12
# How many matches of a seating are played before all others have as many.
PIECE = 10
FIRST, ONCE, DEEPER = 0, 1, 2


@dataclass(frozen=True)
class Piece:
    """Matches to be played, on which level, and in whose turn."""

    level: int
    series: Series
    author: str


def in_turns(schedule: Schedule, results: Results, worth: Mapping[int, float], authors: Mapping[str, str]) -> list[Series]:
    """The series of the next pass in their order. Authors of robots are named by any texts."""
    pieces = [*cut(schedule, results, authors)]
    early = spread_out(schedule, results, pieces, worth)
    pieces = [Piece(FIRST if piece.series.group in early and piece.level == ONCE else piece.level, piece.series, piece.author) for piece in pieces]

    def gap(piece: Piece) -> float:
        there = [worth.get(at, 0.0) for at in piece.series.seats]
        return max(there) - min(there)

    turns: Counter[tuple[int, str]] = Counter()
    order: list[tuple[int, int, float, Series]] = []
    for piece in sorted(pieces, key=gap):
        order.append((piece.level, turns[piece.level, piece.author], gap(piece), piece.series))
        turns[piece.level, piece.author] += 1
    return [series for *_, series in sorted(order)]


def cut(schedule: Schedule, results: Results, authors: Mapping[str, str]) -> Iterator[Piece]:
    """The next piece of each seating that wants more."""
    ends, since = results.ends(), schedule.field.since
    names = [entrant.robot for entrant in schedule.field.robots]
    for need in needs(schedule, results):
        newest = max((names[at] for at in need.group), key=lambda robot: since[robot])
        for robots, seed in schedule.seatings(need.group):
            number = results.number(schedule.seated(robots, seed)) or 0
            count, last = ends.get(number, (0, 0))
            run = (last + 1, need.each) if count == last else next(iter(gaps(results.played(number), need.each)), (1, 0))
            if run[0] <= run[1]:
                yield piece(Series(robots, seed, run[0], run[1] - run[0] + 1), authors.get(newest, newest))


def piece(whole: Series, author: str) -> Piece:
    """The first piece of a series: one match if none was played, else up to the next multiple."""
    if whole.first == 1:
        return Piece(ONCE, whole._replace(matches=1), author)
    deep = (whole.first - 1) // PIECE
    return Piece(DEEPER + deep, whole._replace(matches=min(whole.matches, (deep + 1) * PIECE - whole.first + 1)), author)


def spread_out(schedule: Schedule, results: Results, pieces: Iterable[Piece], worth: Mapping[int, float]) -> set[Group]:
    """The groups that new robots play first: spread over the table."""
    played = matches_of(schedule, results)
    wanted: dict[int, list[Group]] = {}
    for group in {piece.series.group for piece in pieces if piece.level == ONCE}:
        for at in group:
            if played[at] < NEW:
                wanted.setdefault(at, []).append(group)
    found: set[Group] = set()
    for at, groups in wanted.items():
        groups.sort(key=lambda group: (sum(worth.get(other, 0.0) for other in group if other != at), group))
        found.update(groups[place * len(groups) // SPREAD] for place in range(SPREAD))
    return found


def matches_of(schedule: Schedule, results: Results) -> Counter[int]:
    """How many matches each robot of the field has played."""
    ends = results.ends()
    found: Counter[int] = Counter()
    for group in schedule.groups():
        for robots, seed in schedule.seatings(group):
            many = ends.get(results.number(schedule.seated(robots, seed)) or 0, (0, 0))[0]
            found.update({at: many for at in robots})
    return found
