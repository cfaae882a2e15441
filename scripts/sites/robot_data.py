"""What the site's script shows, as data: the names of all robots, and of each robot its source and its pairs.

They are scripts that hand in JSON, since a page that is opened from a file can't read other files. A robot's data don't depend on the
table. So they stay as they are until it plays again."""

import json
from typing import Any, Iterator, Sequence

from results.scores import Score

from . import places, sources
from .addresses import is_page
from .battles import Replays
from .facts import Battle, BySeat, Notable, Pair, Robot, RobotId
from .lookups import Lookup
from .names import file_name, named, shown

# The kinds of matches that are worth a look, as the bits of a number.
WHAT = ("closest", "shortest", "longest", "greatest upset")


def handed(name: str, value: str) -> str:
    """A script that hands in a value, as JSON."""
    return f"site.take({written(name)}, {value});\n"


def written(value: Any) -> str:
    """JSON that is ASCII, so a script in any encoding reads the same. What can't be shown was replaced before."""
    return json.dumps(value, separators=(",", ":"))


def names(lookup: Lookup) -> str:
    """The robots in the order of the table, those without a row last; and what all matches have in common."""
    facts = lookup.facts
    said = {"limit": facts.settings.cycles, "profile": facts.settings.profile, "page": facts.page if is_page(facts.page) else ""}
    rows = [written([file_name(robot.id), named(robot.name)]) for robot in sorted(facts.robots, key=lambda robot: (lookup.row(robot.id), robot.id))]
    return handed("", f'{written(said)[:-1]},"robots":[\n{lines(rows)}]}}')


def lines(rows: Sequence[str]) -> str:
    """Values, a line each."""
    return ",\n".join(rows) + "\n" * bool(rows)


def robot_data(lookup: Lookup, replays: Replays, robot: Robot) -> str:
    """A robot's data: its source, and its pairs by the other robots' files."""
    last = robot.versions[-1] if robot.versions else None
    source = sources.text(last.source) if last and last.source is not None else None
    head = {"file": places.source_file(robot.id, last) if last else "", "name": shown(robot.name), "source": source}
    rows = sorted(f"{written(file_name(pair.other))}:{written([*of_pair(lookup, replays, pair)])}" for pair in lookup.opponents(robot.id))
    return handed(file_name(robot.id), f'{written(head)[:-1]},"pairs":{{\n{lines(rows)}}}}}')


def of_pair(lookup: Lookup, replays: Replays, pair: Pair) -> Iterator[Any]:
    """A pair's score, interval and verdict from this robot's side; and what it did by seat, and the matches that are worth a look."""
    said = pair.decided
    yield numbers(pair.score)
    yield [round(pair.low, 4), round(pair.high, 4)]
    yield [said.what, said.matches] if said.matches else [said.what]
    if places.has_details(pair.one, pair.other):
        yield [of_seats(seat) for seat in sorted(pair.seats, key=lambda seat: (seat.seat, seat.against))]
        yield [[bits, *of_battle(lookup, replays, battle, (pair.one, pair.other))] for bits, battle in merged(pair.notable)]


def of_seats(seat: BySeat) -> list[int | str]:
    """The seats of a pair's robots, the first one's score from there, and of each series the seed, the first number and how many it has."""
    series: list[int | str] = []
    for one in seat.series:
        series += [str(one.seed), one.first, one.matches]
    return [seat.seat, seat.against, *numbers(seat.score), *series]


def numbers(score: Score) -> list[int]:
    return [score.won, score.tied, score.lost, score.both]


def merged(notables: Sequence[Notable]) -> list[tuple[int, Battle]]:
    """Each match once, with all that it is."""
    found: dict[Battle, int] = {}
    for notable in notables:
        found[notable.battle] = found.get(notable.battle, 0) | 1 << WHAT.index(notable.what)
    return [(bits, battle) for battle, bits in found.items()]


def of_battle(lookup: Lookup, replays: Replays, battle: Battle, pair: tuple[RobotId, RobotId]) -> Iterator[Any]:
    """A match: its robots with their damages, its number, seed and cycles, and its replay if there is one.

    The robots of the pair are 0 and 1, others are named by their files. A seed is a text: numbers of scripts are too short for it."""
    yield [part for seat in battle.seats for part in (seated(seat.robot, pair), seat.damage)]
    yield from (battle.number, str(battle.seed), battle.cycles)
    if replays and (place := lookup.replay(battle)) in replays:
        yield place


def seated(robot: RobotId, pair: tuple[RobotId, RobotId]) -> int | str:
    return pair.index(robot) if robot in pair else file_name(robot)
