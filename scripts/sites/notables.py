"""Chooses the matches of a pair that are worth a look."""

from typing import Iterable, Iterator

from tools.rules import DEADLY

from .facts import Battle, Notable, RobotId


def shortness(battle: Battle) -> tuple[int, int, int]:
    """The order in which shorter matches come first."""
    return battle.cycles, battle.seed, battle.number


def decided(battles: Iterable[Battle], one: RobotId, other: RobotId) -> Iterator[tuple[bool, int, Battle]]:
    """The matches that one of two robots survived, and not both: whether it was the first, and how it was damaged."""
    for battle in battles:
        damage = {seat.robot: seat.damage for seat in battle.seats}
        mine, theirs = damage[one], damage[other]
        if (mine < DEADLY) != (theirs < DEADLY):
            yield mine < DEADLY, min(mine, theirs), battle


def notables(battles: Iterable[Battle], better: RobotId, worse: RobotId) -> tuple[Notable, ...]:
    """Of the matches of two robots the closest, the shortest, the longest and the greatest upset, as far as there are.

    They are chosen from the matches that one of both survived. In the closest one it was damaged most. An upset is one
    that the worse robot survived, the greatest is that in which it was damaged least. Of equal ones the shorter goes,
    at last that of the lower seed and number: so the order of the matches makes no difference."""
    rows = [*decided(battles, better, worse)]
    if not rows:
        return ()
    found = [
        Notable("closest", min(rows, key=lambda row: (-row[1], *shortness(row[2])))[2]),
        Notable("shortest", min((battle for _, _, battle in rows), key=shortness)),
        Notable("longest", min((battle for _, _, battle in rows), key=lambda battle: (-battle.cycles, battle.seed, battle.number))),
    ]
    upsets = [row for row in rows if not row[0]]
    if upsets:
        found.append(Notable("greatest upset", min(upsets, key=lambda row: (row[1], *shortness(row[2])))[2]))
    return tuple(found)
