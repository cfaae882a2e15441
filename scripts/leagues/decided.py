"""What the sequential test says of all pairs of a season: as a table, as data, and in short."""

from collections import Counter
from typing import Any, Iterator, Sequence

from results.verdicts import BETTER, EVEN, OPEN, WORSE
from tools.tables import aligned, comma_separated

from .results import Results
from .schedules import Schedule
from .verdicts import Told, Verdicts, data, said

HEAD = ["robot", "against", "tested", "won", "even", "lost", "share", "low", "high"]
# Both robots of a pair by their ids, and what is said from the side of the first one.
Pair = tuple[str, str, Told]


def decided(schedule: Schedule, results: Results) -> Iterator[Pair]:
    """The pairs in the order of the robots' ids; none if the season has no test."""
    if schedule.field.rules.sure:
        verdicts, names = Verdicts(schedule, results), [robot.robot for robot in schedule.field.robots]
        found = ((names[pair[0]], names[pair[1]], verdicts.told((pair[0], pair[1]))) for pair in schedule.groups())
        yield from sorted(((one, other, told) if one < other else (other, one, told.turned) for one, other, told in found if told),
                          key=lambda pair: pair[:2])


def table(pairs: list[Pair]) -> str:
    """The pairs in columns, with the verdict in words."""
    rows = [[one, other, *map(str, counts(told)), *(f"{100 * share:.1f} %" for share in shares(told)), said(told, one, other)] for one, other, told in pairs]
    return aligned([[*HEAD, ""], *rows], (0, 1, len(HEAD)))


def comma(pairs: list[Pair]) -> str:
    """The pairs as comma-separated values."""
    rows = ([one, other, *counts(told), *(f"{share:.4f}" for share in shares(told)), data(told)["verdict"]] for one, other, told in pairs)
    return comma_separated([[*HEAD, "verdict"], *rows])


def counts(told: Told) -> tuple[int, int, int, int]:
    return told.score.played, told.score.won, told.score.even, told.score.yielded


def shares(told: Told) -> tuple[float, float, float]:
    """The share of the first robot, and its interval."""
    return told.score.share, told.low, told.high


def everything(pairs: Sequence[Pair]) -> list[dict[str, Any]]:
    """The pairs for JSON."""
    return [{"robot": one, "against": other, **dict(zip(HEAD[2:6], counts(told))), **data(told)} for one, other, told in pairs]


def in_short(pairs: list[Pair]) -> str:
    """How many pairs are decided, and how."""
    many = Counter(told.decision for _, _, told in pairs)
    return f"of {len(pairs)} pairs {many[BETTER] + many[WORSE]} {BETTER}, {many[EVEN]} {EVEN}, {many[OPEN]} {OPEN}"
