"""Made facts: a league of robots whose names are as bad as names can be, with results that are counted by hand."""

from __future__ import annotations

import hashlib
from decimal import Decimal

from results.scores import NONE, Score
from results.standings import Rating, Standing
from sites.facts import Battle, BySeat, Facts, Notable, Pair, Program, Robot, Seat, Series, Settings, Sums, Table, Version

SCRIPT = "<script>alert(1)</script>.r"
NAMES = ["hunter.r", SCRIPT, "a \"quoted\" & 'named' one.r", "  two  blanks .r", "caf\udce9.r", "..", "CON", "index",
         "folder/hunter.r", "\u202ebackwards.r", "x" * 200 + ".r", "-m1"]
SOURCE = b"/* a robot */\nmain()\n{\n  while (1 && 2 > 1)\n    cannon(scan(0, 10), 700);\n}\n"
LATIN = b"/* caf\xe9 */ main() { }\n"
PAGE = "https://example.org/crobots/"
MATCHES = 10
# its matches, by which robot is in the first seat
FIRST, SECOND = (Series(2**64 - 1, 1, 5),), (Series(8, 1, 3), Series(9, 7, 2))
DAYS = ("2026-11-01", "2026-11-08", "2026-11-15")
SUMS = Sums(text="""Match 1: cycles = 300
  1) dead  damage 100% hunter.r
  2) alive damage   0% other.r

1) hunter.r, dead after cycle 300
   lost       60% by shots of 2, 20% by its own shots, 16% by walls,
              4% by collisions
   took       12% from 2
   shots      20 fired, 3 refused, 20 burst, 5 hit another robot
   line      cycles    %  text
      1         300  100  "shots 9 fired"
""", objects='{"match": 1, "cycles": 300, "robots": [{"robot": 1, "name": "hunter.r", "lost_by_walls": 16, "lost_by_collisions": 4, '
             '"lost_by_shots_of": [20, 60, 0, 0], "took_from": [0, 12, 0, 0], "fired": 20, "refused": 3, "burst": 20, "hit": 5}]}\n')


def version(source: bytes, day: str = "") -> Version:
    return Version(hashlib.sha256(source).hexdigest(), source, day)


def robot(at: int, name: str) -> Robot:
    """A robot; every third has an older version, and the fifth isn't UTF-8 in its comment either."""
    last = LATIN if at == 4 else SOURCE + b"/* %d */\n" % at
    older = (version(SOURCE, "2026-10-01"),) if at % 3 == 0 else ()
    lost = (battle(NAMES[at - 1], name, 0, 100, 4000 + at),) if at else ()
    return Robot(name, name, (*older, version(last, "2026-11-10")), "Ada <Lovelace>" if at % 2 else "", "",
                 Sums(SUMS.text * 2, SUMS.objects * 2) if at == 0 else Sums(), lost)


def battle(one: str, other: str, damage: int, against: int, number: int) -> Battle:
    return Battle((Seat(one, damage), Seat(other, against)), number, 2**64 - number, 15 * (number % 1000))


def pair(one: int, other: int) -> Pair:
    """The lower robot wins six of ten, ties one, loses three, of which both lose one; the seats are told apart."""
    names = NAMES[one], NAMES[other]
    number = 100 * one + other + 1
    notable = (Notable("closest", battle(*names, 98, 100, number)), Notable("shortest", battle(*names, 5, 100, 1)),
               Notable("longest", battle(*names, 98, 100, number)),
               Notable("greatest upset", battle(*names[::-1], 12, 100, number + 1)))
    seats = BySeat(1, 2, Score(4, 0, 1, 0), FIRST), BySeat(2, 1, Score(2, 1, 2, 1), SECOND)
    return Pair(*names, Score(6, 1, 3, 1), 0.398, 0.892, seats, notable)


def standing(at: int, robots: int) -> Standing:
    """A row of the table; the first robot is far above all others."""
    won = 6 * (robots - 1 - at) + 2 * at
    score = Score(won, robots - 1, MATCHES * (robots - 1) - won - (robots - 1))
    rating = 2000.0 if at == 0 else 300.0 - 50 * at
    points = Decimal(3 * score.won + score.tied) / score.played
    return Standing(NAMES[at], at + 1, score, points, Rating(rating, rating - 60, rating + 60), at > 1)


def table(day: str, robots: int) -> Table:
    """An earlier table: the second and the third robot were the other way round, and the last wasn't there."""
    order = [0, 2, 1, *range(3, robots - 1)]
    ratings = {at: Rating(300.0 - 50 * rank, 240.0 - 50 * rank, 360.0 - 50 * rank) for rank, at in enumerate(order, 1)}
    return Table(day, {NAMES[at]: Standing(NAMES[at], rank, NONE, Decimal(0), ratings[at]) for rank, at in enumerate(order, 1)})


def league(robots: int = len(NAMES), page: str = PAGE, archive: str = "") -> Facts:
    """A league of the first of these robots."""
    among = range(robots)
    settings = Settings(MATCHES, 500_000, 7, 1, (2,), (("Sample", "every pair"),))
    return Facts(
        "A league of <robots>", settings, Program("crobots <1>", "ab" * 32),
        tuple(robot(at, NAMES[at]) for at in among), tuple(standing(at, robots) for at in among),
        tuple(pair(one, other) for one in among for other in among if one < other), "2026-11-22",
        tuple(table(day, robots) for day in DAYS), "points a match", archive,
        "crobots-league verify 20 'the archive.tar'", page, hash="cd" * 32)
