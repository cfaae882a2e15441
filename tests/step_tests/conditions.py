"""Conditions of breakpoints: each comparison at its boundaries, alone and with each other one."""

from __future__ import annotations

import itertools
import operator
from pathlib import Path
from typing import Callable

from stepping.marks import LEAST, MOST, questions
from stepping.pipes import Refused

from .base import Base, differ

OPERATORS: dict[str, Callable[[int, int], bool]] = {
    "==": operator.eq, "!=": operator.ne, "<": operator.lt, "<=": operator.le, ">": operator.gt, ">=": operator.ge}
NUMBERS = (LEAST, LEAST + 1, -1, 0, 1, 5, MOST - 1, MOST)
# The replies of a robot's questions, which are roots.
ROOTS = (4, 5, 6)
ROBOT = "main() {\n" + "".join(f"  sqrt({root * root});\n" for root in ROOTS) + "  while (1);\n}\n"


def found(condition: str) -> list[tuple[int, int]]:
    """The replies that a condition is true of, as ranges; none if no reply is so."""
    try:
        return [(int(it.split()[2]), int(it.split()[3])) for it in questions("sqrt", f"if {condition}")]
    except Refused:
        return []


def differs(condition: str, holds: Callable[[int], bool], probes: set[int]) -> list[str]:
    """The replies among some of which a condition says something else than it means."""
    ranges = found(condition)
    return [f"{condition}: of {it}" for it in sorted(probes) if any(least <= it <= most for least, most in ranges) != holds(it)]


def around(*numbers: int) -> set[int]:
    """Numbers with their neighbours, and the ends of all."""
    near = {number + by for number in numbers for by in (-1, 0, 1)}
    return {it for it in near | {LEAST, MOST, 0} if LEAST <= it <= MOST}


class Conditions(Base):
    """What `break FUNCTION if reply ..` stops at."""

    def each_comparison_at_its_boundaries(self) -> list[str]:
        return [wrong for (sign, compare), number in itertools.product(OPERATORS.items(), NUMBERS)
                for wrong in differs(f"reply {sign} {number}", lambda it: compare(it, number), around(number))]

    def two_comparisons_at_their_boundaries(self) -> list[str]:
        """Of equal and of near numbers, and of the ends."""
        wrong = []
        for (one, first), (other, second) in itertools.product(OPERATORS.items(), repeat=2):
            for a, b in itertools.product((4, 5, 6, LEAST, MOST), repeat=2):
                wrong += differs(f"reply {one} {a} && reply {other} {b}", lambda it: first(it, a) and second(it, b), around(a, b))
        return wrong

    def a_robot_stops_at_the_replies_that_are_so(self) -> list[str]:
        """Each comparison with each root, and all pairs of comparisons with 5: where the robot stops, and nowhere else."""
        Path(self._folder, "roots.r").write_text(ROBOT, encoding="ascii")
        cases = {f"reply {sign} {root}": [it for it in ROOTS if compare(it, root)] for (sign, compare), root in itertools.product(OPERATORS.items(), ROOTS)}
        cases |= {f"reply {one} 5 && reply {other} 5": [it for it in ROOTS if first(it, 5) and second(it, 5)]
                  for (one, first), (other, second) in itertools.product(OPERATORS.items(), repeat=2)}
        cases = {condition: replies for condition, replies in cases.items() if found(condition)}
        commands = [line for number, condition in enumerate(cases, 1)
                    for line in (f"break sqrt if {condition}", *["c"] * (len(ROOTS) + 1), f"delete {number}", "goto 0")]
        answers, wrong = self._answers(commands, "-l60", "roots.r")[1:], []
        for at, (condition, replies) in enumerate(cases.items()):
            stops = [line for answer in answers[at * 7 + 1:at * 7 + 5] for line in answer if line.startswith("asked ") and "in cycle" not in line]
            wrong += [f"{condition}: {line}" for line in differ([int(it.rpartition(" ")[2]) for it in stops], replies)]
        return wrong if len(cases) > 40 else [f"{len(cases)} conditions"]
