"""Three robots with mistakes: what a few commands show of each. None takes ten."""

from __future__ import annotations

import re
from pathlib import Path

from .base import ROBOTS, TOP, Base, differ

WHY = TOP / "docs" / "why"
LAGGER = Path(__file__).resolve().parent / "lagger.r"
TARGET = str(ROBOTS / "runner.r")
MOST_COMMANDS = 9
SIDE = 1000


class Mistakes(Base):
    """Robots that compile and lose."""

    def _session(self, commands: list[str], robot: Path) -> list[list[str]]:
        assert len(commands) <= MOST_COMMANDS, commands
        return self._answers(commands, str(robot), TARGET)

    def a_variable_that_each_call_forgets(self) -> list[str]:
        """It is to grow by 20 with each call; but in two calls, one after the other, it goes from 0 to 20."""
        answers = self._session(["watch sweep.angle", "c", "c", "bt"], WHY / "forgetful.r")
        told = ["watch 1: sweep.angle from 0 to 20"] * 2
        cycles = [int(cycle_of(lines)) for lines in answers[2:4]]
        return differ([lines[0] for lines in answers[2:4]], told) + differ(answers[4], ["#0  sweep, line 14", "#1  main, line 6"]) \
            + differ(cycles[0] < cycles[1], True)

    def a_scale_of_cos_that_is_left_out(self) -> list[str]:
        """The place that it works out is far outside of the field on one axis, and inside on the other; the line says why."""
        answers = self._session(["watch x", "watch y", "c", "list", "c"], WHY / "drifter.r")
        x, y = (int(lines[0].rpartition(" to ")[2]) for lines in (answers[3], answers[5]))
        marked = [line for line in answers[4] if line.startswith(">")]
        return differ((abs(x) > 100 * SIDE, 0 <= y < SIDE), (True, True)) + differ(marked, [">12        x = loc_x() + range * cos(angle);"])

    def a_lead_that_counts_from_an_old_place(self) -> list[str]:
        """The target goes from old_x to x in some four updates; the shot is aimed as far ahead of old_x, and not of x."""
        answers = self._session(["b cannon if reply > 0", "c", "p x", "p old_x", "p ahead", "p at_x", "watch old_x", "rc"], LAGGER)
        x, old_x, ahead, at_x = (int(lines[0].partition(" = ")[2]) for lines in answers[3:7])
        lead = abs(x - old_x) * ahead // 4 * (1 if x > old_x else -1)
        wrong = differ((at_x == old_x + lead, at_x == x + lead, x != old_x), (True, False, True))
        shot, noted = (int(cycle_of(lines)) for lines in (answers[2], answers[8]))
        updates = (shot - noted) / 15
        return wrong + differ(answers[8][0], f"watch 2: old_x from 0 to {old_x}") + ([] if updates > 4 else [f"{updates} updates"])


def cycle_of(lines: list[str]) -> str:
    """The cycle where a move led."""
    return next(found[1] for line in lines if (found := re.match(r"cycle (\d+),", line)))
