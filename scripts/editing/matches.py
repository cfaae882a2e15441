"""A match that is looked into: all robots after the same cycle, and how to come to another one.

One `crobots-debug` runs as long as the match is looked into. What it has found is kept: an event that comes next after one cycle
is the next one up to that cycle, and all cycles in which an event happens are found in one pass."""

import contextlib
import os
from dataclasses import dataclass
from typing import Iterable, Sequence

from stepping.moments import Moment, Question, Row, moment_of
from stepping.pipes import PROGRAM, Debugger
from stepping.sessions import BACKWARDS, LAST_CYCLE
from tools.programs import found

from .listings import Listing
from .words import DEBUGGER


@dataclass(frozen=True)
class Wanted:
    """An event of a robot, what has to hold then, and which of these hits count."""

    robot: int
    event: str
    condition: str = ""
    count: str = ""

    def asked(self) -> str:
        """The event as a command has it."""
        return self.event + (f"; where {self.condition}" if self.condition else "") + (f"; count {self.count}" if self.count else "")


@dataclass(frozen=True)
class Spot:
    """Where a robot is in an open call: the address, its line and its column."""

    address: int
    line: int
    column: int


@dataclass(frozen=True)
class Hit:
    """A cycle in which an event happens, and the values of expressions then."""

    cycle: int
    values: tuple[str, ...]


class Match:
    """The robots of a match, after a cycle."""

    def __init__(self, options: list[str], files: list[str]) -> None:
        self.files = files if len(files) > 1 else files * 2
        self.cycle = 0
        self._moments: dict[int, Moment] = {}
        self._spots: dict[int, list[Spot]] = {}
        self._listings: dict[str, Listing] = {}
        self._kept: dict[tuple[str, Wanted], tuple[int, int | None]] = {}
        self._hits: dict[tuple[Wanted, tuple[str, ...]], list[Hit]] = {}
        with contextlib.ExitStack() as opened:
            self._debugger = opened.enter_context(Debugger(found(PROGRAM), [*options, "--", *files], DEBUGGER))
            # a file with a fault is said now
            self.moment(1)
            self._opened = opened.pop_all()

    def close(self) -> None:
        """Ends the program."""
        self._opened.close()

    def robots(self) -> range:
        return range(1, len(self.files) + 1)

    def name(self, robot: int) -> str:
        return os.path.basename(self.files[robot - 1])

    def moment(self, robot: int) -> Moment:
        """Where a robot is."""
        if robot not in self._moments:
            self._moments[robot] = moment_of(self._rows(robot, f"at {self.cycle}"))
        return self._moments[robot]

    def spots(self, robot: int) -> list[Spot]:
        """Where it is in each open call, the innermost first."""
        if robot not in self._spots:
            self._spots[robot] = [Spot(int(address), int(line), int(column))
                                  for _, _, address, line, column, _ in self._rows(robot, f"calls {self.cycle}")]
        return self._spots[robot]

    def listing(self, robot: int) -> Listing:
        """The code of a robot: that of its file."""
        file = self.files[robot - 1]
        if file not in self._listings:
            self._listings[file] = Listing(self._rows(robot, "code"))
        return self._listings[file]

    def last(self, robot: int, function: str) -> Question | None:
        """The last time that a robot asked an intrinsic function."""
        row = self._rows(robot, f"last {self.cycle + 1} ask {function}")[0]
        return moment_of(self._rows(robot, f"at {row[1]}")).asked if row[0] == "found" else None

    def _rows(self, robot: int, command: str) -> list[Row]:
        return self._debugger.right(f"robot {robot} {command}")

    def value(self, robot: int, frames: int, expression: str) -> str:
        """The value of an expression, in the call with which so many frames are open."""
        return self._rows(robot, f"value {self.cycle} {frames}; {expression}")[0][1]

    def go(self, cycle: int) -> None:
        """Goes to another cycle: one behind the end is the last one."""
        self.cycle = max(cycle, 0)
        self._moments.clear()
        self._spots.clear()
        self.cycle = self.moment(1).cycle

    def check(self, wanted: Wanted) -> None:
        """Stops if an event or a condition has a wrong word; nothing happens before cycle 0."""
        self._rows(wanted.robot, f"last 0 {wanted.asked()}")

    def find(self, way: str, events: Iterable[Wanted]) -> dict[Wanted, int]:
        """The first cycle on a way in which each of these events happens, if it does."""
        cycles = {wanted: self._find(way, wanted) for wanted in events}
        return {wanted: cycle for wanted, cycle in cycles.items() if cycle is not None}

    def _find(self, way: str, wanted: Wanted) -> int | None:
        """The first cycle on a way in which an event happens: asked for only if what was found before doesn't say it."""
        if (way, wanted) in self._kept:
            begun, cycle = self._kept[way, wanted]
            if is_between(self.cycle, begun, cycle, way):
                return cycle
        row = self._rows(wanted.robot, f"{way} {self.cycle} {wanted.asked()}")[0]
        cycle = int(row[1]) if row[0] == "found" else None
        self._kept[way, wanted] = self.cycle, cycle
        return cycle

    def hits(self, wanted: Wanted, shown: Sequence[str] = ()) -> list[Hit]:
        """All cycles of the match in which an event happens, with the values of expressions: found in one pass."""
        key = wanted, (*shown,)
        if key not in self._hits:
            parts = "".join(f"; show {expression}" for expression in shown)
            rows = self._rows(wanted.robot, f"all 0 {LAST_CYCLE} {wanted.asked()}{parts}")
            self._hits[key] = [Hit(int(cycle), (*values,)) for kind, *rest in rows if kind == "found" for cycle, *values in [rest]]
        return self._hits[key]


def is_between(here: int, begun: int, cycle: int | None, way: str) -> bool:
    """Whether what comes first on a way from one cycle comes first from here, too."""
    if way == BACKWARDS:
        return (0 if cycle is None else cycle) < here <= begun or (cycle is None and here <= begun)
    return begun <= here < (LAST_CYCLE + 1 if cycle is None else cycle)
