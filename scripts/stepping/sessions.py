"""A session: a robot after a cycle, the marks, and how it goes on from there.

Each move is one or several questions: a step to the next line that is entered, forwards or backwards, or to the first of the
events that are marked."""

from dataclasses import dataclass

from tools.rules import MOST_CYCLES

from .marks import Marks
from .moments import Moment
from .pipes import Debugger, Refused
from .sources import Source
from .words import Asked

FORWARDS, BACKWARDS = "next", "last"
LAST_CYCLE = MOST_CYCLES
# A list of all lines.
ALL = "1-4294967295"


@dataclass(frozen=True)
class Found:
    """The cycle of a find, and the events that happen in it."""

    cycle: int
    events: list[str]


class Session:
    """A robot of a match, after a cycle, and how to move to another cycle."""

    def __init__(self, debugger: Debugger, asked: Asked) -> None:
        self.asked = asked
        self.robot = asked.number()
        self.marks = Marks()
        self._debugger = debugger
        self.moment = debugger.moment(0)
        self._before: Moment | None = None
        self.source = Source(asked.file())

    def check(self, event: str) -> None:
        """Stops if an event has a wrong word."""
        self._debugger.check(event)

    def go(self, cycle: int) -> None:
        """Moves to another cycle."""
        self.moment = self._debugger.moment(cycle)
        self._before = None

    def before(self) -> Moment:
        """The moment a cycle earlier, which is asked for only if it is wanted."""
        if not self._before:
            self._before = self._debugger.moment(max(self.moment.cycle - 1, 0))
        return self._before

    def restarted(self) -> str:
        """Why the robot restarted in this cycle, if it did."""
        return self.before().restarts if self.moment.cycle and self.moment.is_blank() else ""

    def find(self, way: str, events: list[str]) -> Found | None:
        """The first cycle on a way in which one of the events happens."""
        cycles = {event: self._debugger.found(way, self.moment.cycle, event) for event in events}
        told = [cycle for cycle in cycles.values() if cycle is not None]
        if not told:
            return None
        best = min(told) if way == FORWARDS else max(told)
        return Found(best, [event for event, cycle in cycles.items() if cycle == best])

    def move(self, way: str, events: list[str]) -> Found | None:
        """Goes to the first of the events, or to the end or the start of the match."""
        found = self.find(way, events)
        self.go(found.cycle if found else LAST_CYCLE if way == FORWARDS else 0)
        return found


def any_line(_: Moment) -> list[str]:
    """Any line is entered."""
    return [f"line {ALL}"]


def line_of_call(moment: Moment) -> list[str]:
    """A line is entered, but not by a call from here; or the call of this function ends."""
    frames = moment.frames()
    return [f"line {ALL} {frames}", *(outside(moment) if frames > 1 else [])]


def outside(moment: Moment) -> list[str]:
    """The call of this function has ended, or hasn't begun."""
    if moment.frames() == 1:
        raise Refused(f"{moment.function}: it is the outermost call")
    return [f"in {ALL} {moment.frames() - 1}"]
