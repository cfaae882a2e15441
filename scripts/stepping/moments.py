"""Moments: where the robot is after a cycle, as the rows of `crobots-debug` say, and those of `crobots-trace --at`."""

from dataclasses import dataclass, field
from typing import NamedTuple

Row = list[str]


@dataclass
class Call:
    """A call that goes on: how many frames are open with it, the line at which the robot is in it, its function, and its
    variables with their values."""

    frames: int
    line: int
    function: str
    variables: dict[str, int] = field(default_factory=dict)


class Question(NamedTuple):
    """A call of an intrinsic function, as `scan(0, 10)`: the cycle, the call, and the reply."""

    cycle: int
    call: str
    reply: int


@dataclass(frozen=True)
class Robot:
    """A robot in the field: its number, its place in tenths of a metre, its heading, its speed and its damage in percent."""

    number: int
    x: int
    y: int
    heading: int
    speed: int
    damage: int
    is_alive: bool


@dataclass
class Moment:
    """Where the robot is after a cycle. What it asks, or why it restarts, is of the next cycle."""

    cycle: int = 0
    is_alive: bool = True
    is_over: bool = False
    line: int = 0
    column: int = 0
    function: str = ""
    instruction: str = ""
    asks: str = ""
    restarts: str = ""
    asked: Question | None = None
    calls: list[Call] = field(default_factory=list)
    externals: dict[str, int] = field(default_factory=dict)
    stack: list[int] = field(default_factory=list)
    robots: list[Robot] = field(default_factory=list)

    def value(self, name: str) -> int | None:
        """The value of a variable that the robot sees: of the innermost call, an external, or `FUNCTION.NAME`."""
        function, _, variable = name.rpartition(".")
        if function:
            call = next((call for call in self.calls if call.function == function), None)
            return call.variables.get(variable) if call else None
        return self.locals().get(name, self.externals.get(name))

    def full_name(self, name: str) -> str:
        """The name by which `crobots-debug` knows a variable that the robot sees."""
        return f"{self.calls[0].function}.{name}" if name in self.locals() else name

    def locals(self) -> dict[str, int]:
        """The variables of the innermost call."""
        return self.calls[0].variables if self.calls else {}

    def is_blank(self) -> bool:
        """Whether the robot may have just restarted: main alone is open, and all is 0."""
        return len(self.calls) == 1 and not any(self.stack) and not any(self.externals.values())

    def frames(self) -> int:
        """How many frames are open with the innermost call."""
        return self.calls[0].frames if self.calls else 1

    def damage(self, number: int) -> int:
        """The damage of a robot."""
        return next((robot.damage for robot in self.robots if robot.number == number), 0)


def moment_of(rows: list[Row]) -> Moment:
    """The moment that rows say."""
    moment = Moment()
    for kind, *fields in rows:
        take_row(moment, kind, fields)
    return moment


def take_row(moment: Moment, kind: str, fields: Row) -> None:
    """Takes a row: its kind, and the fields after it."""
    if kind == "cycle":
        moment.cycle, moment.is_alive, moment.is_over = int(fields[0]), fields[1] == "alive", fields[2] == "over"
    elif kind == "at":
        moment.line, moment.column, moment.function = int(fields[1]), int(fields[2]), fields[3]
    elif kind == "instruction":
        moment.instruction = " ".join(fields).rstrip()
    elif kind in ("asks", "restarts"):
        setattr(moment, kind, fields[0])
    elif kind == "asked":
        moment.asked = Question(int(fields[0]), fields[1], int(fields[2]))
    elif kind == "stack":
        moment.stack = [int(word) for word in fields[0].split()]
    elif kind == "robot":
        moment.robots.append(robot_of(fields))
    else:
        take_variable(moment, kind, fields)


def robot_of(fields: Row) -> Robot:
    """The robot of a row."""
    number, x, y, heading, speed, damage = map(int, fields[:6])
    return Robot(number, x, y, heading, speed, damage, fields[6] == "alive")


def take_variable(moment: Moment, kind: str, fields: Row) -> None:
    """Takes a row of a call, or of a variable."""
    if kind == "call":
        moment.calls.append(Call(int(fields[0]), int(fields[1]), fields[2]))
    elif kind == "local":
        moment.calls[-1].variables[fields[0]] = int(fields[1])
    elif kind == "external":
        moment.externals[fields[0]] = int(fields[1])
