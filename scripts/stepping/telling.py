"""What a session says in plain text: where the robot is, its variables, its calls, the field."""

from .moments import Moment, Robot
from .sessions import Session


def place(moment: Moment) -> str:
    """Where the robot is, in a line."""
    ends = ", the match is over" if moment.is_over else ""
    return f"cycle {moment.cycle}, {moment.function}, line {moment.line}, column {moment.column}{'' if moment.is_alive else ', dead'}{ends}"


def stop(session: Session) -> list[str]:
    """Where the robot is, the line, its question, and whether it has just restarted."""
    moment = session.moment
    return [place(moment), session.source.numbered(moment.line), *news(session, moment.cycle)]


def news(session: Session, since: int) -> list[str]:
    """What the robot asked in this cycle or later, whether it has just restarted, and what it does in the next cycle."""
    why = session.restarted()
    return [*question(session.moment, since), *([f"restart: {why}"] if why else []), *following(session.moment)]


def question(moment: Moment, since: int) -> list[str]:
    """What the robot asked last, if that was in this cycle or later."""
    asked = moment.asked
    return [f"asked {asked.call}, reply {asked.reply}{at_cycle(asked.cycle, moment)}"] if asked and asked.cycle >= since > 0 else []


def following(moment: Moment) -> list[str]:
    """What the next cycle does, if it asks or restarts."""
    told = [f"next: asks {moment.asks}"] if moment.asks else []
    return [*told, f"next: restart, {moment.restarts}"] if moment.restarts else told


def at_cycle(cycle: int, moment: Moment) -> str:
    """A cycle, if it isn't this one."""
    return "" if cycle == moment.cycle else f", in cycle {cycle}"


def variables(found: dict[str, int], none: str) -> list[str]:
    """Variables with their values, or that there are none."""
    return [f"{name} = {value}" for name, value in found.items()] or [none]


def calls(moment: Moment) -> list[str]:
    """The calls that go on, the innermost first."""
    return [f"#{number}  {call.function}, line {call.line}" for number, call in enumerate(moment.calls)]


def field(session: Session) -> list[str]:
    """Where each robot is in the field."""
    return [f"{'>' if robot.number == session.robot else ' '}{long_form(robot)}" for robot in session.moment.robots]


def long_form(robot: Robot) -> str:
    """Where a robot is, in words."""
    return f"{middle_form(robot)}{'' if robot.is_alive else ', dead'}"


def middle_form(robot: Robot) -> str:
    """The same, without whether it lives: damage of 100 percent says so."""
    return (f"{robot.number}: x {robot.x / 10:.1f}, y {robot.y / 10:.1f}, heading {robot.heading}, "
            f"speed {robot.speed}, damage {robot.damage}%")


def short_form(robot: Robot) -> str:
    """The same in few columns."""
    return f"{robot.number}: {robot.x // 10},{robot.y // 10} {robot.heading}d s{robot.speed} {robot.damage}%"


def field_line(robots: list[Robot], width: int) -> str:
    """The field in a line, in the longest form that fits."""
    lines = ["   ".join(map(form, robots)) for form in (middle_form, short_form)]
    lines.append(" ".join(map(short_form, robots)))
    return next((line for line in lines if len(line) <= width), lines[-1])
