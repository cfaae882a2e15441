"""What is shown of a match: open calls, variables, and instructions of each robot."""

import os
from typing import Any

from stepping.moments import Call, Moment

from .listings import Listing
from .matches import Match, Spot

Answer = dict[str, Any]
# Where references to variables begin: a robot, a frame, and a scope.
OF_ROBOT, OF_FRAME = 100_000, 10
LOCALS, EXTERNALS, STACK, ROBOT = range(1, 5)
SCOPES = {LOCALS: "Function", EXTERNALS: "Externals", STACK: "Stack", ROBOT: "Robot"}
# Where the code of a robot begins for a client, to which all addresses are those of one memory.
OF_CODE = 0x10000
# No client shows more instructions at once.
MOST_INSTRUCTIONS = 0x10000
SCAN = "scan"


class NoPlace(Exception):
    """A frame or an address that there isn't: the text says so."""


def parted(reference: int) -> tuple[int, int, int]:
    """The robot, the frame and the scope of a reference."""
    return reference // OF_ROBOT, reference % OF_ROBOT // OF_FRAME, reference % OF_FRAME


def source(match: Match, robot: int) -> Answer:
    path = os.path.abspath(match.files[robot - 1])
    return {"name": os.path.basename(path), "path": path}


def frames(match: Match, robot: int) -> list[Answer]:
    """The open calls of a robot, the innermost first."""
    calls = zip(match.moment(robot).calls, match.spots(robot))
    return [frame(match, robot, number, call, spot) for number, (call, spot) in enumerate(calls)]


def frame(match: Match, robot: int, number: int, call: Call, spot: Spot) -> Answer:
    return {"id": robot * OF_ROBOT + number * OF_FRAME, "name": call.function, "line": spot.line, "column": max(spot.column, 1),
            "source": source(match, robot), "instructionPointerReference": address_of(robot, spot.address)}


def frame_of(moment: Moment, frame_: int) -> Call:
    """The call of a frame."""
    if frame_ >= len(moment.calls):
        raise NoPlace("there is no such frame")
    return moment.calls[frame_]


def scopes(frame_: int) -> list[Answer]:
    return [{"name": name, "variablesReference": frame_ + scope, "expensive": False} for scope, name in SCOPES.items()]


def variables(match: Match, reference: int) -> list[Answer]:
    """The names and values of a scope. Those that an expression may have can be evaluated."""
    robot, frame_, scope = parted(reference)
    evaluable = scope in (LOCALS, EXTERNALS)
    return [{"name": name, "value": value, "variablesReference": 0} | ({"evaluateName": name} if evaluable else {})
            for name, value in values(match, robot, frame_, scope)]


def values(match: Match, robot: int, frame_: int, scope: int) -> list[tuple[str, str]]:
    moment = match.moment(robot)
    if scope == EXTERNALS:
        return [(name, str(value)) for name, value in moment.externals.items()]
    if scope == STACK:
        return [(str(number), str(word)) for number, word in enumerate(moment.stack)]
    if scope == ROBOT:
        return state(match, robot)
    return [(name, str(value)) for name, value in frame_of(moment, frame_).variables.items()]


def state(match: Match, robot: int) -> list[tuple[str, str]]:
    """Where a robot is in the field, and what it asked last."""
    moment = match.moment(robot)
    told = [("cycle", str(moment.cycle)), ("instruction", moment.instruction)]
    for own in (own for own in moment.robots if own.number == robot):
        told += [("x", f"{own.x / 10:g}"), ("y", f"{own.y / 10:g}"), ("heading", str(own.heading)), ("speed", str(own.speed)),
                 ("damage", f"{own.damage}%"), ("state", "alive" if own.is_alive else "dead")]
    asked = {"asked": moment.asked, SCAN: match.last(robot, SCAN)}
    return told + [(name, f"{question.call} = {question.reply} in cycle {question.cycle}") for name, question in asked.items() if question]


def address_of(robot: int, address: int) -> str:
    return hex(robot * OF_CODE + address)


def disassembled(match: Match, reference: str, offset: int, count: int) -> list[Answer]:
    """So many instructions of the robot at whose code a reference points, from an offset to it on."""
    try:
        robot, address = divmod(int(reference, 0), OF_CODE)
    except ValueError:
        robot = address = 0
    if robot not in match.robots():
        raise NoPlace(f"{reference}: no code of a robot")
    if count > MOST_INSTRUCTIONS:
        raise NoPlace(f"{count} instructions: at most {MOST_INSTRUCTIONS} are shown")
    listing = match.listing(robot)
    return [instruction(match, robot, listing, at) for at in range(address + offset, address + offset + count)]


def instruction(match: Match, robot: int, listing: Listing, address: int) -> Answer:
    """An instruction as the protocol has it; where there is none, one that says so."""
    found = listing.at(address)
    if not found:
        return {"address": address_of(robot, address), "instruction": "no instruction", "presentationHint": "invalid"}
    return {"address": address_of(robot, address), "instruction": found.text, "symbol": found.function, "line": found.line, "column": max(found.column, 1),
            "location": source(match, robot)}
