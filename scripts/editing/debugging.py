"""The debug adapter: what a client asks of a match, and what it is told."""

import os
import re
import signal
import subprocess
from dataclasses import dataclass, field
from typing import Any, Callable, Iterable

from stepping.moments import Moment
from stepping.pipes import Refused
from stepping.sessions import BACKWARDS, FORWARDS, LAST_CYCLE, any_line, line_of_call, outside
from tools.faults import Fault
from tools.programs import found

from .counting import Counting, counting_of
from .fields import Fields, Wrong
from .loops import Loop, send
from .manual import entries, page
from .matches import Match, Wanted
from .plays import GAME
from .showing import LOCALS, OF_ROBOT, NoPlace, disassembled, frame_of, frames, parted, scopes, source, variables
from .stops import Stop, on_one_line

Answer = Any
HAPPENINGS = {"restart": "The robot restarts", "hurt": "The robot is hurt", "hit": "A missile of the robot hurts another one"}
DIGIT = re.compile(r"[1-9]")
LINES, DATA, EXCEPTIONS = "breakpoint", "data breakpoint", "exception"


# How far a session has come.
NEW, BEGUN, LAUNCHED, RUNNING, OVER = range(5)
# What a request has to wait for, or comes too late for.
WAITS = {NEW: "initialize comes first", BEGUN: "no match is launched", LAUNCHED: "configurationDone comes first", OVER: "the match is over"}


class Failed(Exception):
    """A request can't be met: the text says why."""


FAULTS = (Wrong, Failed, Fault, Refused, NoPlace, OSError)


@dataclass
class Launch:
    """The match that is asked for."""

    files: list[str] = field(default_factory=list)
    options: list[str] = field(default_factory=list)
    watched: int = 1
    from_cycle: int = 0
    stops_on_entry: bool = True


class Adapter:
    """A debug adapter for one client."""

    def __init__(self) -> None:
        self._loop = Loop(self._take, self._complain)
        self._number = 0
        self._stage = NEW
        self._counting = Counting()
        self._next_stop = 1
        self._launch = Launch()
        self._match: Match | None = None
        self._stops: dict[str, list[Stop]] = {}
        self._after: list[Callable[[], None]] = []

    def run(self) -> int:
        """Serves until the client goes; answers the status."""
        try:
            self._loop.run()
        finally:
            if self._match:
                self._match.close()
        return 0

    # Messages.

    def _send(self, message: Answer) -> None:
        self._number += 1
        send({"seq": self._number} | self._counting.written(message))

    def _event(self, name: str, body: Answer) -> None:
        self._send({"type": "event", "event": name, "body": body})

    def _say(self, text: str, category: str = "console") -> None:
        self._event("output", {"category": category, "output": f"{text}\n"})

    def _complain(self, why: str) -> None:
        """Says what is wrong with what is no request. Nothing is said before the first answer."""
        if self._stage != NEW:
            self._say(why, "stderr")

    def _take(self, message: Any) -> None:
        """Takes a message: a request is answered, and then what follows from it is told."""
        try:
            request = Fields(message, "message")
            kind, number = request.text("type"), request.number("seq")
            command = request.text("command") if kind == "request" else ""
        except Wrong as why:
            self._complain(str(why))
            return
        if kind == "request":
            self._reply(command, number, request)
            self._follow()

    def _reply(self, command: str, number: int, request: Fields) -> None:
        """Answers a request, whatever is wrong with it."""
        reply = {"type": "response", "request_seq": number, "command": command}
        self._after = []
        try:
            body = self._answer(command, request.fields_or("arguments").changed(self._counting.read))
        except FAULTS as why:
            told = str(why).strip()
            self._send(reply | {"success": False, "message": told, "body": {"error": {"id": 1, "format": told, "showUser": True}}})
        else:
            self._send(reply | {"success": True} | ({"body": body} if body is not None else {}))

    def _follow(self) -> None:
        """Does what follows from an answer. If a program below has gone, so has the match."""
        after, self._after = self._after, []
        try:
            for act in after:
                act()
        except FAULTS as why:
            self._complain(str(why).strip())
            self._terminated()

    def _answer(self, command: str, given: Fields) -> Answer:
        if command not in REQUESTS:
            raise Failed(f"{command} isn't known")
        first, last, act = REQUESTS[command]
        if self._stage < first:
            raise Failed(WAITS[self._stage])
        if self._stage > last:
            raise Failed(WAITS[OVER] if self._stage == OVER else f"{command} comes once")
        return act(self, given)

    def _of(self) -> Match:
        assert self._match
        return self._match

    # The match.

    def initialize(self, given: Fields) -> Answer:
        self._counting = counting_of(given)
        self._stage = BEGUN
        return CAPABILITIES | {"exceptionBreakpointFilters": filters()}

    def launch(self, given: Fields) -> Answer:
        launch = read_launch(given)
        match = Match(launch.options, launch.files)
        if launch.watched not in match.robots():
            match.close()
            raise Failed(f"watch {launch.watched}: there are {len(match.robots())} robots")
        self._launch, self._match, self._stage = launch, match, LAUNCHED
        self._after.append(lambda: self._event("initialized", {}))
        return None

    def configured(self, _: Fields) -> Answer:
        self._of().go(self._launch.from_cycle)
        self._stage = RUNNING
        if self._launch.stops_on_entry:
            self._after.append(lambda: self._stopped("entry", self._launch.watched))
        else:
            self._after.append(lambda: self._move(FORWARDS, None, []))
        return None

    def disconnected(self, _: Fields) -> Answer:
        # who ends this process now, as Kate does, isn't told that it crashed
        signal.signal(signal.SIGTERM, signal.SIG_IGN)
        self._loop.is_over = True
        return None

    def terminate(self, _: Fields) -> Answer:
        self._after.append(self._terminated)
        return None

    def _terminated(self) -> None:
        """Tells that the match is over: its robots may still be looked at."""
        self._stage = OVER
        self._event("terminated", {})

    def _stopped(self, reason: str, robot: int, numbers: Iterable[int] = ()) -> None:
        """Tells that all robots have stopped, and which of them is looked at."""
        body = {"reason": reason, "threadId": robot, "allThreadsStopped": True, "description": f"cycle {self._of().cycle}",
                "text": f"cycle {self._of().cycle}"}
        self._event("stopped", body | ({"hitBreakpointIds": [*numbers]} if numbers else {}))

    def _finished(self) -> None:
        """Tells that the match is over, with its report."""
        words = [found(GAME), "-m1", *(f"-f{option[2:]}" if option.startswith("-k") else option for option in self._launch.options), "--", *self._launch.files]
        ran = subprocess.run(words, stdin=subprocess.DEVNULL, capture_output=True, text=True, errors="replace", check=False)
        self._event("output", {"category": "stdout", "output": ran.stdout or ran.stderr})
        self._event("exited", {"exitCode": 0})
        self._terminated()

    # Moves.

    def _move(self, way: str, step: int | None, events: list[str]) -> None:
        """Goes on to what stops first: a breakpoint, or one of the events of a step of a robot; or to the end of the way."""
        match = self._of()
        begun = match.cycle
        steps = match.find(way, [Wanted(step, event) for event in events] if step else []).values()
        stops = [(cycle, stop, robot) for stop, robot in self._stops_of_robots() if (cycle := self._cycle(way, stop, robot)) is not None]
        cycles = [*steps, *(cycle for cycle, _, _ in stops)]
        if not cycles:
            self._tell_messages(way, begun, LAST_CYCLE)
            self._come_to_end(way, step or self._launch.watched)
            return
        best = min(cycles) if way == FORWARDS else max(cycles)
        match.go(best)
        self._tell_messages(way, begun, best)
        hit = [(stop, robot) for cycle, stop, robot in stops if cycle == best]
        if hit:
            self._stopped(hit[0][0].reason, hit[0][1], [stop.number for stop, _ in hit if stop.reason != EXCEPTIONS])
        else:
            self._stopped("step", step or 1)

    def _stops_of_robots(self) -> list[tuple[Stop, int]]:
        """What stops, once for each robot of it."""
        return [(stop, robot) for stops in self._stops.values() for stop in stops for robot in stop.robots]

    def _cycle(self, way: str, stop: Stop, robot: int) -> int | None:
        """The first cycle on a way in which something stops a robot. A log point doesn't."""
        return None if stop.message else self._of().find(way, [stop.wanted(robot)]).get(stop.wanted(robot))

    def _tell_messages(self, way: str, begun: int, last: int) -> None:
        """Says what log points say behind a cycle and up to another one, on the way forwards."""
        if way != FORWARDS:
            return
        told = [(hit.cycle, robot, stop.told(hit)) for stop, robot in self._stops_of_robots() if stop.message
                for hit in self._of().hits(stop.wanted(robot), stop.shown()) if begun < hit.cycle <= last]
        for _, _, text in sorted(told, key=lambda said: said[:2]):
            self._say(text)

    def _come_to_end(self, way: str, robot: int) -> None:
        """Goes to the end or the start of the match."""
        if way == FORWARDS:
            self._of().go(LAST_CYCLE)
            self._finished()
        else:
            self._of().go(0)
            self._stopped("entry", robot)

    def _moving(self, way: str, given: Fields, events_of: Callable[[Moment], list[str]]) -> Answer:
        """A step of a robot: to events, or by one instruction."""
        robot = self._robot(given.number("threadId"))
        if given.text_or("granularity", "statement") == "instruction":
            self._after.append(lambda: self._step_cycle(robot, 1 if way == FORWARDS else -1))
        else:
            events = events_of(self._of().moment(robot))
            self._after.append(lambda: self._move(way, robot, events))
        return None

    def _step_cycle(self, robot: int, by: int) -> None:
        match = self._of()
        before = match.cycle
        match.go(before + by)
        if by > 0 and match.cycle == before:
            self._finished()
        else:
            self._stopped("step", robot)

    def continue_(self, given: Fields) -> Answer:
        self._robot(given.number("threadId"))
        self._after.append(lambda: self._move(FORWARDS, None, []))
        return {"allThreadsContinued": True}

    def reverse(self, given: Fields) -> Answer:
        robot = self._robot(given.number("threadId"))
        self._after.append(lambda: self._move(BACKWARDS, robot, []))
        return None

    def next(self, given: Fields) -> Answer:
        return self._moving(FORWARDS, given, line_of_call)

    def step_in(self, given: Fields) -> Answer:
        return self._moving(FORWARDS, given, any_line)

    def step_out(self, given: Fields) -> Answer:
        return self._moving(FORWARDS, given, outside)

    def step_back(self, given: Fields) -> Answer:
        return self._moving(BACKWARDS, given, line_of_call)

    def pause(self, given: Fields) -> Answer:
        robot = self._robot(given.number("threadId"))
        self._after.append(lambda: self._stopped("pause", robot))
        return None

    # What stops.

    def set_breakpoints(self, given: Fields) -> Answer:
        """Sets those of a file: each at the first line from its own on at which one makes sense."""
        path = given.fields("source").text("path")
        robots = self._robots_of(path)
        stops: list[Stop] = []
        told = [self._set_breakpoint(stops, robots, asked) for asked in given.all("breakpoints")]
        self._stops[real(path)] = stops
        return {"breakpoints": told}

    def _set_breakpoint(self, stops: list[Stop], robots: tuple[int, ...], asked: Fields) -> Answer:
        wanted = asked.number("line")
        line = self._of().listing(robots[0]).line_from(wanted) if robots else None
        if line is None:
            why = "no robot comes to a line from here on" if robots else "no robot of the match is this file"
            return {"id": self._new_number(), "verified": False, "line": wanted, "message": why}
        return self._add(stops, self._stop(f"line {line}", robots, LINES, asked)) | moved(wanted, line)

    def locations(self, given: Fields) -> Answer:
        """The lines of a range at which a breakpoint makes sense."""
        robots = self._robots_of(given.fields("source").text("path"))
        first = given.number("line")
        lines = self._of().listing(robots[0]).lines(first, given.number_or("endLine", first)) if robots else []
        return {"breakpoints": [{"line": line} for line in lines]}

    def _robots_of(self, path: str) -> tuple[int, ...]:
        match = self._of()
        return tuple(robot for robot in match.robots() if real(match.files[robot - 1]) == real(path))

    def _new_number(self) -> int:
        self._next_stop += 1
        return self._next_stop - 1

    def _stop(self, event: str, robots: tuple[int, ...], reason: str, asked: Fields) -> Stop:
        return Stop(self._new_number(), event, robots, reason, on_one_line(asked.text_or("condition", "")),
                    on_one_line(asked.text_or("hitCondition", "")), asked.text_or("logMessage", ""))

    def _add(self, stops: list[Stop], stop: Stop) -> dict[str, Answer]:
        """Adds a stop, if what it asks for is right; answers what the client is told of it."""
        try:
            for robot in stop.robots:
                self._of().check(stop.wanted(robot))
                self._check_message(stop, robot)
        except Refused as why:
            return {"id": stop.number, "verified": False, "message": str(why)}
        stops.append(stop)
        return {"id": stop.number, "verified": True}

    def _check_message(self, stop: Stop, robot: int) -> None:
        """Notes what is wrong with the expressions of a message."""
        for expression in stop.holes():
            try:
                self._of().check(Wanted(robot, stop.event, expression))
            except Refused as why:
                stop.wrong[expression] = str(why)

    def set_exceptions(self, given: Fields) -> Answer:
        """Sets what happens to the watched robot, by the names of filters."""
        known = {row["filter"] for row in filters()}
        asked = given.texts("filters")
        wrong = [name for name in asked if name not in known]
        if wrong:
            raise Failed(f"{wrong[0]}: no filter")
        watched = (self._launch.watched,)
        self._stops[EXCEPTIONS] = [Stop(self._new_number(), name, watched, EXCEPTIONS) for name in asked]
        return {"breakpoints": [{"verified": True} for _ in asked]}

    def data_info(self, given: Fields) -> Answer:
        """The variable that can be watched: of the frame, or an external."""
        name = given.text("name")
        robot, frame, scope = parted(given.number_or("variablesReference", self._launch.watched * OF_ROBOT + LOCALS))
        moment = self._of().moment(self._robot(robot))
        full = name
        if scope == LOCALS and frame < len(moment.calls) and name in moment.calls[frame].variables:
            full = f"{moment.calls[frame].function}.{name}"
        elif name not in moment.externals and moment.value(name) is None:
            return {"dataId": None, "description": f"{name} is no variable"}
        return {"dataId": f"{robot} {full}", "description": full, "accessTypes": ["write"]}

    def set_data(self, given: Fields) -> Answer:
        stops: list[Stop] = []
        told = []
        for asked in given.all("breakpoints"):
            robot, _, name = on_one_line(asked.text("dataId")).partition(" ")
            number = self._robot(int(robot) if DIGIT.fullmatch(robot) else 0)
            told.append(self._add(stops, self._stop(f"change {name}", (number,), DATA, asked)))
        self._stops[DATA] = stops
        return {"breakpoints": told}

    # What is shown.

    def _robot(self, number: int) -> int:
        if number not in self._of().robots():
            raise Failed(f"there is no robot {number}")
        return number

    def threads(self, _: Fields) -> Answer:
        match = self._of()
        return {"threads": [{"id": robot, "name": f"{robot} {match.name(robot)}"} for robot in match.robots()]}

    def sources(self, _: Fields) -> Answer:
        match = self._of()
        files = {file["path"]: file for file in (source(match, robot) for robot in match.robots())}
        return {"sources": [*files.values()]}

    def stack_trace(self, given: Fields) -> Answer:
        found_ = frames(self._of(), self._robot(given.number("threadId")))
        first, count = given.number_or("startFrame", 0), given.number_or("levels", 0) or len(found_)
        return {"stackFrames": found_[first : first + count], "totalFrames": len(found_)}

    def scopes(self, given: Fields) -> Answer:
        frame = given.number("frameId")
        self._robot(parted(frame)[0])
        return {"scopes": scopes(frame)}

    def variables(self, given: Fields) -> Answer:
        reference = given.number("variablesReference")
        self._robot(parted(reference)[0])
        return {"variables": variables(self._of(), reference)}

    def evaluate(self, given: Fields) -> Answer:
        """The value of an expression in a frame, or of a variable of another one, as FUNCTION.NAME."""
        robot, frame, _ = parted(given.number_or("frameId", self._launch.watched * OF_ROBOT))
        moment = self._of().moment(self._robot(robot))
        expression = on_one_line(given.text("expression"))
        value = moment.value(expression) if "." in expression else None
        if value is None:
            return {"result": self._of().value(robot, frame_of(moment, frame).frames, expression), "variablesReference": 0}
        return {"result": str(value), "variablesReference": 0}

    def disassemble(self, given: Fields) -> Answer:
        """Instructions around an address."""
        offset = given.number_or("offset", 0) + given.number_or("instructionOffset", 0)
        return {"instructions": disassembled(self._of(), given.text("memoryReference"), offset, given.number("instructionCount"))}


def real(path: str) -> str:
    """The path of a file as the system has it: one that can be none is refused."""
    try:
        return os.path.realpath(path)
    except ValueError:
        raise Failed(f"{path}: no file can have this name") from None


def moved(asked: int, line: int) -> Answer:
    return {"line": line} | ({"message": f"moved to line {line}, the next one with an instruction"} if line != asked else {})


def filters() -> list[dict[str, Any]]:
    """What may happen to the watched robot, and each question that it may ask."""
    happenings = [{"filter": name, "label": label, "default": False} for name, label in HAPPENINGS.items()]
    return happenings + [{"filter": f"ask {name}", "label": f"It asks {name}", "default": False} for name in entries(page())]


def read_launch(given: Fields) -> Launch:
    """Reads what is to be launched. Wrong numbers are said by the program that takes them."""
    files = [*([given.text("program")] if given.has("program") else []), *given.texts("robots")]
    if not files:
        raise Failed("robots is empty")
    for file in files:
        real(file)
    options = [f"{letter}{given.number(name)}" for name, letter in {"match": "-k", "cycles": "-l", "seed": "-s", "profile": "-p"}.items()
               if given.has(name)]
    return Launch(files, options, given.number_or("watch", 1), given.number_or("from", 0),
                  given.truth("stopOnEntry", True))


CAPABILITIES = {f"supports{name}": True for name in (
    "ConfigurationDoneRequest", "ConditionalBreakpoints", "HitConditionalBreakpoints", "LogPoints", "StepBack", "DataBreakpoints",
    "EvaluateForHovers", "BreakpointLocationsRequest", "DisassembleRequest", "SteppingGranularity", "LoadedSourcesRequest", "TerminateRequest")}
Act = Callable[[Adapter, Fields], Answer]
LOOKS: dict[str, Act] = {
    "threads": Adapter.threads, "stackTrace": Adapter.stack_trace, "scopes": Adapter.scopes, "variables": Adapter.variables,
    "evaluate": Adapter.evaluate, "disassemble": Adapter.disassemble, "loadedSources": Adapter.sources,
    "setBreakpoints": Adapter.set_breakpoints, "breakpointLocations": Adapter.locations, "setExceptionBreakpoints": Adapter.set_exceptions,
    "setDataBreakpoints": Adapter.set_data, "dataBreakpointInfo": Adapter.data_info,
}
MOVES: dict[str, Act] = {
    "continue": Adapter.continue_, "reverseContinue": Adapter.reverse, "next": Adapter.next, "stepIn": Adapter.step_in,
    "stepOut": Adapter.step_out, "stepBack": Adapter.step_back, "pause": Adapter.pause,
}
# How far a session has to have come for a request, at least and at most, and what it does.
REQUESTS: dict[str, tuple[int, int, Act]] = {
    "initialize": (NEW, NEW, Adapter.initialize), "launch": (BEGUN, BEGUN, Adapter.launch),
    "configurationDone": (LAUNCHED, LAUNCHED, Adapter.configured), "disconnect": (NEW, OVER, Adapter.disconnected),
    "terminate": (LAUNCHED, RUNNING, Adapter.terminate),
} | {name: (LAUNCHED, OVER, act) for name, act in LOOKS.items()} | {name: (RUNNING, RUNNING, act) for name, act in MOVES.items()}
