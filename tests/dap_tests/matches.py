"""Random matches: each step and each stop is where `crobots-debug` says, asked by another way, and backwards come the same states."""

from __future__ import annotations

import random
import subprocess
from pathlib import Path
from typing import Any

from dap_tests.clients import Debugging, cycle_of
from protocols import TOP

ROBOTS = sorted(map(str, (TOP / "robots").glob("*.r")))
ALL = "1-4294967295"
LIMIT = 3000
Rows = list[list[str]]


class Truth:
    """A `crobots-debug` for each robot, asked line by line."""

    def __init__(self, program: str, words: list[str], robots: int) -> None:
        self._children = [subprocess.Popen([program, *words[:-robots], f"--robot={number + 1}", *words[-robots:]], stdin=subprocess.PIPE,
                                           stdout=subprocess.PIPE, text=True, encoding="utf-8") for number in range(robots)]

    def rows(self, robot: int, question: str) -> Rows:
        child = self._children[robot - 1]
        assert child.stdin and child.stdout
        child.stdin.write(f"{question}\n")
        child.stdin.flush()
        rows = []
        while (line := child.stdout.readline().rstrip("\n")):
            rows.append(line.split("\t"))
        return rows

    def found(self, robot: int, way: str, cycle: int, *events: str) -> int | None:
        """The first cycle on a way in which one of some events happens to a robot."""
        answers = [self.rows(robot, f"{way} {cycle} {event}")[0] for event in events]
        cycles = [int(row[1]) for row in answers if row[0] == "found"]
        return (min if way == "next" else max)(cycles, default=None)

    def state(self, robot: int, cycle: int) -> Any:
        """Where a robot is: the calls, their lines and variables, and the externals."""
        calls: list[Any] = []
        externals = {}
        for kind, *fields in self.rows(robot, f"at {cycle}"):
            if kind == "call":
                calls.append((fields[2], int(fields[1]), {}))
            elif kind == "local":
                calls[-1][2][fields[0]] = fields[1]
            elif kind == "external":
                externals[fields[0]] = fields[1]
        return calls, externals

    def frames(self, robot: int, cycle: int) -> int:
        """How many frames are open."""
        return next((int(row[1]) for row in self.rows(robot, f"at {cycle}") if row[0] == "call"), 1)

    def close(self) -> None:
        for child in self._children:
            assert child.stdin
            child.stdin.close()
            child.wait()


def shown(it: Debugging, robot: int) -> Any:
    """Where the adapter says that a robot is, in the same form."""
    frames = it.frames(robot)
    calls = [(frame["name"], frame["line"], it.variables(frame["id"] + 1)) for frame in frames]
    return calls, it.variables(frames[0]["id"] + 2) if frames else {}


def events_of(command: str, frames: int) -> list[str]:
    """What a step goes to, by how many frames are open."""
    out = [f"in {ALL} {frames - 1}"] if frames > 1 else []
    return {"stepIn": [f"line {ALL}"], "next": [f"line {ALL} {frames}", *out], "stepOut": out, "stepBack": [f"line {ALL} {frames}", *out]}[command]


def tried(program: str, environment: dict[str, str], folder: str, seed: int) -> list[str]:
    """What is wrong with a random match."""
    draw = random.Random(seed)
    robots = draw.sample(ROBOTS, draw.choice([2, 2, 3, 4]))
    number = draw.randint(1, 50)
    words = [f"-k{number}", f"-l{LIMIT}"]
    truth = Truth(program, [*words, *robots], len(robots))
    it = Debugging(environment, folder)
    try:
        stops = {path: [{"line": draw.randint(1, len(Path(path).read_text(encoding="utf-8").splitlines()))} for _ in range(2)] for path in robots}
        wrong = moves(it, truth, draw, robots, {"match": number, "cycles": LIMIT}, stops)
        return [f"seed {seed}: {line}" for line in wrong + it.close()]
    finally:
        truth.close()


def moves(it: Debugging, truth: Truth, draw: random.Random, robots: list[str], match: Any, stops: Any) -> list[str]:
    """Tries stops forwards and backwards, and then steps of one robot."""
    it.body("launch", {"robots": robots, "from": draw.randint(0, LIMIT // 2)} | match)
    it.event("initialized")
    lines = {path: [answer["line"] for answer in it.body("setBreakpoints", {"source": {"path": path}, "breakpoints": asked})["breakpoints"]
                    if answer["verified"]] for path, asked in stops.items()}
    it.body("configurationDone")
    wanted = [(number, f"line {','.join(map(str, lines[path]))}") for number, path in enumerate(robots, 1) if lines[path]]
    start = cycle_of(it.event("stopped"))
    wrong, passed = forwards(it, truth, wanted, start, draw.randint(1, 5))
    wrong += backwards(it, truth, wanted, passed) if passed else []
    for path in robots:
        it.body("setBreakpoints", {"source": {"path": path}, "breakpoints": []})
    return wrong + steps(it, truth, draw, draw.randint(1, len(robots)), passed[0][0] if len(passed) > 1 else start)


def forwards(it: Debugging, truth: Truth, wanted: Any, start: int, count: int) -> tuple[list[str], list[Any]]:
    """Goes on some times; answers what is wrong, and the states that were passed."""
    wrong, passed, cycle = [], [(start, shown(it, 1))], start
    for _ in range(count):
        expected = min((found for robot, event in wanted if (found := truth.found(robot, "next", cycle, event)) is not None), default=None)
        if expected is None:
            break
        stop = it.move("continue")
        if stop["event"] != "stopped" or cycle_of(stop) != expected:
            return [f"continue from {cycle}: {stop}, not {expected}"], passed
        cycle = expected
        passed.append((cycle, shown(it, 1)))
        wrong += [] if passed[-1][1] == truth.state(1, cycle) else [f"cycle {cycle}: {passed[-1][1]}"]
    return wrong, passed


def backwards(it: Debugging, truth: Truth, wanted: Any, passed: list[Any]) -> list[str]:
    """Goes back through what was passed: the same states come, but for the first one, at which nothing stops."""
    wrong = []
    for cycle, state in reversed(passed[1:-1]):
        stop = it.move("reverseContinue")
        got = cycle_of(stop), shown(it, 1)
        wrong += [] if got == (cycle, state) else [f"back to {cycle}: {got}, not {state}"]
    here = passed[1][0] if len(passed) > 1 else passed[0][0]
    expected = max((found for robot, event in wanted if (found := truth.found(robot, "last", here, event)) is not None), default=0)
    stop = it.move("reverseContinue")
    return wrong + ([] if cycle_of(stop) == expected else [f"back from {here}: {stop}, not {expected}"])


def steps(it: Debugging, truth: Truth, draw: random.Random, robot: int, _: int) -> list[str]:
    """Steps of one robot, each where the truth says."""
    wrong, cycle = [], int(it.variables(robot * 100_000 + 4)["cycle"])
    for _ in range(10):
        command = draw.choice(["stepIn", "stepIn", "next", "stepOut", "stepBack", "instruction"])
        if command == "instruction":
            stop, expected = it.move("next", robot, granularity="instruction"), cycle + 1
        else:
            events = events_of(command, truth.frames(robot, cycle))
            if not events:
                continue
            found = truth.found(robot, "last" if command == "stepBack" else "next", cycle, *events)
            if found is None and command != "stepBack":
                continue
            stop, expected = it.move(command, robot), found or 0
        got = cycle_of(stop) if stop["event"] == "stopped" else None
        if got != expected or shown(it, robot) != truth.state(robot, expected):
            return [*wrong, f"{command} of {robot} from {cycle}: {stop}, not {expected}"]
        cycle = expected
    return wrong
