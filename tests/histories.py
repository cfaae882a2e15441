"""What a robot did in each cycle of a match, worked out again: a plain machine over its listing gets the replies that `trace`
reports, and each cycle is searched by itself. Another implementation than the crates `watching` and `debug`."""

from __future__ import annotations

import re
import subprocess
from collections import defaultdict
from dataclasses import dataclass
from pathlib import Path

from harness import PATIENCE
from listing_machine import USED, Listing, Machine, read

HURTS = ("hurt", "wall", "collision")
# The distance up to which a burst hurts, in tenths of a metre.
REACH = 400


@dataclass(frozen=True)
class Names:
    """The names of a listing: of the externals, and of the variables of each function."""

    externals: list[str]
    variables: dict[str, list[str]]

    @staticmethod
    def of(text: str) -> Names:
        head, *functions = re.split(r"^Function \d+ ", text.partition("\nCode ")[0], flags=re.MULTILINE)
        found = {part.split(" ")[0]: re.findall(r"^  \d+ (\w+)$", part, re.MULTILINE) for part in functions}
        return Names(re.findall(r"^  \d+ (\w+)$", head, re.MULTILINE), found)


@dataclass(frozen=True)
class State:
    """Where a robot's machine is after a cycle: the calls that have begun are known by their frames, the innermost first, each
    with how many frames were open with it, the address at which the robot is in it, and where its variables begin."""

    at: int
    words: tuple[int, ...]
    externals: tuple[int, ...]
    frames: int
    calls: tuple[tuple[int, int, int], ...]


@dataclass(frozen=True)
class Asked:
    """A question, its cycle and its reply."""

    cycle: int
    call: str
    reply: int

    @property
    def function(self) -> str:
        return self.call.partition("(")[0]


@dataclass(frozen=True)
class Match:
    """A match, and one robot in it."""

    words: list[str]
    files: list[Path]
    robot: int
    profile: int

    @property
    def file(self) -> Path:
        return self.files[0] if len(self.files) == 1 else self.files[self.robot - 1]

    def command(self, *more: str) -> list[str]:
        return [*self.words, f"-p{self.profile}", *more, *map(str, self.files)]


@dataclass
class History:
    """A robot in a match: its state after each cycle in which it ran, from 0 on, and what happened in the cycles."""

    match: Match
    listing: Listing
    names: Names
    places: dict[int, tuple[int, int]]
    states: list[State]
    asked: list[Asked]
    restarts: set[int]
    hurts: set[int]
    hits: set[int]
    last: int
    death: int | None

    def state(self, cycle: int) -> State:
        """The state after a cycle, or after the last one in which the robot ran."""
        return self.states[min(cycle, len(self.states) - 1)]

    def line(self, address: int) -> int:
        return self.places[address][0]

    def function(self, address: int) -> str:
        """The function that holds an address."""
        return max((it.address, it.name) for it in self.listing.functions if it.address <= address)[1]

    def begins(self, cycle: int) -> bool:
        """Whether the robot lives to begin a cycle."""
        return 0 < cycle < len(self.states)

    def entries(self, lines: set[int]) -> set[int]:
        """The addresses at which lines are entered."""
        found = {it.address for it in self.listing.functions if self.line(it.address) in lines}
        for address, words in enumerate(self.listing.code):
            if address == 0 or self.line(address - 1) != self.line(address):
                found.add(address)
            if words[0] == "BRANCH":
                to = int(words[1])
                if to <= address or self.line(to) != self.line(address):
                    found.add(to)
        return {address for address in found if self.line(address) in lines}

    def variable(self, state: State, name: str) -> int | None:
        """The value of a variable after a cycle: of an external, or of `FUNCTION.NAME` if the robot is in that function."""
        function, _, local = name.rpartition(".")
        if not function:
            return state.externals[self.names.externals.index(local)]
        if self.function(state.at) != function:
            return None
        return state.words[state.calls[0][2] + self.names.variables[function].index(local)]

    def changes(self, name: str, cycle: int) -> bool:
        """Whether a variable changes in a cycle: of a function, in one life of it. Those of main live on when it restarts."""
        before, after = self.states[cycle - 1], self.states[cycle]
        old, new = self.variable(before, name), self.variable(after, name)
        is_one = "." not in name or before.calls[0][2] == after.calls[0][2]
        return old is not None and new is not None and is_one and old != new


def told(program: str, *words: str) -> str:
    """What a program writes."""
    ran = subprocess.run([program, *words], capture_output=True, text=True, timeout=PATIENCE, check=True)
    return ran.stdout


def rows(program: str, form: str, match: Match) -> list[list[str]]:
    """The rows of a form of `trace` on the robot."""
    text = told(program, form, *match.command("--robot", str(match.robot)))
    return [line.split("\t") for line in text.splitlines()[1:]]


def hits_of(match: Match, trace: str, debug: str) -> set[int]:
    """The cycles after which a missile of the robot bursts so close to another one that it hurts it, by the places of both."""
    events = [line.split("\t") for line in told(trace, "--events", *match.command()).splitlines()[1:]]
    bursts = [(int(row[0]), int(row[3]), int(row[4])) for row in events if row[2] == "burst" and row[1] == str(match.robot)]
    deaths = {row[1]: int(row[0]) for row in events if row[2] == "death"}
    commands = "".join(f"at {cycle}\n" for cycle, _, _ in bursts)
    ran = subprocess.run([debug, *match.command()], input=commands, capture_output=True, text=True, timeout=PATIENCE, check=True)
    hits = set()
    for (cycle, x, y), answer in zip(bursts, ran.stdout.split("\n\n")):
        robots = [row.split("\t")[1:4] for row in answer.splitlines() if row.startswith("robot\t")]
        lives = [it for it in robots if it[0] != str(match.robot) and deaths.get(it[0], cycle) >= cycle]
        if any((int(it[1]) - x) ** 2 + (int(it[2]) - y) ** 2 <= REACH**2 for it in lives):
            hits.add(cycle)
    return hits


def places_of(stages: str, match: Match) -> dict[int, tuple[int, int]]:
    """The line of each address, and its place in that line's rows, by `stages`."""
    found: dict[int, tuple[int, int]] = {}
    line = 0
    for row in told(stages, "--code", f"-p{match.profile}", str(match.file)).splitlines():
        if head := re.match(r" *(\d+) \|", row):
            line = int(head[1])
        elif code := re.match(r" +(\d+) [A-Z]", row):
            found[int(code[1])] = (line, len(found))
    return found


def parameters_of(source: str, names: Names) -> dict[str, int]:
    """How many parameters each function has."""
    plain = re.sub(r"/\*.*?\*/", " ", source, flags=re.DOTALL)
    found = {}
    for name in names.variables:
        heading = re.search(rf"\b{name}\s*\(([^()]*)\)[^;(){{}}]*(?:;[^;(){{}}]*)*?\{{", plain)
        found[name] = len([it for it in heading[1].split(",") if it.strip()]) if heading else 0
    return found


def history_of(match: Match, crobots: str, trace: str, stages: str, debug: str = "") -> History:
    """Runs the robot's machine by the replies that `trace` shows. Its hits are looked for if `debug` is given."""
    text = told(crobots, "-c", f"-p{match.profile}", str(match.file))
    listing, names = read(text), Names.of(text)
    asked = [Asked(int(cycle), call, int(reply)) for cycle, _, _, _, call, reply in rows(trace, "--asks", match)]
    waiting = iter(asked)

    def reply(name: str, arguments: list[int]) -> int:
        question = next(waiting)
        call = f"{name}({', '.join(map(str, arguments[: USED[name]]))})"
        assert question.call == call, f"{question} is told, and {call} is asked"
        return question.reply

    source = match.file.read_text(encoding="latin-1")
    machine = Machine(listing, parameters_of(source, names), match.profile, reply)
    steps, events = rows(trace, "--steps", match), rows(trace, "--events", match)
    states, restarts = [state_of(machine)], set()
    for cycle, row in enumerate(steps, 1):
        assert row[0] == str(cycle) and row[2] == str(machine.at), f"{row}, and not cycle {cycle} at {machine.at}"
        before = machine.returns + machine.lacks
        machine.step()
        if machine.returns + machine.lacks > before:
            restarts.add(cycle)
        states.append(state_of(machine))
    hurts = defaultdict(int)
    for cycle, _, kind, percent, *_ in events:
        if kind in HURTS:
            hurts[int(cycle)] += int(percent)
    deaths = [int(row[0]) for row in events if row[2] == "death"]
    last = int(next(row[0] for row in events if row[2] == "end"))
    return History(match, listing, names, places_of(stages, match), states, asked, restarts,
                   {cycle for cycle, percent in hurts.items() if percent}, {it for it in (hits_of(match, trace, debug) if debug else ()) if it < len(states)},
                   last, deaths[0] if deaths else None)


def state_of(machine: Machine) -> State:
    """The state of a machine."""
    calls, address = [], machine.at
    for depth in range(len(machine.frames), 0, -1):
        frame = machine.frames[depth - 1]
        if any(frame is it for it in machine.inner):
            calls.append((depth, address, frame.base))
            address = frame.back - 1
    return State(machine.at, tuple(machine.words), tuple(machine.externals), len(machine.frames), tuple(calls))
