"""Tests of what the module reports of robots from inside: as another machine works it out (histories.py), and by plain searches."""

from __future__ import annotations

import base64
import json
import random
import subprocess
from pathlib import Path
from typing import Any, Iterator

from histories import History, Match, State, history_of
from listing_machine import USED

from .battles import ROBOTS
from harness import PATIENCE

from .module import STILL, lacking, words_of

__all__ = ["lacking", "results"]
CYCLES = 2_000
MOMENTS = 40
FINDS = 20
SEED = 3
COLUMNS = "cycle\trobot\tkind\ta\tb\tc\td\te"
Rows = list[list[str]]


def asked(folder: str, jobs: list[dict[str, Any]]) -> list[tuple[int, Rows]]:
    """What the module answers to jobs, as engine.mjs takes them: statuses and rows."""
    ran = subprocess.run(words_of("engine.mjs", folder), input=json.dumps(jobs), capture_output=True, text=True, check=True, timeout=PATIENCE)
    found = []
    for answer in json.loads(ran.stdout):
        head, *rows = base64.b64decode(answer["text"]).decode().splitlines() or [""]
        assert head == COLUMNS or not rows, head
        found.append((answer["ending"], [row.split("\t") for row in rows]))
    return found


def job(call: str, match: Match, **more: Any) -> dict[str, Any]:
    """A job on the robot of a match."""
    values = {word[1]: int(word[2:]) for word in match.words}
    robots = [{"name": file.name, "source": base64.b64encode(file.read_bytes()).decode()} for file in match.files]
    settings = {"first": values["k"], "limit": values["l"], "seed": str(values["s"]), "profile": match.profile, "robot": match.robot - 1, **more}
    return {"call": call, "settings": settings, "robots": robots}


def moment_rows(history: History, cycle: int) -> Rows:
    """The rows on where a robot is after a cycle, but for those of its frames."""
    now, robot = min(cycle, history.last), str(history.match.robot)
    state, is_over = history.state(now), now == history.last
    is_alive = history.death is None or now < history.death
    found = [[str(now), robot, "moment", str(state.at), str(state.calls[0][2]), str(int(is_alive)), str(int(is_over))]]
    if is_alive and not is_over:
        found += next_rows(history, now, robot)
    for it in [it for it in history.asked if it.cycle <= now][-1:]:
        found.append([str(it.cycle), robot, "asked", *call_fields(it.call), str(it.reply)])
    for kind, values in (("word", state.words), ("external", state.externals)):
        found += [[str(now), robot, kind, str(value)] for value in values]
    return found


def next_rows(history: History, now: int, robot: str) -> Rows:
    """What the robot does in the next cycle, if it asks or restarts."""
    if now + 1 in history.restarts:
        word = history.listing.code[history.state(now).at][0]
        return [[str(now), robot, "restarts", {"RETSUB": "returned", "FRAME": "frames"}.get(word, "words")]]
    return [[str(now), robot, "asks", *call_fields(it.call)] for it in history.asked if it.cycle == now + 1]


def call_fields(call: str) -> list[str]:
    """The fields of a question: its function, how many arguments that uses, and these."""
    name, _, rest = call.rstrip(")").partition("(")
    return [name, str(USED[name]), *(rest.split(", ") if rest else [])]


def shown(row: list[str]) -> list[str]:
    """A row without the arguments that its function doesn't use."""
    if row[2] not in ("asks", "asked"):
        return row
    return row[:5 + int(row[4])] + row[7:]


def calls_of(rows: Rows) -> tuple[tuple[int, int, int], ...]:
    """The calls that have begun, by the rows of the frames, as `State` has them."""
    address = next(int(row[3]) for row in rows if row[2] == "moment")
    frames = [(int(row[3]), int(row[4])) for row in rows if row[2] == "frame"]
    calls = []
    for depth in range(len(frames), 0, -1):
        base, back = frames[depth - 1]
        if depth == 1 or back > 0:
            calls.append((depth, address, base))
            address = back - 1
    return tuple(calls)


def samples(programs: tuple[str, str, str]) -> list[History]:
    """Matches of the sample robots: each as the first robot and as the second one, in both profiles, and against itself."""
    crobots, stages, trace = programs
    files = sorted(Path(ROBOTS).glob("*.r"))
    found = []
    for number, file in enumerate(files):
        other = files[(number + 1) % len(files)]
        robot, profile = 1 + number % 2, 1 + number // 2 % 2
        pair = [file] if number % 5 == 4 else [file, other] if robot == 1 else [other, file]
        found.append(history_of(Match([f"-k{number + 1}", f"-l{CYCLES}", f"-s{SEED}"], pair, robot, profile), crobots, trace, stages))
    return found


def moments(folder: str, histories: list[History]) -> list[str]:
    """Where robots are after random cycles, after the first ones and the last ones, beyond the end, and where they restart."""
    draw, wrong = random.Random(SEED), []
    for history in histories:
        ends = [0, 1, history.last - 1, history.last, history.last + 1, 2**32 - 1]
        near = [it - more for it in sorted(history.restarts)[:3] + [history.death or 1] for more in (0, 1)]
        cycles = [*ends, *near, *(draw.randrange(history.last + 20) for _ in range(MOMENTS))]
        answers = asked(folder, [job("moment", history.match, cycle=cycle) for cycle in cycles])
        for cycle, (ending, rows) in zip(cycles, answers, strict=True):
            state = history.state(min(cycle, history.last))
            got = [shown(row) for row in rows if row[2] != "frame"]
            if (ending, got) != (0, moment_rows(history, cycle)):
                wrong.append(f"{history.match}, cycle {cycle}: {got}, not {moment_rows(history, cycle)}")
            if (calls_of(rows), sum(row[2] == "frame" for row in rows)) != (state.calls, state.frames):
                wrong.append(f"{history.match}, cycle {cycle}: calls {calls_of(rows)}, not {state.calls}")
    return wrong[:5]


def finds(folder: str, histories: list[History]) -> list[str]:
    """The next cycle, and the last one, after which a robot is at one of some addresses, with at most a number of frames."""
    draw, wrong = random.Random(SEED), []
    for history in histories:
        wanted: list[tuple[dict[str, Any], Rows]] = []
        for _ in range(FINDS):
            marks = draw.sample(range(len(history.listing.code)), draw.randrange(4))
            cycle, backwards, most = draw.randrange(history.last + 20), draw.random() < 0.5, draw.choice([1, 2, 3, 2**32 - 1])
            found = searched(history.states, set(marks), cycle, backwards, most)
            wanted.append((job("find", history.match, cycle=cycle, marks=marks, backwards=backwards, frames=most),
                           [] if found is None else [[str(found), str(history.match.robot), "found"]]))
        for (it, rows), got in zip(wanted, asked(folder, [it for it, _ in wanted]), strict=True):
            wrong += [] if got == (0, rows) else [f"{history.match}, {it['settings']}: {got}, not {rows}"]
    return wrong[:5]


def searched(states: list[State], marks: set[int], cycle: int, backwards: bool, most: int) -> int | None:
    """The cycle that is looked for, by a plain search; a robot is nowhere in cycles that it didn't live to begin."""
    cycles = range(min(cycle, len(states)) - 1, 0, -1) if backwards else range(cycle + 1, len(states))
    return next((it for it in cycles if states[it].at in marks and states[it].frames <= most), None)


def nobody(folder: str, history: History) -> list[str]:
    """A robot that the match doesn't have is nowhere; a source with a fault has no moment, and a wrong number is refused."""
    still, bad = [{"name": name, "source": base64.b64encode(source).decode()} for name, source in (STILL, ("bad.r", b"main(){"))]
    # a single robot fights itself
    absent = [([still], 2), ([still], 2**32 - 1), ([still] * 3, 3), ([still] * 4, 4)]
    calls = ("moment", "find")
    jobs = [{**job(call, history.match, robot=robot, cycle=9, marks=[*range(4000)]), "robots": robots} for call in calls for robots, robot in absent]
    jobs += [{**job(call, history.match, cycle=9, profile=profile), "robots": [bad]} for call in calls for profile in (1, 3)]
    none: Rows = []
    wanted = [(0, none)] * 8 + [(1, none), (2, none)] * 2
    return [f"{wish['call']}: {got}, not {right}" for wish, got, right in zip(jobs, asked(folder, jobs), wanted, strict=True) if got != right]


def results(programs: tuple[str, str, str], folder: str) -> Iterator[tuple[str, list[str]]]:
    """The tests' names, and what is wrong; the programs are crobots, stages and trace."""
    histories = samples(programs)
    yield "moments", moments(folder, histories)
    yield "cycles at addresses", finds(folder, histories)
    yield "nobody's moments", nobody(folder, histories[0])
