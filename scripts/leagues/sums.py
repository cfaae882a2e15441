"""What robots did in some of their matches, as `crobots-trace` sums it up."""

import subprocess
from concurrent.futures import ThreadPoolExecutor
from typing import Sequence

from results.battles import Group
from sites.facts import Sums
from tools.programs import TRACE, installed

from .results import Results
from .schedules import Schedule

# A seating, and in which seat the robot is.
Seat = tuple[Group, int, int]


def sums(schedule: Schedule, results: Results, folder: str, many: int, jobs: int) -> dict[str, Sums]:
    """Of each robot what the program sums up of at most `many` of its matches; nothing if the program isn't there."""
    trace = installed(TRACE) if many else ""
    if not trace:
        return {}
    ends = results.ends()
    played: dict[int, list[Seat]] = {}
    for group in schedule.groups():
        for seats, seed in schedule.seatings(group):
            if ends.get(results.number(schedule.seated(seats, seed)) or 0):
                for seat, robot in enumerate(seats):
                    played.setdefault(robot, []).append((seats, seed, seat))
    robots = schedule.field.robots
    with ThreadPoolExecutor(jobs) as pool:
        said = {at: [pool.submit(summed, trace, schedule, folder, seat) for seat in spread(seats, many)]
                for at, seats in played.items()}
        return {robots[at].robot: joined([job.result() for job in them]) for at, them in said.items()}


def spread(them: Sequence[Seat], many: int) -> list[Seat]:
    """At most `many` of them, in equal distances."""
    return [them[at * len(them) // many] for at in range(many)] if len(them) > many else [*them]


def joined(them: Sequence[Sums]) -> Sums:
    """The sums of all these matches."""
    return Sums("".join(part.text for part in them), "".join(part.objects for part in them))


def summed(trace: str, schedule: Schedule, folder: str, where: Seat) -> Sums:
    """What the program sums up of a robot in the first match of a seating; nothing if it fails."""
    seats, seed, seat = where
    rules = schedule.field.rules
    files = [f"{folder}/{schedule.field.robots[at].sha256}" for at in seats]
    words = [f"--robot={seat + 1}", f"-l{rules.cycles}", f"-s{seed}", f"-p{rules.profile}", "--", *files]
    return Sums(written([trace, "--sum", *words]), written([trace, "--json", *words]))


def written(words: Sequence[str]) -> str:
    """What a program writes; nothing if it fails."""
    ran = subprocess.run(words, stdin=subprocess.DEVNULL, capture_output=True, text=True, errors="replace", check=False)
    return ran.stdout if not ran.returncode else ""
