"""What is wanted as command lines, for other machines: a file of the league has all series, and each line plays some of them.

A line names the file, where in it the first series begins, and how many follow. So it is short, however many series it has, and an
array of jobs needn't be large. All names are relative to the league's folder, which may be anywhere on another machine."""

import contextlib
import hashlib
import os
import shlex
import time
from typing import Iterator

from tools.faults import Fault, writing
from tools.output import replaced
from tournaments.plans import SERIES, Plan, one_write
from tournaments.records import Record

NAME = "plans"
CHUNK = os.path.join(os.path.dirname(os.path.realpath(__file__)), "chunk.sh")
# A plan is needed as long as its lines are played. Older ones are removed when another is made.
DAYS = 30


def planned(plan: Plan, folder: str, program: str, piece: int | None, chunk: int) -> Iterator[str]:
    """Writes the series of a plan, if there are any, into a file of the league's folder; gives the command lines that play them."""
    if not plan.only:
        return
    most = min(piece or plan.settings.matches, one_write(plan.settings, plan.robots))
    rows = [f"{program}\n".encode(), *(row(record) for record in Plan(plan.settings, plan.robots, most, plan.only).planned())]
    if "\n" in program:
        raise Fault("the program's path has a line break")
    name = kept(os.path.join(folder, NAME), b"".join(rows))
    run = shlex.quote(os.path.join(folder, NAME, "run"))
    begin = len(rows[0])
    for at in range(1, len(rows), chunk):
        part = rows[at:at + chunk]
        yield f"sh {run} {name} {begin} {len(part)}\n"
        begin += sum(map(len, part))


def row(record: Record) -> bytes:
    """A series: the head of its record, its options, and the files of its robots, with tabs between them."""
    series = record.series
    options = record.settings.options(series.seed, series.first, series.matches)
    return "\t".join([record.head(), " ".join(options), " ".join(robot.path for robot in record.robots)]).encode() + b"\n"


def kept(folder: str, text: bytes) -> str:
    """Writes a plan beside what plays it, and removes old ones; answers its name, which is the beginning of its hash."""
    name = hashlib.sha256(text).hexdigest()[:16]
    with writing(folder):
        os.makedirs(folder, exist_ok=True)
        for place, path in (("run", CHUNK), ("series", SERIES)):
            with open(path, "rb") as file:
                replaced(os.path.join(folder, place), file.read())
        replaced(os.path.join(folder, name), text)
        remove_old(folder, time.time() - DAYS * 86400)
    return name


def remove_old(folder: str, before: float) -> None:
    """Removes the files that were written before a time. Others may do so at the same time."""
    for file in os.scandir(folder):
        with contextlib.suppress(FileNotFoundError):
            if file.stat().st_mtime < before:
                os.unlink(file.path)
