"""The robots of a tournament: their files, hashes and names, and whether they compile.

A file is read once, and what is compiled and played is a copy in a private folder, named by its hash: so a robot that is
edited meanwhile changes nothing."""

import contextlib
import hashlib
import os
import shutil
import sys
import tempfile
from collections import Counter
from dataclasses import dataclass
from typing import Iterable, Iterator

from tools.faults import FAULTY, FILE, PROGRAM, Fault, plain, reading, writing
from tools.output import tell
from tools.programs import complaint
from tools.signals import watch

from .programs import Program


@dataclass(frozen=True)
class Robot:
    """A robot: the word that its file has on command lines, and the hash of the file's bytes."""

    path: str
    sha256: str


@contextlib.contextmanager
def private() -> Iterator[str]:
    """Makes a folder that nobody else can read, and removes it in the end."""
    with watch() as stop:
        with writing(tempfile.gettempdir()):
            folder = tempfile.mkdtemp(prefix="crobots-")
    try:
        stop.check()
        yield folder
    finally:
        with watch() as stop:
            shutil.rmtree(folder, ignore_errors=True)
    stop.check()


def copied(paths: list[str], folder: str) -> list[Robot]:
    """Reads the robots' files, and copies them into a folder."""
    seen: set[str] = set()
    for path in paths:
        if "\n" in path:
            raise Fault("a robot's name has a line break")
        if os.path.abspath(path) in seen:
            raise Fault(f"the robot {path} is given twice")
        seen.add(os.path.abspath(path))
    return [copy(path, folder) for path in paths]


def copy(path: str, folder: str) -> Robot:
    """Reads a file, and copies it."""
    with reading(path), open(path, "rb") as file:
        source = file.read()
    return laid(path, source, folder)


def laid(path: str, source: bytes, folder: str) -> Robot:
    """A robot with these bytes, which are put into a folder under their hash."""
    robot = Robot(path, hashlib.sha256(source).hexdigest())
    place = os.path.join(folder, robot.sha256)
    with writing(place), open(place, "wb") as file:
        file.write(source)
    return robot


def in_order(robots: Iterable[Robot]) -> list[Robot]:
    """The order of a tournament, which doesn't depend on that of the words."""
    return sorted(robots, key=lambda robot: (robot.sha256, os.fsencode(robot.path)))


def names(paths: list[str]) -> list[str]:
    """The shortest ends of the paths that are distinct."""
    parts = [os.path.normpath(path).split(os.sep) for path in paths]
    found: list[str] = [""] * len(paths)
    for length in range(1, max(map(len, parts), default=0) + 1):
        ends = [os.sep.join(part[-length:]) for part in parts]
        often = Counter(ends)
        for at, end in enumerate(ends):
            if not found[at] and (often[end] == 1 or len(parts[at]) <= length):
                found[at] = end
    return found


def compiled(crobots: Program, profile: int, robots: list[Robot], folder: str) -> None:
    """Stops, with the program's own diagnostics, if a robot has a fault."""
    statuses = {diagnosed(crobots.path, profile, robot, folder) for robot in robots} - {0}
    if statuses == {1}:
        sys.exit(FAULTY)
    if statuses:
        sys.exit(FILE if statuses <= {1, 3} else PROGRAM)


def diagnosed(crobots: str, profile: int, robot: Robot, folder: str) -> int:
    """Compiles a robot's copy, and passes the program's diagnostic on under the path that was given; answers the program's status."""
    words = [crobots, "-c", f"-p{profile}", "--", os.path.join(folder, robot.sha256)]
    try:
        status, said = complaint(words)
    except OSError as why:
        raise Fault(f"{crobots} can't be run: {why.strerror}", PROGRAM) from why
    if status and not said:
        raise Fault(f"{crobots} -c -p{profile} -- {robot.path} ended with status {status} and said nothing", PROGRAM)
    tell(said.replace(robot.sha256, plain(robot.path)))
    return status
