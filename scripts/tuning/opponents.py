"""Whom a robot is tuned against: files, folders, samples of a level, and the best robots of a league, each with a weight; never itself."""

import importlib
import os
import re
from dataclasses import dataclass
from fractions import Fraction
from pathlib import Path
from typing import Callable, Iterable, Sequence

from tools.faults import Fault, reading
from tools.samples import of_level
from tournaments import robots
from tournaments.robots import Robot

from .marks import bare

NOBODY = "there is no robot to play against; give files, folders with robots, --level N or --league LEAGUE"
# How many of a league if no number is given.
BEST = 10


@dataclass(frozen=True)
class Opponent:
    """A robot, what its matches weigh among those of the others, and whether its file was named, or found in a folder, a level or a league."""

    robot: Robot
    weight: Fraction = Fraction(1)
    is_named: bool = True


@dataclass(frozen=True)
class Itself:
    """The robot that is tuned: the hash of its bytes, and what these are but for its numbers, comments and blanks."""

    sha256: str
    but_numbers: re.Pattern[bytes]

    def is_met(self, other: Opponent, folder: str) -> bool:
        """Whether an opponent is the robot, and isn't played: it has the same bytes, or it is a copy whose file wasn't named."""
        return other.robot.sha256 == self.sha256 or not other.is_named and self.has_copy(other, folder)

    def has_copy(self, other: Opponent, folder: str) -> bool:
        """Whether an opponent, whose bytes the folder has, is the robot with other numbers or comments: the one without marks, an earlier
        copy, or what a search wrote."""
        return bool(self.but_numbers.fullmatch(bare(Path(folder, other.robot.sha256).read_bytes())))


@dataclass(frozen=True)
class League:
    """A league's folder, and how many of its best robots are meant."""

    folder: str
    best: int = BEST


@dataclass(frozen=True)
class Level:
    """A level of the sample robots, and what each of them weighs."""

    number: int
    weight: Fraction = Fraction(1)


def opponents(paths: Sequence[str], league: League | None, weights: Sequence[tuple[str, Fraction]], folder: str,
              levels: Sequence[Level] = ()) -> list[Opponent]:
    """The robots of these words, copied into a folder, in an order that doesn't depend on that of the words."""
    samples = {path: level.weight for level in levels for path in of_level(level.number)}
    files = [*(file for path in paths for file in robots_of(path)), *samples]
    found = robots.copied(files, folder) + (of_league(league, folder) if league else [])
    unused = {path for path, _ in weights}
    them = []
    for robot in robots.in_order(found):
        weight, by = weight_of(robot.path, weights) or (samples.get(robot.path, Fraction(1)), "")
        unused -= {by}
        them.append(Opponent(robot, weight, robot.path in paths))
    if unused:
        raise Fault(f"--weight names {min(unused)}, which isn't played against")
    return [opponent for opponent in them if opponent.weight]


def without(found: Sequence[Opponent], itself: Itself, folder: str) -> tuple[list[Opponent], list[str]]:
    """The opponents but the robot itself, and the files that are left out, by name."""
    them = [(one, itself.is_met(one, folder)) for one in found]
    return [one for one, is_itself in them if not is_itself], sorted(one.robot.path for one, is_itself in them if is_itself)


def copies(found: Sequence[Opponent], itself: Itself, folder: str) -> list[str]:
    """The files of opponents that are copies of the robot."""
    return sorted(one.robot.path for one in found if itself.has_copy(one, folder))


def robots_of(path: str) -> list[str]:
    """A file, or the robots of a folder: its files that end with '.r'."""
    if not os.path.isdir(path):
        return [path]
    with reading(path):
        found = sorted(os.path.join(path, name) for name in os.listdir(path) if name.endswith(".r"))
    if not found:
        raise Fault(f"{path} has no robots, whose names end with '.r'")
    return found


def weight_of(path: str, weights: Iterable[tuple[str, Fraction]]) -> tuple[Fraction, str] | None:
    """The weight of a robot, by its file or by the folder that it is in, and the word that gave it: the last one that does."""
    found = [(weight, word) for word, weight in weights if same(word, path) or same(word, os.path.dirname(path) or ".")]
    return found[-1] if found else None


def same(one: str, other: str) -> bool:
    return os.path.abspath(one) == os.path.abspath(other)


def of_league(league: League, folder: str) -> list[Robot]:
    """The best robots of a league. What reads leagues is itself read here, since few need it."""
    best: Callable[[str, int, str], list[Robot]] = importlib.import_module("tuning.rated").best
    return best(league.folder, league.best, folder)
