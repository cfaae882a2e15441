"""Marks what is handed in: blanks and line ends don't count."""

import os
import re
from dataclasses import dataclass
from typing import Iterable

from tools.faults import plain, reading

from .programs import Programs
from .tasks import TASKS, task_of

# A hand-in is named by who made it, and by the exercise.
NAMED = re.compile(r"(.+)-([0-9]{1,3})(?:\.[^.]*)?")
MOST_BYTES = 1 << 20
RIGHT, MISSING = "right", "missing"
Key = tuple[str, int]


@dataclass(frozen=True)
class Row:
    """Who, which exercise, and how the answer is."""

    who: str
    exercise: str
    answer: str


class Marker:
    """Knows the right answers by the proved programs, each asked once."""

    def __init__(self, programs: Programs) -> None:
        self._programs = programs
        self._right: dict[Key, list[str]] = {}

    def right(self, seed: str, number: int) -> list[str]:
        """The right answer of someone."""
        if (seed, number) not in self._right:
            self._right[seed, number] = normal(task_of(number, seed).answer(self._programs))
        return self._right[seed, number]

    def marked(self, text: str, seed: str, number: int, others: Iterable[str] = ()) -> str:
        """What is said of an answer, also if it is right for someone else alone."""
        given, right = normal(text.splitlines()), self.right(seed, number)
        if given == right:
            return RIGHT
        whose = next((other for other in others if other != seed and self.right(other, number) == given), None)
        return f"wrong: this is right for {plain(whose)}" if whose is not None else f"wrong: {difference(given, right)}"


def normal(lines: Iterable[str]) -> list[str]:
    """Lines without the blanks that don't count, and without empty ones."""
    return [" ".join(line.split()) for line in lines if line.split()]


def difference(given: list[str], right: list[str]) -> str:
    """The first line that is wrong, without what it should be."""
    at = next((at for at, (one, other) in enumerate(zip(given, right)) if one != other), min(len(given), len(right)))
    if at < min(len(given), len(right)):
        return f"line {at + 1} is {plain(given[at])[:60]}"
    return f"{len(given)} lines, and it has to be {len(right)}" if given else "nothing is in it"


def text_of(path: str) -> str:
    """The text of a hand-in."""
    with reading(path), open(path, "rb") as file:
        return file.read(MOST_BYTES).decode("utf-8-sig", "replace").replace("\r\n", "\n").replace("\r", "\n")


def named(path: str) -> Key | None:
    """Who made a hand-in, and which exercise it is of, by its name."""
    found = NAMED.fullmatch(os.path.basename(path))
    return (found[1], int(found[2])) if found and int(found[2]) in TASKS else None


def table(folder: str, number: int | None, marker: Marker) -> list[Row]:
    """A row for each hand-in of a folder, and for each that is missing of an exercise that someone handed in."""
    names = sorted(name for name in os.listdir(folder) if not name.startswith(".") and os.path.isfile(os.path.join(folder, name)))
    made = {key: name for name in names if (key := named(name)) and number in (None, key[1])}
    strange = [Row(plain(name), "", "its name isn't as anna-3.txt") for name in names if named(name) is None]
    everyone, exercises = sorted({who for who, _ in made}), sorted({exercise for _, exercise in made})
    rows = [Row(plain(who), str(exercise), marker.marked(text_of(os.path.join(folder, made[who, exercise])), who, exercise, everyone)
                if (who, exercise) in made else MISSING) for who in everyone for exercise in exercises]
    return rows + strange


def lines_of(rows: list[Row]) -> list[str]:
    """The table, in columns."""
    head = Row("who", "exercise", "answer")
    wide = max(len(row.who) for row in [head, *rows])
    return [f"{row.who:<{wide}}  {row.exercise:>8}  {row.answer}" for row in [head, *rows]]
