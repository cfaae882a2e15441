"""The words of the command line."""

from dataclasses import dataclass

from tools.faults import Misuse
from tools.words import Given, given

from .tasks import TASKS

NAME = "crobots-exercise"
USAGE_LINE = f"usage: {NAME} [--seed SEED] NUMBER | {NAME} --check [--seed SEED] [NUMBER] FILE"
HELP = f"""{USAGE_LINE}

Prints an exercise with numbers of your own, or marks what was handed in.

options:
  --seed SEED       whose numbers: any text, as a name (default 1)
  --check           mark a file, or all files of a folder
  -h, --help        show this page
  --version         show the version

More: man {NAME}
"""
DEFAULT_SEED = "1"


@dataclass(frozen=True)
class Asked:
    """What the words ask for: flags, the exercise, whose it is, and what is marked."""

    flags: set[str]
    number: int | None
    seed: str | None
    path: str | None


def read(words: list[str]) -> Asked:
    """Reads the words."""
    if strange := next((word for word in words if any("\udc80" <= letter <= "\udcff" for letter in word)), None):
        raise Misuse(f"{strange}: this word is no text")
    found = given(words, ("--seed",), ("--check",))
    seed = found.once("--seed")
    if found.flags & {"-h", "--help", "--version"}:
        return Asked(found.flags, None, None, None)
    return to_mark(found, seed) if "--check" in found.flags else to_print(found, seed)


def to_print(given: Given, seed: str | None) -> Asked:
    """The words of an exercise that is to be printed."""
    if len(given.files) > 1:
        raise Misuse(f"one word too many: {given.files[1]}")
    if not given.files:
        raise Misuse(f"no exercise: --seed took {seed} for its value" if seed else "")
    return Asked(given.flags, number_of(given.files[0]), seed or DEFAULT_SEED, None)


def to_mark(given: Given, seed: str | None) -> Asked:
    """The words of what is to be marked: the last one is its file."""
    if len(given.files) > 2:
        raise Misuse(f"one word too many: {given.files[2]}")
    if not given.files or len(given.files) == 1 and seed is not None and given.files[0].isdigit():
        raise Misuse(f"no file: --seed took {seed} for its value" if seed else "no file")
    return Asked(given.flags, number_of(given.files[0]) if len(given.files) == 2 else None, seed, given.files[-1])


def number_of(word: str) -> int:
    """The number of an exercise that a program marks."""
    if not (word.isascii() and word.isdigit() and len(word) < 4 and int(word) in TASKS):
        raise Misuse(f"{word}: no number of an exercise that is marked: {', '.join(map(str, TASKS))}")
    return int(word)
