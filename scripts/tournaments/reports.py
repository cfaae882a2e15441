"""Reads what `crobots` writes in a series: its reports and totals."""

import functools
from collections import Counter
from typing import Sequence

from results.battles import DID, endings
from tools.rules import DEADLY


@functools.cache
def damages(seat: int) -> dict[str, str]:
    """What a row of a report begins with, before the name of the robot in this seat, and the damage that this says."""
    return {f"  {seat}) {'alive' if damage < DEADLY else 'dead '} damage {damage:>3}% ": str(damage) for damage in range(DEADLY + 1)}


@functools.cache
def width(seat: int) -> int:
    """How long that is."""
    return len(next(iter(damages(seat))))


def results(output: bytes, robots: int, first: int, count: int) -> str | None:
    """The results of a record, if the output is all of such a series and its totals are those of its reports."""
    # a letter for each byte: names may have any
    *lines, end = output.decode("latin-1").split("\n")
    each, reports = robots + 1, count * (robots + 1)
    if end or len(lines) != reports + each:
        return None
    heads, *columns = (lines[at:reports:each] for at in range(each))
    cycles = [head.removeprefix(f"Match {number}: cycles = ") for number, head in enumerate(heads, first)]
    found = [[damages(seat).get(row[:width(seat)], "") for row in column] for seat, column in enumerate(columns, 1)]
    if not all(map(is_number, cycles)) or not all(map(all, found)):
        return None
    said = ",".join(map(":".join, zip(cycles, *found)))
    return said if are_totals(lines[reports:], Counter(endings(said)), count) else None


def is_number(text: str) -> bool:
    """Whether a text is a number as `crobots` writes it."""
    return text.isdecimal() and text.isascii() and (text[0] != "0" or text == "0")


def are_totals(lines: Sequence[str], ended: Counter[str], count: int) -> bool:
    """Whether these lines are the totals of so many matches, by how often a match ended so."""
    head, *rows = lines
    wanted = (f"  {seat}) " + "".join(f"{did} {tally(ended, seat - 1, letter)} " for letter, did in DID.items()) for seat in range(1, len(lines)))
    return head == f"Totals: {count} matches" and all(map(str.startswith, rows, wanted))


def tally(ended: Counter[str], seat: int, letter: str) -> int:
    """In how many matches the robot of a seat did this."""
    return sum(matches for each, matches in ended.items() if each[seat] == letter)
