"""Breakpoints and watched variables: what `continue` stops at, as events of `crobots-debug`."""

import re
from dataclasses import dataclass

from tools.rules import MOST_CONSTANT

from .moments import Moment
from .pipes import Refused

# What may happen to a robot, by the words of `crobots-debug`.
HAPPENINGS = ("hurt", "hit", "restart")
LEAST, MOST = -MOST_CONSTANT - 1, MOST_CONSTANT
Range = tuple[int, int]
CONDITION = re.compile(r"reply *(==|!=|<=|>=|<|>) *(-?\w+)")
FORM = "the form is FUNCTION if reply > 0, with ==, !=, <, <=, > or >=, and && between two"


@dataclass(frozen=True)
class Mark:
    """What stops: its number, how it is named to the user, and the events of which each is one."""

    number: int
    kind: str
    text: str
    events: tuple[str, ...]

    def line(self) -> str:
        """The line at which it stops, if it does at one."""
        first = self.events[0]
        return first.removeprefix("line ") if first.startswith("line ") else ""

    def is_watch(self) -> bool:
        return self.kind == "watch"

    def told(self) -> str:
        return f"{self.kind} {self.number}: {self.text}"


def breakpoint_of(number: int, text: str, moment: Moment) -> Mark:
    """The breakpoint that a text asks for; the empty one asks for the line where the robot is."""
    word, _, rest = text.partition(" ")
    if not text or word.isascii() and word.isdigit():
        return line_mark(number, str(int(word[:20] or moment.line)), rest)
    if rest and word in HAPPENINGS:
        raise Refused(f"{rest}: nothing follows {word}")
    if word in HAPPENINGS:
        return Mark(number, "breakpoint", word, (word,))
    return Mark(number, "breakpoint", text, questions(word, rest.strip()))


def line_mark(number: int, line: str, rest: str) -> Mark:
    """A breakpoint at a line."""
    if rest:
        raise Refused(f"{rest}: nothing follows the line")
    return Mark(number, "breakpoint", f"line {line}", (f"line {line}",))


def watch_of(number: int, name: str, moment: Moment) -> Mark:
    """A watched variable: if the robot sees one of this name now, that one."""
    return Mark(number, "watch", moment.full_name(name), (f"change {moment.full_name(name)}",))


def questions(function: str, condition: str) -> tuple[str, ...]:
    """The events of a function whose reply is as a condition says."""
    if not condition:
        return (f"ask {function}",)
    begin, _, terms = condition.partition(" ")
    if begin != "if":
        raise Refused(f"{begin}: {FORM}")
    ranges = [(LEAST, MOST)]
    for term in terms.split("&&"):
        ranges = common(ranges, ranges_of(term.strip()))
    if not ranges:
        raise Refused(f"{terms}: no reply is so")
    return tuple(f"ask {function} {least} {most}" for least, most in ranges)


def ranges_of(term: str) -> list[Range]:
    """The replies of which a term is true."""
    found = CONDITION.fullmatch(term)
    if not found:
        raise Refused(f"{term or 'if'}: {FORM}")
    operator, value = found[1], number(found[2])
    below, above = (LEAST, value - 1), (value + 1, MOST)
    parts = {"==": [(value, value)], "!=": [below, above], "<": [below], ">": [above],
             "<=": [(LEAST, value)], ">=": [(value, MOST)]}[operator]
    return [part for part in parts if part[0] <= part[1]]


def number(word: str, least: int = LEAST, most: int = MOST) -> int:
    """Reads a whole number within limits; without them one of 32 bits."""
    if not re.fullmatch(("-?" if least < 0 else "") + "[0-9]{1,10}", word) or not least <= int(word) <= most:
        raise Refused(f"{word}: no number from {least} to {most}")
    return int(word)


def common(some: list[Range], others: list[Range]) -> list[Range]:
    """What two lists of ranges have in common."""
    pairs = ((max(a, c), min(b, d)) for a, b in some for c, d in others)
    return [(least, most) for least, most in pairs if least <= most]


class Marks:
    """The marks that are set, by their numbers. No number is used twice."""

    def __init__(self) -> None:
        self._marks: dict[int, Mark] = {}
        self._last = 0

    def next_number(self) -> int:
        return self._last + 1

    def add(self, mark: Mark) -> None:
        self._marks[mark.number] = mark
        self._last = mark.number

    def delete(self, number: int) -> bool:
        """Deletes a mark; reports whether it was there."""
        return self._marks.pop(number, None) is not None

    def all(self) -> list[Mark]:
        return list(self._marks.values())

    def lines(self) -> set[int]:
        """The lines that have a breakpoint."""
        return {int(mark.line()) for mark in self.all() if mark.line()}

    def events(self) -> list[str]:
        """The events of all marks: all lines together are one."""
        lines = sorted(self.lines())
        together = [f"line {','.join(map(str, lines))}"] if lines else []
        others = [event for mark in self.all() if not mark.line() for event in mark.events]
        return together + list(dict.fromkeys(others))

    def stopped(self, event: str, line: int) -> list[Mark]:
        """The marks that stop with an event, at a line."""
        return [mark for mark in self.all() if event in mark.events or event.startswith("line ") and mark.line() == str(line)]
