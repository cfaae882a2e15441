"""The numbers of a robot that may be changed: constants with a mark in the comment behind them, or named by line and column.

The proved lexer says where constants stand. Between a token and the next one are blanks and comments alone, so that is where
a mark is looked for: `/* tune 100..900 */`, which may go on with `step 50` and with `name near`. A comment behind a number that is
nearly a mark is refused, since it was hardly meant as anything else."""

import itertools
import json
import re
from bisect import bisect_right
from dataclasses import dataclass
from typing import Any, Iterator, NamedTuple, Sequence

from tools import programs
from tools.faults import FAULTY, FILE, Fault, plain
from tools.rules import MOST_CONSTANT, MOST_NAME_BYTES

KNOW = "crobots-know"
# So many values a sweep has at most if no step is given.
VALUES = 20
# How many constants are listed where none is meant.
TOLD = 8
# A number is called as a variable could be.
NAME = re.compile(rf"[A-Za-z_][A-Za-z0-9_]{{0,{MOST_NAME_BYTES - 1}}}")
BOUNDS = re.compile(r"([0-9]{1,10})\.\.([0-9]{1,10})")
# What a mark begins with, and how a comment begins that may be meant as one: a word, and numbers that are perhaps a range.
WORD, EXAMPLE = "tune", "/* tune 100..900 */"
PAIR = re.compile(r"([A-Za-z]+)[ :=]{0,2}-?[0-9]+ ?(?:[-.,:;\ufffd]{1,3}|to) ?-?[0-9]+")
# The byte that ends a source, in a comment too; and a comment.
END = b"\x1a"
COMMENT = re.compile(rb"/\*.*?\*/", re.DOTALL)


class Place(NamedTuple):
    """A line and a column in bytes, both from 1."""

    line: int
    column: int

    def __str__(self) -> str:
        return f"{self.line}:{self.column}"


class Token(NamedTuple):
    """A token: its place, its kind, and where its bytes are."""

    place: Place
    kind: str
    begin: int
    end: int


@dataclass(frozen=True)
class Range:
    """The values that a number may have: from `low` on, in steps, and `high`. Without a step of its own each is meant."""

    low: int
    high: int
    step: int | None = None
    name: str = ""

    def values(self, today: int, many: int = VALUES) -> list[int]:
        """The values of a sweep in their order: both ends, what is between them in steps, and today's."""
        step = self.step or coarse(self.high - self.low, many)
        return sorted({*range(self.low, self.high, step), self.high, today})

    def nearest(self, value: float) -> int:
        """The value that is nearest to a number. The upper end is one, whether or not a step meets it."""
        step = self.step or 1
        most = (self.high - self.low) // step
        below = self.low + min(max(round((value - self.low) / step), 0), most) * step
        return min(below, self.high, key=lambda other: abs(other - value))


@dataclass(frozen=True)
class Number:
    """A constant that may be changed: its place, where its bytes are, its value today, and the values that it may have."""

    place: Place
    begin: int
    end: int
    value: int
    range: Range

    @property
    def name(self) -> str:
        return self.range.name or str(self.place)


def coarse(width: int, many: int) -> int:
    """The next of 1, 2, 5, 10, 20, .. by which a width has at most so many steps."""
    steps: Iterator[int] = (factor * 10**power for power in itertools.count() for factor in (1, 2, 5))
    return next(step for step in steps if step * many >= width)


def tokens(path: str, shown: str, source: bytes, profile: int, program: str | None = None) -> list[Token]:
    """The tokens of a source that compiles, as the proved lexer finds them in a copy of it."""

    def judge(status: int, said: list[str]) -> None:
        if status:
            why = said[-1].strip().removeprefix(f"{path}: ") if said else f"it ended with status {status}"
            raise Fault(f"{KNOW} tells no tokens of {shown}: {why}", FAULTY if status == 1 else FILE)

    with programs.lines(programs.found(KNOW, program), [f"-p{profile}", "--", path], judge) as lines:
        told = [*lines]
    return placed(source, told_tokens(told, shown), shown)


def told_tokens(told: Sequence[str], shown: str) -> list[list[Any]]:
    """The tokens of the rows of `crobots-know`: of each its kind, its start and its end."""
    try:
        rows = [*map(json.loads, told)]
        if fault := next((row for row in rows if row["row"] == "fault"), None):
            raise Fault(f"{plain(shown)}:{fault['line']}: {fault['message']}", FAULTY)
        found: list[list[Any]] = next(row["tokens"] for row in rows if row["row"] == "tokens")
    except (ValueError, TypeError, KeyError, StopIteration) as why:
        raise Fault(f"{KNOW} tells no tokens of {shown}", FILE) from why
    return found


def placed(source: bytes, found: Sequence[Sequence[Any]], shown: str) -> list[Token]:
    """Tokens with their lines and columns. Constants have to be where the source has digits."""
    begins = [0, *(at.end() for at in re.finditer(b"\n", source))]
    if not all(source[begin:end].isdigit() for kind, begin, end in found if kind == "constant"):
        raise Fault(f"{KNOW} tells other tokens than {shown} has", FILE)
    lines = [bisect_right(begins, begin) for _, begin, _ in found]
    return [Token(Place(line, begin - begins[line - 1] + 1), kind, begin, end) for line, (kind, begin, end) in zip(lines, found)]


def numbers(source: bytes, found: Sequence[Token], shown: str, given: Sequence[tuple[Place, Range]] = ()) -> list[Number]:
    """The numbers of a source that have a mark, or are given with their place, in their order."""
    ranges = {token: text_range(text, at, shown) for token, text, at in marked(source, found, shown)}
    by_place = {token.place: token for token in found if token.kind == "constant"}
    for place, several in given:
        token = by_place.get(place)
        if token is None:
            raise Fault(f"{plain(shown)}:{place}: no number stands there; on that line {constants(source, found, place.line)}")
        ranges[token] = several
    them = [number(source, token, ranges[token], shown) for token in sorted(ranges, key=lambda token: token.begin)]
    check_names(them, shown)
    return them


def check_names(them: Sequence[Number], shown: str) -> None:
    """Refuses a name that two numbers have."""
    first: dict[str, Place] = {}
    for constant in them:
        if constant.name in first:
            raise Fault(f"{plain(shown)}:{constant.place}: the number at {first[constant.name]} has the name {constant.name}, too")
        first[constant.name] = constant.place


def constants(source: bytes, found: Sequence[Token], line: int | None = None) -> str:
    """Which constants a source has, or a line of it: where they stand, and what they are."""
    them = [f"{token.place} is {source[token.begin:token.end].decode('ascii')}" for token in found if token.kind == "constant" and line in (None, token.place.line)]
    more = f", and {len(them) - TOLD} more" if len(them) > TOLD else ""
    return ", ".join(them[:TOLD]) + more if them else "there is none"


def marked(source: bytes, found: Sequence[Token], shown: str) -> Iterator[tuple[Token, str, str]]:
    """Each constant with a mark behind it, the mark's text, and where that stands."""
    begins, end = [*found, None], len(source.partition(END)[0])
    for token, after in zip([None, *found], begins):
        for number, (at, text) in enumerate(comments(source, token.end if token else 0, after.begin if after else end)):
            where = f"{plain(shown)}:{place_of(source, at)}"
            is_behind = token is not None and token.kind == "constant" and number == 0
            if is_behind and is_nearly_mark(text):
                raise Fault(f"{where}: '{text}' is nearly a mark, which is a comment as {EXAMPLE}")
            if is_mark(text) and (token is None or not is_behind):
                raise Fault(f"{where}: the mark '{text}' has no number before it")
            if is_mark(text) and token:
                yield token, text, where


def comments(source: bytes, begin: int, end: int) -> Iterator[tuple[int, str]]:
    """The comments between two tokens: where each begins, and its words with a blank between them."""
    while (at := source.find(b"/*", begin, end)) >= 0 and (close := source.find(b"*/", at + 2, end)) >= 0:
        yield at, " ".join(source[at + 2:close].decode("ascii", "replace").split())
        begin = close + 2


def is_mark(text: str) -> bool:
    """Whether a comment is meant as a mark: it begins with 'tune' and a number, before which there may be a sign or dots."""
    first, *rest = text.split(" ")
    return first == WORD and bool(rest) and rest[0].lstrip("+-.")[:1].isdigit()


def is_nearly_mark(text: str) -> bool:
    """Whether a comment that is no mark is hardly meant as anything else: two numbers as a range, behind a word that is nearly 'tune'."""
    found = PAIR.match(text)
    return found is not None and not is_mark(text) and is_near(found[1].lower())


def is_near(word: str) -> bool:
    """Whether a word is 'tune', or that with one letter more, less or another, or with its letters in another order."""
    same = next((at for at, (one, other) in enumerate(zip(word, WORD)) if one != other), min(len(word), len(WORD)))
    here, there = word[same:], WORD[same:]
    return here == there or there[1:] in (here, here[1:]) or here[1:] == there or sorted(here) == sorted(there)


def place_of(source: bytes, at: int) -> Place:
    """The line and column of a byte."""
    return Place(source.count(b"\n", 0, at) + 1, at - source.rfind(b"\n", 0, at))


def text_range(text: str, where: str, shown: str) -> Range:
    """The range of a mark."""
    words = text.split(" ")[1:]
    options = dict(zip(words[1::2], words[2::2]))
    if len(words) % 2 == 0 or not {*options} <= {"step", "name"} or len(options) != len(words) // 2:
        raise Fault(f"{where}: a mark is 'tune LOW..HIGH', and perhaps 'step STEP' and 'name NAME', not '{text}'")
    return ranged(words[0], options.get("step"), where, options.get("name"))


def ranged(bounds: str, step: str | None, where: str, name: str | None = None) -> Range:
    """The range of bounds as 100..900, a step and a name."""
    if name is not None and not NAME.fullmatch(name):
        raise Fault(f"{where}: '{name}' is no name")
    found = BOUNDS.fullmatch(bounds)
    if not found and "-" in (bounds[:1], bounds.partition("..")[2][:1]):
        raise Fault(f"{where}: {bounds} goes below 0, and a number is 0 or more: a minus before it is an operator")
    if not found:
        raise Fault(f"{where}: '{bounds}' is no range as 100..900")
    low, high = map(int, found.groups())
    if not low < high <= MOST_CONSTANT:
        raise Fault(f"{where}: {bounds} has to rise, up to {MOST_CONSTANT} at most")
    if step is None:
        return Range(low, high, None, name or "")
    if not step.isascii() or not step.isdigit() or not 1 <= int(step[:11]) <= high - low:
        raise Fault(f"{where}: '{step}' is no step from 1 to {high - low}")
    return Range(low, high, int(step), name or "")


def number(source: bytes, token: Token, several: Range, shown: str) -> Number:
    """The number of a constant."""
    value = int(source[token.begin:token.end])
    if not several.low <= value <= several.high:
        raise Fault(f"{plain(shown)}:{token.place}: today's value is {value}, which {several.low}..{several.high} leaves out")
    return Number(token.place, token.begin, token.end, value, several)


def bare(source: bytes) -> bytes:
    """A source without its comments and blanks."""
    return b"".join(COMMENT.sub(b" ", source.partition(END)[0]).split())


def but_numbers(source: bytes, them: Sequence[Number]) -> re.Pattern[bytes]:
    """What a bare source has but for the digits of these numbers, which may be others."""
    ends = [0, *(end for constant in them for end in (constant.begin, constant.end)), len(source)]
    return re.compile(b"[0-9]+".join(re.escape(bare(source[begin:end])) for begin, end in zip(ends[::2], ends[1::2])))


def changed(source: bytes, them: Sequence[Number], values: Sequence[int]) -> bytes:
    """The source with other values: only the bytes of these numbers change. One that keeps its value keeps its digits."""
    for constant, value in reversed([*zip(them, values)]):
        if value != constant.value:
            source = source[:constant.begin] + str(value).encode("ascii") + source[constant.end:]
    return source
