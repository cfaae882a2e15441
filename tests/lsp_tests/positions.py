"""Positions in random texts, counted letter by letter."""

from __future__ import annotations

import random
from typing import Any

from lsp_tests.clients import at
from editing.documents import Text
from editing.fields import Fields

LETTERS = ["a", "b", "\n", "\r", "\r\n", "\u00e4", "\U0001f600", "\u20ac", "\ud800", " "]
MOST = 20


def width(letter: str, encoding: str) -> int:
    """How many units of an encoding a letter has."""
    return len(letter.encode("utf-8", "surrogatepass")) if encoding == "utf-8" else 1 + (letter > "\uffff")


def lines(text: str) -> list[tuple[int, int]]:
    """Where each line begins and ends: CR, LF and both together end one."""
    found, start, place = [], 0, 0
    while place < len(text):
        ending = 2 if text[place : place + 2] == "\r\n" else 1 if text[place] in "\r\n" else 0
        if ending:
            found.append((start, place))
            start = place + ending
        place += ending or 1
    return [*found, (start, len(text))]


def wrong(draw: random.Random, encoding: str) -> list[str]:
    """What a text says wrong of its offsets and positions."""
    letters = "".join(draw.choice(LETTERS) for _ in range(draw.randrange(MOST)))
    text, told = Text(letters, encoding), []
    ends = lines(letters)
    for place, offset in enumerate(offsets(letters)):
        number = max(line for line, (start, _) in enumerate(ends) if start <= place)
        start, end = ends[number]
        wanted = at(number, sum(width(letter, encoding) for letter in letters[start : min(place, end)]))
        told += [f"{letters!r}, {offset + more}: {got}" for more in range(size(letters, place)) if (got := text.position(offset + more)) != wanted]
        if place <= end:
            told += [f"{letters!r}, {wanted}: {got}" for got in [text.offset(Fields(wanted))] if got != offset]
    for number, (_, end) in enumerate(ends):
        told += [f"{letters!r}, line {number}, far: {got}" for got in [text.offset(Fields(at(number, 99)))] if got != offsets(letters)[end]]
    return told + [f"{letters!r}: {got}" for got in [text.offset(Fields(at(99, 0)))] if got != len(text.content)] + wrong_spans(draw, text, letters, encoding)


def wrong_spans(draw: random.Random, text: Text, letters: str, encoding: str) -> list[str]:
    """What it says wrong of spans that follow one another."""
    cuts = sorted(draw.randrange(len(letters) + 1) for _ in range(2 * draw.randrange(5)))
    pairs, places = [*zip(cuts[::2], cuts[1::2])], offsets(letters)
    wanted: list[Any] = []
    for first, last in pairs:
        position = text.position(places[first])
        start, end = next((start, end) for start, end in reversed(lines(letters)) if start <= first)
        is_whole = last <= end or last < next((begin for begin, _ in lines(letters) if begin > start), len(letters) + 1)
        column = sum(width(letter, encoding) for letter in letters[start:first])
        wanted.append((position["line"], column, sum(width(letter, encoding) for letter in letters[first:last]) if is_whole else 0))
    got = [*text.places((places[first], places[last]) for first, last in pairs)]
    return [] if got == wanted else [f"{letters!r}, {pairs}: {got}, not {wanted}"]


def size(letters: str, place: int) -> int:
    """How many bytes the letter of a place has; one behind the end."""
    return len(letters[place].encode("utf-8", "surrogatepass")) if place < len(letters) else 1


def offsets(letters: str) -> list[int]:
    """The offset of each place."""
    found = [0]
    for letter in letters:
        found.append(found[-1] + len(letter.encode("utf-8", "surrogatepass")))
    return found
