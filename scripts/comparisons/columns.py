"""Two columns of texts, side by side, with labels before them. A bar stands between two texts that differ."""

import os
from typing import NamedTuple

from tools.output import OUTPUT
from tools.tables import width

LEAST_WIDTH, MOST_LABEL = 80, 24
SAME, OTHER = "   ", " | "


class Row(NamedTuple):
    """A label, and the texts of both columns."""

    label: str
    new: str
    old: str


def columns() -> int:
    """The width of the terminal that is standard output, or what each has."""
    try:
        return max(LEAST_WIDTH, os.get_terminal_size(OUTPUT).columns)
    except OSError:
        return LEAST_WIDTH


def side_by_side(head: Row, rows: list[Row], whole: int) -> str:
    """The rows below their head, in the `whole` columns of a terminal."""
    label = min(MOST_LABEL, max(width(row.label) for row in rows))
    cell = (whole - label - len("  ") - len(SAME)) // 2
    return lines_of(head, SAME, label, cell) + "".join(
        lines_of(row, SAME if row.new == row.old else OTHER, label, cell) for row in rows)


def lines_of(row: Row, between: str, label: int, cell: int) -> str:
    """The lines of a row: as many as its longest text takes."""
    parts = [wrapped(row.label, label), wrapped(row.new, cell), wrapped(row.old, cell)]
    count = max(map(len, parts))
    padded = [[*part, *[""] * (count - len(part))] for part in parts]
    return "".join(
        f"{filled(before, label)}  {filled(new, cell)}{between}{old}".rstrip() + "\n" for before, new, old in zip(*padded))


def filled(text: str, most: int) -> str:
    """A text, filled up with blanks."""
    return text + " " * (most - width(text))


def wrapped(text: str, most: int) -> list[str]:
    """A text in lines of at most `most` columns, which end at blanks where it has some."""
    found = []
    while width(text) > most:
        fits = next(at for at in range(min(len(text), most), 0, -1) if width(text[:at]) <= most)
        blank = text.rfind(" ", len(text) - len(text.lstrip()) + 1, fits + 1)
        found.append(text[: blank if blank > 0 else fits])
        text = text[blank + 1 if blank > 0 else fits :]
    return [*found, text]
