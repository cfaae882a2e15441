"""Tables as text: columns that line up, and comma-separated values."""

import csv
import io
import unicodedata
from typing import Iterable

from .faults import plain


def width(text: str) -> int:
    """How many columns of a terminal a text takes."""
    return sum(0 if unicodedata.combining(letter) else 2 if unicodedata.east_asian_width(letter) in "WF" else 1 for letter in text)


def aligned(rows: list[list[str]], left: Iterable[int]) -> str:
    """Rows in columns that line up: those that are named on their left, all others on their right."""
    rows = [[*map(plain, row)] for row in rows]
    widths = [max(map(width, column)) for column in zip(*rows)]
    lefts = {*left}
    lines = []
    for row in rows:
        blanks = [" " * (most - width(cell)) for most, cell in zip(widths, row)]
        cells = [cell + blank if at in lefts else blank + cell for at, (cell, blank) in enumerate(zip(row, blanks))]
        lines.append("  ".join(cells).rstrip())
    return "\n".join(lines) + "\n"


def comma_separated(rows: Iterable[Iterable[object]]) -> str:
    text = io.StringIO()
    csv.writer(text, lineterminator="\n").writerows(rows)
    return text.getvalue()
