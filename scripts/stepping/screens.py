"""What the screen shows: rows of pieces with styles, for the columns and rows of a terminal, which only paints them.

Above stands which robot is stepped; then the source, and beside it the calls, the variables and the last question, or below it
if there are few columns; then the field, what the last command said, and the prompt."""

import textwrap
from dataclasses import dataclass

from tools.faults import plain
from tools.tables import width

from . import telling
from .sessions import Session

PLAIN, BOLD, REVERSE = "plain", "bold", "reverse"
PROMPT = "(step) "
# From WIDE columns on two panes stand side by side. The right one has LEAST_RIGHT to MOST_RIGHT columns.
WIDE, LEAST_RIGHT, MOST_RIGHT = 60, 28, 60
# How many lines what is said has at least, and how many calls are shown, however few rows there are.
LEAST_SAID, LEAST_CALLS = 3, 3


@dataclass(frozen=True)
class Piece:
    """A piece of a row: its text, and how it is painted."""

    text: str
    style: str = PLAIN


Row = list[Piece]


def screen(session: Session, said: list[str], typed: str, columns: int, rows: int) -> list[Row]:
    """The rows of the screen, each with as many columns."""
    room = max(0, rows - 3)
    lines = wrapped(said, columns)
    below = fitted_lines(lines, min(room, max(LEAST_SAID, len(lines))))
    body = panes(session, columns, room - len(below))
    field = telling.field_line(session.moment.robots, columns)
    found = [[Piece(title(session), REVERSE)], *body, [Piece(field, REVERSE)], *([Piece(line)] for line in below)]
    return [*(filled(row, columns) for row in found[:rows - 1]), [Piece(prompt(typed, columns), BOLD)]]


def wrapped(lines: list[str], columns: int) -> list[str]:
    """Lines of at most `columns` columns: what follows a first part stands further right."""
    indent = "  " if columns > 9 else ""
    return [part for line in lines for part in textwrap.wrap(line, max(1, columns), subsequent_indent=indent) or [""]]


def prompt(typed: str, columns: int) -> str:
    """The prompt, and the end of what is typed, if that is long; the cursor needs the last column."""
    return (PROMPT + typed[-max(1, columns - len(PROMPT) - 1):])[:max(0, columns - 1)]


def title(session: Session) -> str:
    """The robot that is stepped, and where it is."""
    return f"{telling.place(session.moment)}   {plain(session.asked.file().rpartition('/')[2])} ({session.robot})"


def panes(session: Session, columns: int, rows: int) -> list[Row]:
    """The source and what belongs to the moment: side by side, or one below the other."""
    if columns < WIDE:
        above = (rows + 1) // 2
        return source_rows(session, above) + state_rows(session, columns, rows - above)
    right = min(MOST_RIGHT, max(LEAST_RIGHT, columns // 3))
    left = [filled(row, columns - right - 3) for row in source_rows(session, rows)]
    return [[*one, Piece(" | "), *other] for one, other in zip(left, state_rows(session, right, rows))]


def source_rows(session: Session, rows: int) -> list[Row]:
    """The lines of the source around the one where the robot is."""
    line, source, stops = session.moment.line, session.source, session.marks.lines()
    first = max(1, min(line - rows // 2, len(source) - rows + 1))
    numbers = range(first, min(len(source), first + rows - 1) + 1)
    found = [[Piece(source.numbered(number, mark(number, line, stops)), REVERSE if number == line else PLAIN)] for number in numbers]
    return found + [[Piece("")]] * (rows - len(found))


def mark(number: int, line: int, stops: set[int]) -> str:
    """The mark before a line: of where the robot is, and of a breakpoint."""
    return (">" if number == line else " ") + ("*" if number in stops else " ")


def state_rows(session: Session, columns: int, rows: int) -> list[Row]:
    """What the robot asked, the calls that go on, and the variables that it sees."""
    moment = session.moment
    most = max(LEAST_CALLS, rows // 3)
    found = [[Piece(line)] for line in wrapped(telling.news(session, 1), columns)]
    found += listed("calls", fitted_lines(telling.calls(moment), min(most, len(moment.calls))))
    found += listed(f"variables of {moment.function}", telling.variables(moment.locals(), "none"))
    found += listed("externals", telling.variables(moment.externals, "none"))
    return (found + [[Piece("")]] * rows)[:rows]


def listed(head: str, lines: list[str]) -> list[Row]:
    """Lines below a head."""
    return [[Piece(head, BOLD)], *([Piece(f"  {line}")] for line in lines)]


def fitted_lines(lines: list[str], rows: int) -> list[str]:
    """Exactly `rows` lines: blank ones follow if there are fewer, and the last one says it if there are more."""
    if len(lines) > rows:
        return [*lines[:rows - 1], f".. and {len(lines) - rows + 1} more"] if rows > 0 else []
    return lines + [""] * (rows - len(lines))


def filled(row: Row, columns: int) -> Row:
    """A row with as many columns: what is too much is cut, and the last piece goes on to the end."""
    found: Row = []
    left = columns
    for piece in row:
        text = cut(piece.text, left)
        left -= width(text)
        found.append(Piece(text, piece.style))
    last = found.pop()
    return [*found, Piece(last.text + " " * left, last.style)]


def cut(text: str, columns: int) -> str:
    """As much of a text as these columns hold."""
    used = 0
    for place, letter in enumerate(text):
        used += width(letter)
        if used > columns:
            return text[:place]
    return text
