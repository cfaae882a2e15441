"""A session in a terminal: paints its screen, and reads a line at its prompt, by `curses`."""

import curses
import locale
import os
import sys

from . import telling
from .commands import Quit, answer, is_move
from .screens import BOLD, PLAIN, REVERSE, screen
from .sessions import Session

ENTER, ERASE = ("\n", "\r", curses.KEY_ENTER), ("\x7f", "\b", curses.KEY_BACKSPACE)
CLEAR, END = "\x15", "\x04"
# After this number of faults in a row there is no terminal any more.
MOST_FAULTS = 100
GREETING = ["help lists the commands; Enter alone repeats a move"]
Key = str | int | None


def can_paint() -> bool:
    """Whether standard input and output are a terminal whose cursor can be moved."""
    if not (sys.stdin and sys.stdout and sys.stdin.isatty() and sys.stdout.isatty()):
        return False
    try:
        curses.setupterm(os.environ.get("TERM", "unknown"), sys.stdout.fileno())
        return curses.tigetstr("cup") is not None
    except curses.error:
        return False


class Terminal:
    """A terminal: what the last command said, what is typed, and the lines that were typed before."""

    def __init__(self, window: curses.window, session: Session) -> None:
        self._window, self._session = window, session
        self._said = GREETING
        self._typed = ""
        self._before: list[str] = []
        self._place = 0
        self._faults = 0
        self._styles = {PLAIN: curses.A_NORMAL, BOLD: curses.A_BOLD, REVERSE: curses.A_REVERSE}

    def run(self) -> None:
        """Takes keys until there is no more to do."""
        while self._faults < MOST_FAULTS:
            self._paint()
            key = self._key()
            if key == END and not self._typed:
                return
            self._take(key)

    def _paint(self) -> None:
        rows, columns = self._window.getmaxyx()
        self._window.erase()
        for number, row in enumerate(screen(self._session, self._said, self._typed, columns, rows)):
            at = 0
            for piece in row:
                self._put(number, at, piece.text, self._styles[piece.style])
                at = self._window.getyx()[1]
        self._window.refresh()

    def _put(self, row: int, column: int, text: str, style: int) -> None:
        """Writes a text; the last column of the last row can't be written without a fault, and needs none."""
        try:
            self._window.addstr(row, column, text, style)
        except curses.error:
            pass

    def _key(self) -> Key:
        try:
            key = self._window.get_wch()
        except curses.error:
            self._faults += 1
            return None
        self._faults = 0
        return key

    def _take(self, key: Key) -> None:
        """Takes a key; others than these do nothing, as the one that says that the window has another size."""
        if key in ENTER:
            self._enter()
        elif key in ERASE:
            self._typed = self._typed[:-1]
        elif key == CLEAR:
            self._typed = ""
        elif key in (curses.KEY_UP, curses.KEY_DOWN):
            self._recall(-1 if key == curses.KEY_UP else 1)
        elif isinstance(key, str) and key.isprintable():
            self._typed += key

    def _recall(self, by: int) -> None:
        """Shows a line that was typed before."""
        self._place = max(0, min(len(self._before), self._place + by))
        self._typed = [*self._before, ""][self._place]

    def _enter(self) -> None:
        """Answers the line that is typed; an empty one repeats a move."""
        last = self._before[-1] if self._before else ""
        line = self._typed or (last if is_move(last) else "")
        self._typed = ""
        if line.strip():
            self._before += [line] if line != last else []
            self._place = len(self._before)
            told = answer(self._session, line)
            # where the robot is stands above
            self._said = [line for line in told if line not in telling.stop(self._session)]


def show(session: Session) -> None:
    """Shows a session in a terminal until the user wants no more."""
    locale.setlocale(locale.LC_ALL, "")
    curses.set_escdelay(25)

    def run(window: curses.window) -> None:
        Terminal(window, session).run()

    try:
        curses.wrapper(run)
    except Quit:
        pass
