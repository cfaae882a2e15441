"""Says how far a tournament is: in one line of a terminal, or by a line a minute."""

import os
import time
from typing import Callable

from tools.output import ERRORS, tell

EACH_TERMINAL, EACH_LOG = 0.2, 60.0


def columns() -> int | None:
    """The width of the terminal that is standard error; nothing if it is none."""
    try:
        return os.get_terminal_size(ERRORS).columns or None
    except OSError:
        return None


class Progress:
    """Counts the series and matches that were played, and says so from time to time."""

    def __init__(
        self, series: int, quiet: bool, script: str = "tournament", say: Callable[[str], None] = tell,
        columns: Callable[[], int | None] = columns, clock: Callable[[], float] = time.monotonic,
    ) -> None:
        self.series = series
        self._quiet = quiet
        self._script = script
        self._tell = say
        self._columns = columns
        self._clock = clock
        self._each = EACH_LOG if columns() is None else EACH_TERMINAL
        self._begun = self._said = clock()
        self._width = 0
        self.done = 0
        self.matches = 0

    def count(self, matches: int) -> None:
        """Counts a series that ended."""
        self.done += 1
        self.matches += matches
        self.glance()

    def glance(self) -> None:
        """Says how far it is, if it is time."""
        now = self._clock()
        if not self._quiet and now - self._said >= self._each:
            self._said = now
            self._say(self.line(now))

    def line(self, now: float) -> str:
        """Series done and left, and once a series ended the matches a second and the time that it will take."""
        taken = max(now - self._begun, 1e-9)
        counted = f"{self.done} of {self.series} series, {self.series - self.done} left"
        if not self.done:
            return counted
        left = taken * (self.series - self.done) / self.done
        return f"{counted}, {self.matches / taken:.1f} matches a second, {duration(left)} to go"

    def _say(self, line: str) -> None:
        width = self._columns()
        if width is None:
            self._tell(f"{self._script}: {line}\n")
            return
        # what reaches the last column may go on in the next line
        self._tell("\r" + line.ljust(self._width)[: width - 1])
        self._width = min(len(line), width - 1)

    def clear(self) -> None:
        """Clears the terminal's line."""
        if self._width:
            self._tell("\r" + " " * self._width + "\r")
            self._width = 0


def duration(seconds: float) -> str:
    """A time as 1:02:03 or 2:03."""
    whole = round(seconds)
    hours, minutes = whole // 3600, whole // 60 % 60
    return f"{hours}:{minutes:02}:{whole % 60:02}" if hours else f"{minutes}:{whole % 60:02}"
