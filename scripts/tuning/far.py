"""How far a sweep or a search is: of all matches that it may have, and what is best so far."""

from tournaments.progress import Progress, duration


class Far(Progress):
    """Counts matches, those that the journal had too. What is done now may have an end by the clock, and something may come after it."""

    _kept = _whole = _after = 0
    _until: float | None = None
    _is_most = False
    _what = _best = ""

    def begin(self, what: str, left: int, after: int = 0, seconds: float | None = None, is_most: bool = False) -> None:
        """Takes what is done from now on: how many matches that has, how many come after it, how many seconds it has, and whether it may
        be fewer."""
        self._what, self._whole, self._after, self._is_most = what, self._ended + left + after, after, is_most
        self._until = None if seconds is None else self._clock() + seconds

    def keep(self, matches: int) -> None:
        """Counts matches that the journal has."""
        self._kept += matches

    def lead(self, best: str) -> None:
        """Takes what is best so far."""
        self._best = best

    @property
    def kept(self) -> int:
        return self._kept

    @property
    def _ended(self) -> int:
        return self._kept + self.matches

    @property
    def counted(self) -> str:
        """How many matches there were, of how many."""
        return f"{self._ended} of {'at most ' if self._is_most else ''}{self._whole} matches"

    def line(self, now: float) -> str:
        """The matches, the time that they will take, what is best so far, and what is done now."""
        left = f", {duration(self._seconds(now))} to go" if self.matches else ""
        best = f"; best so far {self._best}" if self._best else ""
        return f"{self.counted}{left}{best}; {self._what}"

    def _seconds(self, now: float) -> float:
        """How long all will take that is left."""
        each = (now - self._begun) / self.matches
        this = each * max(self._whole - self._after - self._ended, 0)
        if self._until is not None:
            this = min(this, max(self._until - now, 0.0))
        return this + each * self._after

    def say(self) -> None:
        """Says it at once, in a line that stays."""
        if not self._quiet:
            self.clear()
            self._tell(f"{self._script}: {self.line(self._clock())}\n")
