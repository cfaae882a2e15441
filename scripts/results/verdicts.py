"""What is decided of a pair, from the side of its first robot."""

from __future__ import annotations

from dataclasses import dataclass

BETTER, WORSE, EVEN, OPEN = "better", "worse", "even", "not decided"
OTHER = {BETTER: WORSE, WORSE: BETTER, EVEN: EVEN, OPEN: OPEN}


@dataclass(frozen=True, slots=True)
class Verdict:
    """What is decided, and after how many matches the sequential test did so.

    The number is 0 if no such test was made: then it goes by the interval."""

    what: str
    matches: int = 0

    @property
    def turned(self) -> Verdict:
        """The same with the robots exchanged."""
        return Verdict(OTHER[self.what], self.matches)

    @property
    def said(self) -> str:
        """The same in words, as data have them."""
        if not self.matches:
            return self.what
        return f"{self.what} after {self.matches} matches" if self.what == OPEN else f"{self.what}, by the test after {self.matches} matches"
