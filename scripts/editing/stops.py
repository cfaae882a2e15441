"""What stops a match: breakpoints with conditions and counts, and log points."""

import re
from dataclasses import dataclass, field

from .matches import Hit, Wanted

HOLE = re.compile(r"\{([^{}]*)\}")


@dataclass
class Stop:
    """A breakpoint: the event that it is, of which robots, and what it asks for. What is wrong with an expression of a message
    stands in that, and the other ones are told."""

    number: int
    event: str
    robots: tuple[int, ...]
    reason: str
    condition: str = ""
    count: str = ""
    message: str = ""
    wrong: dict[str, str] = field(default_factory=dict)

    def wanted(self, robot: int) -> Wanted:
        return Wanted(robot, self.event, self.condition, self.count)

    def holes(self) -> list[str]:
        """The expressions of the message."""
        return [on_one_line(hole) for hole in HOLE.findall(self.message)]

    def shown(self) -> list[str]:
        """Those that have values."""
        return [hole for hole in self.holes() if hole not in self.wrong]

    def told(self, hit: Hit) -> str:
        """What a log point says: expressions in curly brackets by their values."""
        values = iter(hit.values)
        return HOLE.sub(lambda found: f"{{{self.wrong[on_one_line(found[1])]}}}" if on_one_line(found[1]) in self.wrong else next(values), self.message)


def on_one_line(text: str) -> str:
    """An expression as a command takes it: blanks for all spaces, and text alone."""
    return " ".join(text.split()).encode("utf-8", "replace").decode()
