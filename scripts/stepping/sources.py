"""The source of the robot, by lines as a screen can show them."""

from tools.sources import lines_of

AROUND = 5


class Source:
    """The lines of a robot's file, numbered from 1; none if it can't be read twice."""

    def __init__(self, path: str) -> None:
        self._lines = lines_of(path)

    def __len__(self) -> int:
        return len(self._lines)

    def line(self, number: int) -> str:
        """The text of a line, empty if there is none."""
        return self._lines[number - 1] if 0 < number <= len(self._lines) else ""

    def numbered(self, number: int, mark: str = " ") -> str:
        """A line with its number, and a mark before it."""
        return f"{mark}{number:{len(str(len(self)))}}  {self.line(number)}".rstrip()

    def around(self, middle: int, marked: int) -> list[str]:
        """The lines around one; one of them has a mark."""
        first = max(1, middle - AROUND)
        last = min(len(self), first + 2 * AROUND)
        return [self.numbered(number, ">" if number == marked else " ") for number in range(first, last + 1)]
