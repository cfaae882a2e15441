"""The code of a robot, as the rows of `crobots-debug` say it: where each instruction comes from, and which lines are entered."""

from bisect import bisect_left
from dataclasses import dataclass

from stepping.moments import Row

# How an instruction stands to its line if a breakpoint there makes sense. Others only jump on, or no robot comes to them.
ENTERS = "enters"


@dataclass(frozen=True)
class Instruction:
    """An instruction: its address, where it comes from, how it stands to its line, its function, and its text."""

    address: int
    line: int
    column: int
    how: str
    function: str
    text: str


class Listing:
    """The instructions of a robot, by their addresses."""

    def __init__(self, rows: list[Row]) -> None:
        self.instructions = [instruction_of(fields) for _, *fields in rows]
        self._lines = sorted({instruction.line for instruction in self.instructions if instruction.how == ENTERS})

    def line_from(self, line: int) -> int | None:
        """The first line from one on at which a breakpoint makes sense."""
        number = bisect_left(self._lines, line)
        return self._lines[number] if number < len(self._lines) else None

    def lines(self, first: int, last: int) -> list[int]:
        """The lines from one to another at which a breakpoint makes sense."""
        return self._lines[bisect_left(self._lines, first) : bisect_left(self._lines, last + 1)]

    def at(self, address: int) -> Instruction | None:
        return self.instructions[address] if 0 <= address < len(self.instructions) else None


def instruction_of(fields: Row) -> Instruction:
    """The instruction of a row."""
    address, line, column, how, function, text, name = fields
    return Instruction(int(address), int(line), int(column), how, function, f"{text} {name}".rstrip())
