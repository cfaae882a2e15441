"""A film of a match, as `crobots-trace --film` writes it: whether it is one, whom it shows, and its text, packed for a page.

The page reads its rows itself (web/player/films.js). Robots from inside have rows with their lines and last questions; then the
lines of their sources are rows, too."""

from typing import Callable, Iterable, Sequence

from tools.faults import UNWRITTEN, Fault
from tools.rules import MOST_ROBOTS
from tools.sources import lines_of

from .packing import Packer

HEADER = "cycle robot kind a b c d e".split()
ROBOTS = {*map(str, range(1, MOST_ROBOTS + 1))}


def is_number(value: str) -> bool:
    return value.removeprefix("-").isdecimal()


def may_be_number(value: str) -> bool:
    return not value or is_number(value)


# What the values of each kind of row have to be; of a text it is enough that it is there.
KINDS: dict[str, list[Callable[[str], bool]]] = {
    "name": [bool], "at": [is_number] * 5, "scan": [is_number] * 3, "shot": [is_number] * 4, "refused": [is_number] * 2,
    "burst": [is_number] * 2, "hurt": [is_number] * 4, "collision": [is_number] * 2, "wall": [is_number],
    "restart": [bool, bool, is_number], "death": [], "end": [is_number], "stop": [is_number], "line": [is_number, bool],
    "asked": [bool, may_be_number, may_be_number, is_number, is_number],
}


def is_row(fields: Sequence[str]) -> bool:
    """Whether these are the fields of a row of a film: a cycle, a robot, a kind, and its values."""
    if len(fields) < 3 or fields[2] not in KINDS:
        return False
    cycle, robot, kind, *values = fields
    wanted = KINDS[kind]
    return cycle.isdecimal() and robot in ROBOTS and len(values) == len(wanted) and all(fits(value) for fits, value in zip(wanted, values))


class Film:
    """A film: its robots' names, and its rows but those of refused shots, which no page shows."""

    def __init__(self, sources: Sequence[str] = ()) -> None:
        self.names: list[str] = []
        self._sources = sources
        self._placed: set[int] = set()
        self._ended: set[int] = set()
        self._packer = Packer()

    def read(self, lines: Iterable[str]) -> None:
        """Reads all lines of a film."""
        for number, line in enumerate(lines, 1):
            row = line.rstrip("\t\n")
            if not (self._take(row) if number > 1 else self._begin(row)):
                raise Fault(f"line {number} of the film can't be read", UNWRITTEN)
        self._judge()

    def _begin(self, row: str) -> bool:
        """Takes the names of the columns; reports whether they are those of a film."""
        self._packer.add_head(HEADER)
        return row.split("\t") == HEADER

    def _take(self, row: str) -> bool:
        """Takes a row; reports whether it is one of a film."""
        fields = row.split("\t")
        if not is_row(fields):
            return False
        robot, kind = int(fields[1]), fields[2]
        if kind == "name":
            self.names.append(fields[3])
        elif kind == "at":
            self._placed.add(robot)
        elif kind in ("end", "stop"):
            self._ended.add(robot)
        if kind != "refused":
            self._packer.add(fields)
        if kind == "name":
            self._take_source(robot)
        return robot == len(self.names) if kind == "name" else robot <= len(self.names)

    def _take_source(self, robot: int) -> None:
        """Adds the lines of a robot's source, if sources are shown: a single one is that of both robots."""
        for path in self._sources[-1:] if len(self._sources) == 1 else self._sources[robot - 1:robot]:
            for line in lines_of(path):
                self._packer.add(["0", str(robot), "source", line])

    def _judge(self) -> None:
        """Looks whether the film is whole."""
        if self.names and not self._placed and not self._ended:
            raise Fault("the match has none of these cycles")
        if not self.names or len(self._ended) != len(self.names):
            raise Fault("the film has no end", UNWRITTEN)
        if not self._placed:
            raise Fault("the match has no update in these cycles")
        if len(self._placed) != len(self.names):
            raise Fault("the film has no place of a robot", UNWRITTEN)

    def packed(self) -> str:
        """The film's text, as a page carries it."""
        return self._packer.packed()
