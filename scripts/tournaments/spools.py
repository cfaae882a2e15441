"""A spool: the records of a tournament in a temporary file, so that memory doesn't grow with the matches."""

import tempfile
from typing import Iterator

from tools.faults import writing

from .records import Record, Series, played


class Spool:
    """Takes records in any order, and gives them in that of their groups, seats and numbers."""

    def __init__(self) -> None:
        self._file = tempfile.TemporaryFile()
        self._places: list[tuple[Series, int]] = []
        self._end = 0

    def add(self, record: Record) -> None:
        line = record.line().encode()
        self._places.append((record.series, self._end))
        self._end += len(line)
        with writing(tempfile.gettempdir()):
            self._file.write(line)

    def records(self) -> Iterator[Record]:
        for _, place in sorted(self._places, key=lambda entry: order(entry[0])):
            self._file.seek(place)
            yield played(self._file.readline().decode())


def order(series: Series) -> tuple[int, tuple[int, ...], tuple[int, ...], int]:
    return len(series.seats), series.group, series.seats, series.first
