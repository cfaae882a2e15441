"""Packs a film's text for a page, which unpacks it (web/player/packing.js).

A row's cycle is kept as the difference from that of the row before, and each other number as the difference from that of the last
row of the same robot and kind. These are short, and often the same. All of it is deflated, and written in base 64."""

import base64
import zlib

# Kinds whose values are no numbers alone: they are kept as they are.
WORDED = ("name", "restart", "source", "line", "asked")


class Packer:
    """Packs the rows of a film, one after the other."""

    def __init__(self) -> None:
        self._deflater = zlib.compressobj(9, wbits=-15)
        self._parts: list[bytes] = []
        self._cycle = 0
        self._last: dict[tuple[str, str], list[int]] = {}

    def add_head(self, fields: list[str]) -> None:
        """Adds the names of the columns."""
        self._parts.append(self._deflater.compress(("\t".join(fields) + "\n").encode()))

    def add(self, fields: list[str]) -> None:
        """Adds a row, without empty fields at its end."""
        cycle, robot, kind, *values = fields
        past, self._cycle = self._cycle, int(cycle)
        kept = values if kind in WORDED else self._differences((robot, kind), [*map(int, values)])
        self.add_head([str(self._cycle - past), robot, kind, *kept])

    def _differences(self, key: tuple[str, str], values: list[int]) -> list[str]:
        """The differences of values from the last ones of a robot and kind; the first ones are kept as they are."""
        last = self._last.get(key, [0] * len(values))
        self._last[key] = values
        return [str(value - before) for value, before in zip(values, last)]

    def packed(self) -> str:
        """All that was added, as a page carries it. Nothing more can be added."""
        self._parts.append(self._deflater.flush())
        return base64.b64encode(b"".join(self._parts)).decode()
