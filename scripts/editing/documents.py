"""Texts of documents: their changes, and positions as the protocol counts them."""

from __future__ import annotations

import os
import re
import urllib.parse
from bisect import bisect_left, bisect_right
from functools import cached_property
from itertools import accumulate
from typing import Iterable, Iterator, NamedTuple

from .fields import Fields

# The protocol's ends of lines: also a CR alone.
ENDS = re.compile(r"\r\n|\n|\r")
WIDE = re.compile(r"[^\x00-\x7f]")
UTF_8, UTF_16 = "utf-8", "utf-16"
Position = dict[str, int]
Range = dict[str, Position]


class Wide(NamedTuple):
    """The characters of a text that aren't of one byte: where they begin, counted in characters, in bytes and in the protocol's units, with
    how many bytes and units each has; and how many more than characters there are before each of them, and behind the last."""

    characters: list[int]
    offsets: list[int]
    units: list[int]
    more_bytes: list[int]
    more_units: list[int]


class Text:
    """A text, with the places of its lines. A place is a number of characters, an offset one of bytes."""

    def __init__(self, text: str, encoding: str = UTF_16) -> None:
        self.text = text
        self._encoding = encoding

    @cached_property
    def content(self) -> bytes:
        return self.text.encode("utf-8", "surrogatepass")

    @cached_property
    def _starts(self) -> list[int]:
        """The places at which lines begin."""
        if "\r" in self.text:
            return [0, *(found.end() for found in ENDS.finditer(self.text))]
        return [0, *accumulate(len(line) + 1 for line in self.text.split("\n")[:-1])]

    @cached_property
    def line_feeds(self) -> list[int]:
        """The offsets at which lines begin as the programs count them: LF alone ends one."""
        return [0, *(found.end() for found in re.finditer(b"\n", self.content))]

    @cached_property
    def _wide(self) -> Wide:
        wide = Wide([], [], [], [0], [0])
        for found in WIDE.finditer(self.text) if not self.text.isascii() else ():
            place, width = found.start(), len(found[0].encode("utf-8", "surrogatepass"))
            wide.characters.append(place)
            wide.offsets.append(place + wide.more_bytes[-1])
            wide.units.append(place + wide.more_units[-1])
            wide.more_bytes.append(wide.more_bytes[-1] + width - 1)
            wide.more_units.append(wide.more_units[-1] + (width - 1 if self._encoding == UTF_8 else int(found[0] > "\uffff")))
        return wide

    def _units(self, place: int) -> int:
        """How many units are before a place."""
        return place + self._wide.more_units[bisect_left(self._wide.characters, place)]

    def _place(self, count: int, begins: list[int], more: list[int]) -> int:
        """The place before which there are so many units or bytes; of a character that isn't whole its beginning."""
        before = bisect_left(begins, count)
        place = count - more[before]
        return max(place, self._wide.characters[before - 1]) if before else place

    def _end(self, line: int) -> int:
        """The place at which a line ends, before what ends it."""
        start = self._starts[line]
        end = self._starts[line + 1] if line + 1 < len(self._starts) else len(self.text)
        return start + len(self.text[start:end].rstrip("\r\n"))

    def place(self, position: Fields) -> int:
        """The place of a position; one behind the end of a line is that end, one behind the last line the text's end."""
        line, column = position.number("line"), position.number("character")
        if line < 0:
            return 0
        if line >= len(self._starts):
            return len(self.text)
        start = self._starts[line]
        place = self._place(self._units(start) + max(column, 0), self._wide.units, self._wide.more_units)
        return min(place, self._end(line))

    def offset(self, position: Fields) -> int:
        """The offset of a position."""
        place = self.place(position)
        return place + self._wide.more_bytes[bisect_left(self._wide.characters, place)]

    def position(self, offset: int) -> Position:
        """The position of an offset, of a character that isn't whole that of its beginning."""
        place = self._place(min(max(offset, 0), len(self.content)), self._wide.offsets, self._wide.more_bytes)
        line = bisect_right(self._starts, place) - 1
        start = self._starts[line]
        if place and self.text[place - 1] in "\r\n" and place > start:
            # what ends a line is at its end
            place = self._end(line)
        return {"line": line, "character": self._units(place) - self._units(start)}

    def places(self, spans: Iterable[tuple[int, int]]) -> Iterator[tuple[int, int, int]]:
        """The line, the column and the length of spans of bytes that follow one another. One of several lines has no length."""
        line, starts, is_plain = 0, [*self._starts, len(self.text) + 1], self.text.isascii()
        for start, end in spans:
            if not is_plain:
                start, end = (self._place(offset, self._wide.offsets, self._wide.more_bytes) for offset in (start, end))
            while starts[line + 1] <= start:
                line += 1
            units = [start, end, starts[line]] if is_plain else [self._units(place) for place in (start, end, starts[line])]
            yield line, units[0] - units[2], units[1] - units[0] if end < starts[line + 1] else 0

    def range(self, start: int, end: int) -> Range:
        """The range between two offsets."""
        return {"start": self.position(start), "end": self.position(max(start, end))}

    def changed(self, change: Fields) -> Text:
        """The text after a change: of a range, or of all of it."""
        text = change.text("text")
        if not change.has("range"):
            return Text(text, self._encoding)
        where = change.fields("range")
        start, end = self.place(where.fields("start")), self.place(where.fields("end"))
        return Text(self.text[:start] + text + self.text[max(start, end) :], self._encoding)

    def has(self, offset: int, words: bytes) -> bool:
        """Whether these bytes stand at an offset."""
        return self.content[offset : offset + len(words)] == words


def name_of(uri: str) -> str:
    """The name of the file of a URI: none of one that is no address."""
    try:
        path = urllib.parse.urlsplit(uri).path
    except ValueError:
        return ""
    return os.path.basename(urllib.parse.unquote(path)).replace("\0", "").encode("utf-8", "replace").decode()
