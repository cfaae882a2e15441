"""Packs files into a zip, deflated as well as `deflating` does it. The same files make the same bytes on each machine."""

import os
import struct
import zlib
from concurrent.futures import ProcessPoolExecutor
from typing import NamedTuple

from .deflating import deflated

# What begins a file, its row in the table at the end, and that table's end.
FILE, ROW, END = b"PK\x03\x04", b"PK\x01\x02", b"PK\x05\x06"
# The version of the format, which is of Unix in a row; deflated; the first of January 1980, at midnight; files that all may read.
VERSION, OF_UNIX, DEFLATED, TIME, DAY, RIGHTS = 20, 20 | 3 << 8, 8, 0, 1 << 5 | 1, 0o100644 << 16
MOST_PROCESSES = 4


class Entry(NamedTuple):
    """A file of a zip: its name, its bytes deflated, how many it has, and their sum (CRC-32)."""

    name: bytes
    packed: bytes
    size: int
    crc: int

    def facts(self) -> bytes:
        """What a file's head and its row have in common."""
        return struct.pack("<5H3I2H", VERSION, 0, DEFLATED, TIME, DAY, self.crc, len(self.packed), self.size, len(self.name), 0)

    def file(self) -> bytes:
        """The file with its head."""
        return FILE + self.facts() + self.name + self.packed

    def row(self, place: int) -> bytes:
        """The file's row, with the place where the file begins."""
        return ROW + struct.pack("<H", OF_UNIX) + self.facts() + struct.pack("<3H2I", 0, 0, 0, RIGHTS, place) + self.name


def entry(name: str, data: bytes) -> Entry:
    """A file as an entry."""
    return Entry(name.encode("ascii"), deflated(data), len(data), zlib.crc32(data))


def put_together(entries: list[Entry]) -> bytes:
    """The zip of some entries."""
    made, rows = b"", b""
    for entry in entries:
        rows += entry.row(len(made))
        made += entry.file()
    return made + rows + END + struct.pack("<4H2IH", 0, 0, len(entries), len(entries), len(rows), len(made), 0)


def zipped(files: dict[str, bytes]) -> bytes:
    """The zip of files by their names, in their order."""
    with ProcessPoolExecutor(min(MOST_PROCESSES, os.cpu_count() or 1)) as pool:
        return put_together([*pool.map(entry, files, files.values())])
