"""What tests want beyond the toolchain: the table of packages.txt, and what of it lacks on this machine."""

from __future__ import annotations

import os
import shutil
from pathlib import Path
from typing import Iterable, NamedTuple

TABLE = Path(__file__).resolve().parent / "packages.txt"


class Package(NamedTuple):
    """A package of Debian: its name, the programs or the path by which it is found, and what wants it."""

    name: str
    marks: tuple[str, ...]
    use: str

    def is_there(self) -> bool:
        return any(map(is_there, self.marks))


def table() -> list[Package]:
    """The packages, in their order."""
    lines = [line for line in TABLE.read_text(encoding="ascii").splitlines() if line and not line.startswith("#")]
    return [Package(name, (*marks.split(),), use) for name, marks, use in (line.split(": ") for line in lines)]


def is_there(mark: str) -> bool:
    """Whether a program, or a path, is on this machine."""
    return os.path.exists(mark) if mark.startswith("/") else shutil.which(mark) is not None


def lacking(marks: Iterable[str]) -> str:
    """What of these programs and paths isn't here, and in which packages it is; nothing if all are here."""
    gone = [mark for mark in marks if not is_there(mark)]
    owners = [next(it.name for it in table() if mark in it.marks) for mark in gone]
    return f"there is no {' and no '.join(gone)} (Debian: {', '.join(owners)})" if gone else ""
