"""The program `crobots`: where it is, and the hash of its bytes, by which records name it."""

import contextlib
import hashlib
import os
import shutil
from dataclasses import dataclass

from tools.faults import PROGRAM, Fault, reading
from tools.programs import found, number, ours

NAME = "crobots"
Stamp = tuple[int, int, int, int]


@dataclass(frozen=True)
class Program:
    """A program: its path, the SHA-256 of its bytes, and by what it is seen that the file is still the same."""

    path: str
    sha256: str
    stamp: Stamp | None

    def check(self) -> None:
        """Stops if the file isn't the one that was hashed."""
        if stamp(self.path) != self.stamp:
            raise Fault(f"{self.path} was changed while it was used", PROGRAM)


def program(given: str | None) -> Program:
    """The program that was given, the one on the path, or the one built or installed with this script."""
    path = found(NAME, given)
    with reading(path):
        before = stamp(path)
        with open(path, "rb") as file:
            chosen = Program(path, hashlib.file_digest(file, "sha256").hexdigest(), before)
    chosen.check()
    return chosen


def version(sha256: str) -> str:
    """The version of the program with this hash, if it is the one that was built or installed with this script."""
    with contextlib.suppress(OSError, Fault):
        if any(program(path).sha256 == sha256 for path in ours(NAME) if shutil.which(path)):
            return f"{NAME} {number()}"
    return ""


def stamp(path: str) -> Stamp | None:
    """What changes if a file is replaced or written to; nothing if it is gone."""
    try:
        status = os.stat(path)
    except OSError:
        return None
    return status.st_dev, status.st_ino, status.st_size, status.st_mtime_ns
