"""One `play` at a time: a lock on a file of the league, which ends with the process that has it."""

import contextlib
import fcntl
import os
from typing import Iterator

from tools.faults import FILE, Fault, writing

NAME = "lock"


@contextlib.contextmanager
def alone(folder: str) -> Iterator[None]:
    """Keeps others from playing the league."""
    path = os.path.join(folder, NAME)
    with writing(path):
        file = os.open(path, os.O_RDWR | os.O_CREAT | os.O_CLOEXEC, 0o666)
    try:
        if not locked(file):
            raise Fault(f"{folder} is being played already", FILE)
        yield
    finally:
        os.close(file)


def locked(file: int) -> bool:
    """Takes the lock, if nobody has it."""
    try:
        fcntl.flock(file, fcntl.LOCK_EX | fcntl.LOCK_NB)
    except BlockingIOError:
        return False
    return True


def is_played(folder: str) -> bool:
    """Reports whether somebody plays the league now."""
    try:
        file = os.open(os.path.join(folder, NAME), os.O_RDONLY | os.O_CLOEXEC)
    except OSError:
        return False
    try:
        return not locked(file)
    finally:
        os.close(file)
