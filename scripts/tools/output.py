"""Standard output and files, whose writing has to go well, and standard error, whose writing needn't.

What is written is a name's own bytes, and letters of ASCII else: so no encoding can lack a letter."""

import contextlib
import os
import tempfile
from typing import Iterable

from .faults import FILE, Fault, plain

CHUNK = 1 << 16
INPUT, OUTPUT, ERRORS = 0, 1, 2


def tell(text: str) -> None:
    """Writes to standard error, as far as that goes."""
    with contextlib.suppress(OSError):
        write_all(ERRORS, os.fsencode(text))


def say(name: str, what: str) -> None:
    """Says something in a line that begins with the script's name."""
    tell(f"{name}: {plain(what)}\n")


def write_all(file: int, text: bytes) -> None:
    """Writes all of it, in one piece if the file takes it."""
    while text:
        text = text[os.write(file, text):]


def write(file: int, pieces: Iterable[str]) -> None:
    """Writes a text that comes in pieces, in larger ones."""
    left = bytearray()
    for piece in pieces:
        left += os.fsencode(piece)
        if len(left) >= CHUNK:
            write_all(file, bytes(left))
            left.clear()
    write_all(file, bytes(left))


def show(pieces: Iterable[str]) -> None:
    """Writes a text to standard output. A pipe that nobody reads any more ends the program as it ends others."""
    try:
        write(OUTPUT, pieces)
    except BrokenPipeError:
        raise
    except OSError as why:
        raise Fault(f"cannot write: {why.strerror}", FILE) from why


def replaced(path: str, text: bytes, mode: int = 0o644) -> None:
    """Writes a file in one piece: whoever opens it has all of it, or what was there before."""
    file, begun = tempfile.mkstemp(dir=os.path.dirname(path) or ".", prefix=".")
    try:
        with open(file, "wb") as writing:
            writing.write(text)
        os.chmod(begun, mode)
        os.replace(begun, path)
    except BaseException:
        with contextlib.suppress(OSError):
            os.unlink(begun)
        raise


def written_over(path: str, files: Iterable[str]) -> str:
    """What is wrong with a file that is to be written, if it is one of those that are read, whichever names these have."""
    for file in files:
        with contextlib.suppress(OSError):
            if os.path.samefile(path, file):
                return f"{path}: this file is read, so it is not written"
    return ""


def open_standard_files() -> bool:
    """Puts the null device where a standard file is closed, so that no other file gets its number; standard output still
    takes nothing then, and standard input gives nothing. Reports whether standard output was open."""
    closed = []
    for file in (INPUT, OUTPUT, ERRORS):
        try:
            os.fstat(file)
        except OSError:
            closed.append(os.open(os.devnull, os.O_RDONLY if file == OUTPUT else os.O_WRONLY))
    return OUTPUT not in closed
