"""What ends a script before its time: a line for its user, and a status."""

import contextlib
from typing import Iterable, Iterator

FAULTY, USAGE, FILE, PROGRAM, MEMORY = 1, 2, 3, 4, 5
# As the programs have it: their output was not written.
UNWRITTEN = 4


class Fault(Exception):
    """What is wrong, in one line for the user."""

    def __init__(self, why: str, status: int = USAGE) -> None:
        super().__init__(why)
        self.status = status

    def told(self, name: str, _: str) -> str:
        """What a script of this name says of it; a line of usage may go with it."""
        return f"{name}: {plain(str(self))}\n"


class Misuse(Fault):
    """Wrong words: the line says which, if that is known, and the usage."""

    def told(self, name: str, usage: str) -> str:
        return (super().told(name, usage) if str(self) else "") + f"{usage}\n"


class Ended(Fault):
    """A program that a script runs ended before its time: what it said, in lines, and its status."""

    def __init__(self, lines: Iterable[str], status: int) -> None:
        super().__init__("".join(lines), status if status > 0 else 128 - status)

    def told(self, name: str, usage: str) -> str:
        return str(self) + (f"{usage}\n" if usage and self.status == USAGE else "")


def plain(word: str) -> str:
    """A word on a line: each control character is shown as a question mark, and each byte that is no text by its code."""
    return "".join(visible(letter) for letter in word)


def visible(letter: str) -> str:
    """A letter as a line shows it."""
    if "\udc80" <= letter <= "\udcff":
        return f"\\x{ord(letter) - 0xdc00:02x}"
    return "?" if letter < " " or "\x7f" <= letter < "\xa0" else letter


def reading(path: str) -> contextlib.AbstractContextManager[None]:
    """Makes a fault of what keeps a file from being read inside."""
    return used("read", path)


def writing(path: str) -> contextlib.AbstractContextManager[None]:
    """Makes a fault of what keeps a file from being written inside."""
    return used("write", path)


@contextlib.contextmanager
def used(what: str, path: str) -> Iterator[None]:
    """Makes a fault of what keeps a file from being used so inside."""
    try:
        yield
    except OSError as why:
        raise Fault(f"cannot {what} {file_word(path)}: {why.strerror}", FILE) from why


def file_word(path: str) -> str:
    """The word of a file on a line: one without a letter is two quotes."""
    return path or "''"
