"""The signals that ask a script to end: HUP, INT and TERM, but for those that are ignored."""

import contextlib
import signal
from types import FrameType
from typing import Iterator, NoReturn

ENDING = (signal.SIGHUP, signal.SIGINT, signal.SIGTERM)


class Stopped(Exception):
    """A signal asked the script to end."""

    def __init__(self, number: int, said: str = "") -> None:
        super().__init__(said)
        self.number = number


def stop(number: int, _: FrameType | None) -> NoReturn:
    raise Stopped(number)


def heeded() -> list[int]:
    """The signals that ask for the end, but for those that are ignored."""
    return [number for number in ENDING if signal.getsignal(number) != signal.SIG_IGN]


class Watch:
    """Remembers a signal that asks for the end."""

    def __init__(self) -> None:
        self._number = 0

    def take(self, number: int, _: FrameType | None) -> None:
        self._number = number

    def check(self) -> None:
        if self._number:
            raise Stopped(self._number)


@contextlib.contextmanager
def watch() -> Iterator[Watch]:
    """Takes the signals that aren't ignored, until what is done inside has ended."""
    watching = Watch()
    before = {number: signal.signal(number, watching.take) for number in heeded()}
    try:
        yield watching
    finally:
        for number, action in before.items():
            signal.signal(number, action)


@contextlib.contextmanager
def stopping(said: str) -> Iterator[None]:
    """Lets a signal that comes meanwhile say what it stops, unless what is stopped says so itself."""
    try:
        yield
    except Stopped as why:
        raise (why if why.args[0] else Stopped(why.number, said)) from why
