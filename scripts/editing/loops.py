"""A loop that waits for standard input and for running programs, and lets each go on as it can."""

import os
import selectors
from typing import Any, Callable, Protocol

from tools.faults import FILE, Fault

from .framing import NOTHING, Broken, Frames, encoded, framed

INPUT, OUTPUT = 0, 1
PIECE = 1 << 16
UNREAD = "cannot read standard input"
Take = Callable[[Any], None]


class Waiting(Protocol):
    """What is waited for, by the number of its file."""

    def fileno(self) -> int:
        """The number of its file."""


class Loop:
    """Messages of a client, and programs that run meanwhile."""

    def __init__(self, take: Take, broken: Callable[[str], None]) -> None:
        self._take, self._broken = take, broken
        self._frames = Frames()
        self._selector = selectors.DefaultSelector()
        try:
            self._selector.register(INPUT, selectors.EVENT_READ, self._read)
        except (OSError, ValueError) as why:
            raise Fault(UNREAD, FILE) from why
        self.is_over = False

    def wait_for(self, what: Waiting, act: Callable[[], None]) -> None:
        """Does something each time that something can be read."""
        self._selector.register(what.fileno(), selectors.EVENT_READ, act)

    def forget(self, what: Waiting) -> None:
        self._selector.unregister(what.fileno())

    def run(self) -> None:
        """Goes on until the client has gone, or is done. What the client wrote comes before what programs did."""
        while not self.is_over:
            ready = self._selector.select()
            for key, _ in sorted(ready, key=lambda pair: pair[0].fd != INPUT):
                if self._selector.get_map().get(key.fd) is key and not self.is_over:
                    key.data()

    def _read(self) -> None:
        """Takes what has come from the client."""
        try:
            piece = os.read(INPUT, PIECE)
        except OSError as why:
            raise Fault(UNREAD, FILE) from why
        if not piece:
            self.is_over = True
            return
        self._frames.take(piece)
        while not self.is_over:
            try:
                message = self._frames.next()
            except Broken as why:
                self._broken(str(why))
                continue
            if message is NOTHING:
                return
            self._take(message)


def send(message: Any) -> None:
    """Writes a message to the client."""
    send_encoded(encoded(message))


def send_encoded(body: bytes) -> None:
    """Writes a message to the client, which is JSON already. One that reads no more gets nothing."""
    rest = memoryview(framed(body))
    while rest:
        rest = rest[os.write(OUTPUT, rest) :]
