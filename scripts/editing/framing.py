"""The frames of both protocols: a head with the length of a message, an empty line, and the message in JSON."""

import json
import re
from typing import Any

# A length as a head has it.
LENGTH = re.compile(rb"(?:^|\n)content-length: *([0-9]{1,12}) *(?:\r?\n|$)", re.IGNORECASE)
NAME = re.compile(rb"content-length:", re.IGNORECASE)
# The ends of a head.
END = re.compile(rb"\r?\n\r?\n")
# A longer message is passed over: the largest source has a megabyte.
MOST_BYTES = 64 << 20
# A head has fewer bytes.
MOST_HEAD = 1 << 13


ENCODER = json.JSONEncoder(separators=(",", ":"))
# There is no message that is whole: null is one.
NOTHING = object()


class Broken(Exception):
    """Bytes that are no message: the text says why."""


class Frames:
    """Bytes that come in any pieces, taken apart into messages."""

    def __init__(self) -> None:
        self._bytes = bytearray()
        self._length: int | None = None
        self._passed_over = 0

    def take(self, piece: bytes) -> None:
        """Takes more bytes; those of a message that is passed over are kept no longer."""
        dropped = min(self._passed_over, len(piece))
        self._passed_over -= dropped
        self._bytes += piece[dropped:]

    def next(self) -> Any:
        """The next message, or NOTHING if none is whole; it stops at bytes that are none, and goes on behind them."""
        if self._length is None and not self._read_head():
            return NOTHING
        assert self._length is not None
        if len(self._bytes) < self._length:
            return NOTHING
        body = bytes(self._bytes[: self._length])
        del self._bytes[: self._length]
        self._length = None
        return parsed(body)

    def _read_head(self) -> bool:
        """Reads a head, if it is whole."""
        end = END.search(self._bytes)
        if not end:
            if len(self._bytes) > MOST_HEAD:
                self._skip()
                raise Broken("a head without an end")
            return False
        head = bytes(self._bytes[: end.start()])
        found = LENGTH.search(head)
        if not found:
            self._skip()
            raise Broken("a head without a length")
        del self._bytes[: end.end()]
        self._length = int(found[1])
        if self._length > MOST_BYTES:
            self._pass_over(self._length)
            raise Broken(f"a message of {found[1].decode()} bytes: at most {MOST_BYTES} are read")
        return True

    def _pass_over(self, length: int) -> None:
        """Drops as many bytes, those that come later among them."""
        here = min(length, len(self._bytes))
        del self._bytes[:here]
        self._length, self._passed_over = None, length - here

    def _skip(self) -> None:
        """Goes on at the next length that is named, behind the first byte."""
        found = NAME.search(self._bytes, 1)
        del self._bytes[: found.start() if found else max(len(self._bytes) - len(b"content-length:"), 1)]


def parsed(body: bytes) -> Any:
    """A message of its bytes."""
    try:
        return json.loads(body.decode("utf-8"), parse_constant=refuse)
    except (ValueError, RecursionError) as why:
        raise Broken(f"no JSON: {why}") from why


def refuse(word: str) -> Any:
    """Refuses a word that Python takes for a number, and JSON doesn't."""
    raise ValueError(word)


def encoded(value: Any) -> bytes:
    """A value as JSON."""
    return ENCODER.encode(value).encode("ascii")


def framed(body: bytes) -> bytes:
    """A message with its head."""
    return b"Content-Length: %d\r\n\r\n%s" % (len(body), body)
