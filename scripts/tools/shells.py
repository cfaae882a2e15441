"""Command lines: as a reader copies them into a shell."""

import re
import shlex
from typing import Iterable

# What can't be seen: control characters, ends of lines, and the bytes of a name that are no text.
UNSEEN = re.compile("[\x00-\x08\x0a-\x1f\x7f-\x9f\u2028\u2029\ud800-\udfff]")
# A word that needs no quotes.
PLAIN = re.compile("[A-Za-z0-9_./-]+")


def line(words: Iterable[str]) -> str:
    """A command line of these words."""
    return " ".join(map(quoted, words))


def quoted(word: str) -> str:
    """A word for a shell. One with bytes that can't be shown is written as bash and zsh read it: with their codes."""
    if PLAIN.fullmatch(word):
        return word
    if not UNSEEN.search(word):
        return shlex.quote(word)
    return "$'" + re.sub(rb"[^ -&(-\[\]-~]", octal, word.encode("utf-8", "surrogateescape")).decode() + "'"


def octal(found: re.Match[bytes]) -> bytes:
    """The code of a byte."""
    return f"\\{found[0][0]:03o}".encode()
