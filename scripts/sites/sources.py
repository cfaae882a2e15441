"""A robot's source with colours, a line a row. The words are those that the editor of the browser's page colours."""

import re
from typing import Iterator

from tools.rules import MOST_NAME_BYTES, WORDS

from .markup import Markup, block, escaped, joined, tag

STYLES = {"keyword": "keyword", "type": "type", "intrinsic": "builtin", "reserved": "error"}
KINDS = {word: STYLES[kind] for kind, words in WORDS.items() for word in words.split()} | {"main": "def"}
# What is after this byte isn't read.
END = b"\x1a"
TOKEN = re.compile(r"(?s)(?P<comment>/\*.*?(?:\*/|\Z))|(?P<number>[0-9]+)|(?P<name>[A-Za-z_][A-Za-z0-9_]*)|"
                   r"""(?P<error>["'#$.:?@`\[\]\\])|(?P<other>[^/0-9A-Za-z_"'#$.:?@`\[\]\\]+|/)""")


def text(source: bytes) -> str:
    """A source as a text; bytes that are no UTF-8 are replaced by a sign for that."""
    return source.decode("utf-8", "replace")


def tokens(source: bytes) -> Iterator[tuple[str, str]]:
    """The pieces of a source, each with its kind; without a kind it has no colour."""
    read, end, rest = source.partition(END)
    for found in TOKEN.finditer(text(read)):
        kind, piece = found.lastgroup or "", found[0]
        if kind == "name":
            kind = "error" if len(piece) > MOST_NAME_BYTES else KINDS.get(piece, "")
        yield ("" if kind == "other" else kind), piece
    if end:
        yield "comment", text(end + rest)


def lines(source: bytes) -> list[Markup]:
    """The lines of a source with colours."""
    rows: list[list[str]] = [[]]
    for kind, piece in tokens(source):
        for at, part in enumerate(piece.replace("\r\n", "\n").split("\n")):
            if at:
                rows.append([])
            if part:
                rows[-1].append(tag("span", part, class_=kind) if kind else escaped(part))
    if not rows[-1]:
        rows.pop()
    return [joined(*row) for row in rows]


def coloured(source: bytes) -> Markup:
    """A source as a block with the numbers of its lines, which aren't copied with it."""
    return tag("pre", tag("code", block(tag("span", line, class_="line") for line in lines(source))), class_="source")
