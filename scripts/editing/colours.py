"""Semantic tokens, and the hints within lines: the cycles of calls and turns."""

from typing import Any

from .documents import Text
from .knowing import Known, Name
from .telling import cycles_at

TYPES = ["keyword", "type", "function", "variable", "parameter", "number", "operator"]
MODIFIERS = ["declaration", "defaultLibrary", "static"]
KINDS = {"keyword": "keyword", "type": "type", "constant": "number", "punctuator": "operator", "reserved": "keyword"}
NUMBERS = {name: number for number, name in enumerate(TYPES)}
DECLARATION, LIBRARY, STATIC = 1, 2, 4
# Behind the hint's place: what comes after it is as it was.
PADDED = {"paddingLeft": True}


def tokens(text: Text, known: Known) -> list[int]:
    """The tokens of a text as the protocol packs them: each by its distance from the one before."""
    names = {name.start: name for name in known.names}
    parameters = {(name.function, name.name) for name in known.names if name.role == "parameter"}
    packed: list[int] = []
    last_line = last_column = 0
    for token, (line, column, length) in zip(known.tokens, text.places((one.start, one.end) for one in known.tokens)):
        kind, modifiers = kind_of(token.kind, names.get(token.start), parameters)
        if kind is None or not length:
            continue
        packed += [line - last_line, column if line > last_line else column - last_column, length, NUMBERS[kind], modifiers]
        last_line, last_column = line, column
    return packed


def kind_of(kind: str, name: Name | None, parameters: set[tuple[int | None, str]]) -> tuple[str | None, int]:
    """The type of a token, and its modifiers as bits."""
    if kind != "name":
        return KINDS.get(kind), 0
    if not name:
        return None, 0
    bits = DECLARATION if name.role in ("defined", "declared", "parameter") else 0
    if name.kind in ("function", "intrinsic"):
        return "function", bits | (LIBRARY if name.kind == "intrinsic" else 0)
    if name.kind == "external":
        return "variable", bits | STATIC
    return ("parameter" if (name.function, name.name) in parameters else "variable"), bits


def hints(text: Text, known: Known, first: int, last: int) -> list[dict[str, Any]]:
    """The cycles of each function's call and each loop's turn that begin between two offsets."""
    found = [(row["start"], row["end"], "call") for row in known.functions] + [(row["start"], row["end"], "turn") for row in known.loops]
    told = ((end, cycles_at(text, known, what, start)) for start, end, what in sorted(found) if first <= start <= last)
    return [{"position": text.position(end), "label": cycles} | PADDED for end, cycles in told if cycles]
