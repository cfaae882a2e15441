"""Completion, and what is shown while arguments are typed."""

import re
from typing import Any

from .documents import Text
from .knowing import Known, Token
from .manual import Entry

# Kinds of items, as the protocol numbers them.
FUNCTION, VARIABLE, KEYWORD, SNIPPET = 3, 6, 14, 15
SNIPPET_TEXT = 2
# What words stand before, with places to fill in.
SNIPPETS = {
    "while": "while (${1:condition}) {\n\t$0\n}",
    "if": "if (${1:condition}) {\n\t$0\n}",
}
FUNCTION_SNIPPET = "${1:name}(${2:parameters})\n{\n\t$0\n}"
Item = dict[str, Any]


def is_in_comment(text: Text, known: Known, offset: int) -> bool:
    """Whether an offset is in a comment: tokens have none in them."""
    start = max((token.end for token in known.tokens if token.end <= offset), default=0)
    return is_open(text.content[start:offset])


def is_open(blank: bytes) -> bool:
    """Whether a comment is open behind blank bytes."""
    rest = re.sub(rb"/\*.*?\*/", b"", blank, flags=re.DOTALL)
    return b"/*" in rest


def items(text: Text, known: Known, offset: int, manual: dict[str, Entry], has_snippets: bool) -> list[Item]:
    """What may be typed at an offset."""
    if is_in_comment(text, known, offset):
        return []
    function = known.function_at(offset)
    inside = bool(function and offset >= function["open"])
    found = [of_word(row["name"], has_snippets) for row in known.words]
    if not inside and has_snippets:
        found.append({"label": "function", "kind": SNIPPET, "insertTextFormat": SNIPPET_TEXT, "insertText": FUNCTION_SNIPPET,
                      "detail": "a function"})
    found += [of_intrinsic(row, manual, has_snippets) for row in known.intrinsics]
    found += [of_call(row["name"], known.parameters(row), has_snippets) for row in known.functions]
    found += variables(known, offset)
    return found


def of_word(word: str, has_snippets: bool) -> Item:
    if has_snippets and word in SNIPPETS:
        return {"label": word, "kind": KEYWORD, "insertTextFormat": SNIPPET_TEXT, "insertText": SNIPPETS[word]}
    return {"label": word, "kind": KEYWORD}


def of_intrinsic(row: Item, manual: dict[str, Entry], has_snippets: bool) -> Item:
    """The item of an intrinsic function, with what the manual page says of it."""
    entry = manual.get(row["name"])
    item = of_call(row["name"], [*entry.parameters] if entry else [], has_snippets)
    return item | ({"documentation": {"kind": "markdown", "value": entry.text}} if entry else {})


def of_call(name: str, parameters: list[str], has_snippets: bool) -> Item:
    item: Item = {"label": name, "kind": FUNCTION, "detail": f"{name}({', '.join(parameters)})"}
    if has_snippets:
        places = ", ".join(f"${{{number}:{parameter}}}" for number, parameter in enumerate(parameters, 1))
        item |= {"insertTextFormat": SNIPPET_TEXT, "insertText": f"{name}({places})$0"}
    return item


def variables(known: Known, offset: int) -> list[Item]:
    """The variables that are in scope: those of the function, and of the file those that are declared before."""
    function = known.function_at(offset)
    own = known.locals(function) if function else []
    here = next((name.name for name in known.names if name.start < offset == name.end), None)
    outer = [name.name for name in known.names if (name.kind, name.role) == ("external", "declared") and name.end < offset]
    told = [*((name, "a variable of the function") for name in own), *((name, "an external") for name in outer if name not in own)]
    seen = {name.name for name in known.names if name.end < offset or name.start > offset}
    # the name that is being typed is none yet
    return [{"label": name, "kind": VARIABLE, "detail": what} for name, what in dict(told).items() if name != here or name in seen]


def signature(text: Text, known: Known, offset: int, manual: dict[str, Entry]) -> Item | None:
    """The function whose arguments are typed at an offset, and which of them."""
    if is_in_comment(text, known, offset):
        return None
    found = call_around(text, [token for token in known.tokens if token.end <= offset])
    if not found:
        return None
    name, number = found
    parameters = parameters_of(known, name, manual)
    if parameters is None:
        return None
    entry = manual.get(name)
    shown: Item = {"label": f"{name}({', '.join(parameters)})", "parameters": [{"label": parameter} for parameter in parameters]}
    if entry and is_intrinsic(known, name):
        shown["documentation"] = {"kind": "markdown", "value": entry.text}
    return {"signatures": [shown], "activeSignature": 0, "activeParameter": number}


def is_intrinsic(known: Known, name: str) -> bool:
    return any(row["name"] == name for row in known.intrinsics)


def parameters_of(known: Known, name: str, manual: dict[str, Entry]) -> list[str] | None:
    """The parameters of a function, if it is known."""
    if is_intrinsic(known, name):
        return [*manual[name].parameters] if name in manual else []
    function = known.function_named(name)
    return known.parameters(function) if function else None


def call_around(text: Text, before: list[Token]) -> tuple[str, int] | None:
    """The name that the innermost bracket that is open behind tokens belongs to, and how many commas are behind it."""
    depth = commas = 0
    for number in range(len(before) - 1, 0, -1):
        mark = text.content[before[number].start : before[number].end]
        if mark in (b";", b"{", b"}"):
            return None
        if mark == b")":
            depth += 1
        elif mark == b"(" and depth:
            depth -= 1
        elif mark == b"(":
            name = before[number - 1]
            if name.kind == "name":
                return text.content[name.start : name.end].decode("ascii"), commas
            commas = 0
        elif mark == b"," and not depth:
            commas += 1
    return None
