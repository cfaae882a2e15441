"""What is told of a place: a description, where it is declared, and where else it is used."""

from typing import Any

from .completing import parameters_of
from .documents import Range, Text
from .knowing import Known, Name, Row
from .manual import Entry

Answer = dict[str, Any]
SYMBOL_FUNCTION, SYMBOL_VARIABLE = 12, 13


def hover(text: Text, known: Known, offset: int, manual: dict[str, Entry]) -> Answer | None:
    """The description of what is at an offset."""
    name = known.name_at(offset)
    if name:
        told = of_name(text, known, name, manual)
        return {"contents": {"kind": "markdown", "value": told}, "range": text.range(name.start, name.end)}
    token = known.token_at(offset)
    cycles = token and cycles_at(text, known, "turn", token.start)
    if not token or not cycles:
        return None
    return {"contents": {"kind": "markdown", "value": f"A turn takes {cycles}."}, "range": text.range(token.start, token.end)}


def of_name(text: Text, known: Known, name: Name, manual: dict[str, Entry]) -> str:
    if name.kind == "intrinsic" and name.name in manual:
        entry = manual[name.name]
        return f"`{entry.head()}`\n\n{entry.text}"
    if name.kind in ("function", "intrinsic"):
        return of_function(text, known, name, manual)
    declared = known.declaration(name)
    line = text.position(declared.start)["line"] + 1 if declared else 0
    whose = "an external" if name.kind == "external" else f"a variable of `{function_of(known, name)}`"
    how = "declared" if declared and declared.role != "mentioned" else "not declared, first named"
    return f"`{name.name}`: {whose}, {how} on line {line}"


def of_function(text: Text, known: Known, name: Name, manual: dict[str, Entry]) -> str:
    function = known.function_named(name.name)
    if not function:
        return f"`{name.name}`: no function of this name is defined"
    head = f"`{name.name}({', '.join(parameters_of(known, name.name, manual) or [])})`"
    told = [f"defined on line {text.position(function['start'])['line'] + 1}", counted(len(known.locals(function)), "variable")]
    if cycles := cycles_at(text, known, "call", function["start"]):
        told.append(f"a call takes {cycles}")
    if name.name == "main" and known.room:
        told.append(f"room of the robot: {known.room['message']}")
    else:
        told += room(text, known, function["start"])
    return f"{head}\n\n" + "; ".join(told)


def room(text: Text, known: Known, offset: int) -> list[str]:
    """The room that a call of the function at an offset needs at most, in words; nothing if it isn't known."""
    row = next((need for need in known.needs if offset_of(text, need) == offset), None)
    if not row:
        return []
    if row["words"] is None:
        return ["no room is enough for one, since it can come back"]
    return [f"one needs at most {counted(row['words'], 'word')} and {counted(row['frames'], 'frame')}"]


def counted(count: int, what: str) -> str:
    return f"{count} {what}{'' if count == 1 else 's'}"


def function_of(known: Known, name: Name) -> str:
    return next((row["name"] for row in known.functions if row["function"] == name.function), "?")


def cycles_at(text: Text, known: Known, what: str, offset: int) -> str:
    """The cycles of the call or the turn that begins at an offset, in words; nothing if they aren't known."""
    row = next((entry for entry in known.cycles if entry["of"] == what and offset_of(text, entry) == offset), None)
    return span(row) if row and row["least"] is not None else ""


def offset_of(text: Text, row: Row) -> int:
    """The offset of a line and a column as the programs count them: lines end in LF alone, columns are bytes."""
    line, column = int(row["line"]), int(row["column"])
    return text.line_feeds[line - 1] + column - 1


def span(row: Row) -> str:
    if row["most"] is None:
        return f"at least {row['least']} cycles"
    return f"{row['least']} cycles" if row["least"] == row["most"] else f"{row['least']} to {row['most']} cycles"


def uses(known: Known, offset: int) -> list[Name]:
    """All names that name the same as the one at an offset."""
    name = known.name_at(offset)
    return known.by_key[name.key()] if name else []


def references(text: Text, known: Known, offset: int, with_declaration: bool) -> list[Range]:
    found = uses(known, offset)
    declared = known.declaration(found[0]) if found else None
    return [text.range(use.start, use.end) for use in found if with_declaration or use != declared]


def symbols(text: Text, known: Known) -> list[Answer]:
    """The functions and the externals of a document, in their order."""
    found = [symbol(text, row["name"], SYMBOL_FUNCTION, (row["start"], row["close"]), (row["start"], row["end"])) for row in known.functions]
    found += [symbol(text, name.name, SYMBOL_VARIABLE, (name.start, name.end), (name.start, name.end))
              for name in known.names if (name.kind, name.role) == ("external", "declared")]
    return sorted(found, key=lambda told: (told["range"]["start"]["line"], told["range"]["start"]["character"]))


def symbol(text: Text, name: str, kind: int, whole: tuple[int, int], own: tuple[int, int]) -> Answer:
    return {"name": name, "kind": kind, "range": text.range(*whole), "selectionRange": text.range(*own)}


def folds(text: Text, known: Known) -> list[Answer]:
    """The blocks and the comments of several lines."""
    found: list[tuple[int, int, str | None]] = []
    opened: list[int] = []
    for token in known.tokens:
        mark = text.content[token.start : token.end]
        if mark == b"{":
            opened.append(token.start)
        elif mark == b"}" and opened:
            found.append((opened.pop(), token.start, None))
    found += [(start, end, "comment") for start, end in comments(text, known)]
    lines = ((text.position(start)["line"], text.position(end)["line"], kind) for start, end, kind in found)
    return [{"startLine": first, "endLine": last} | ({"kind": kind} if kind else {}) for first, last, kind in sorted(lines, key=lambda fold: fold[:2])
            if first < last]


def comments(text: Text, known: Known) -> list[tuple[int, int]]:
    """Where comments begin and end: in what is between tokens."""
    found = []
    ends = [0, *(token.end for token in known.tokens)]
    starts = [*(token.start for token in known.tokens), len(text.content)]
    for end, start in zip(ends, starts):
        between = text.content[end:start]
        at = between.find(b"/*")
        while at >= 0:
            close = between.find(b"*/", at + 2)
            last = close + 1 if close >= 0 else len(between)
            found.append((end + at, end + last))
            at = between.find(b"/*", last) if close >= 0 else -1
    return found
