"""Diagnostics, the fixes that go with them, and new names."""

import re
from functools import lru_cache
from typing import Any

from .documents import Text
from .fields import Fields
from .framing import encoded
from .knowing import Known, Name, Row

ERROR, WARNING = 1, 2
SOURCE = "crobots"
# how a diagnostic begins as JSON
RANGE = b'{"range":{"start":{"line":%d,"character":%d},"end":{"line":%d,"character":%d}}'
PAGES = {ERROR: "language.md#diagnostics", WARNING: "mistakes.md"}
Diagnostic = dict[str, Any]
Parts = tuple[str, str, str, str | None, str | None, str | None]


class Refusal(Exception):
    """A name that can't be given: the text says why."""


def diagnostic(text: Text, row: Row, pages: str) -> Diagnostic:
    """A fault or a warning as the protocol has it."""
    return {"range": text.range(row["start"], row["end"])} | said(*parts(row), pages)


def written(text: Text, row: Row, pages: str) -> bytes:
    """The same as JSON. Of a thousand warnings most say what others say."""
    start, end = text.range(row["start"], row["end"]).values()
    return RANGE % (start["line"], start["character"], end["line"], end["character"]) + ending(parts(row), pages)


def parts(row: Row) -> Parts:
    """What is said of a fault or a warning."""
    return row["row"], row["code"], row["message"], row.get("met"), row.get("fits"), row.get("hint")


@lru_cache(maxsize=1000)
def ending(those: Parts, pages: str) -> bytes:
    """What a diagnostic has beside its range, as the end of its JSON."""
    return b"," + encoded(said(*those, pages))[1:]


def said(row: str, code: str, message: str, met: str | None, fits: str | None, hint: str | None, pages: str) -> Diagnostic:
    """What a diagnostic has beside its range; its message ends with the hint."""
    severity = WARNING if row == "warning" else ERROR
    lines = [message, *(f"{name}: {part}" for name, part in (("met", met), ("fits", fits), ("hint", hint)) if part)]
    return {"severity": severity, "code": code, "source": SOURCE, "codeDescription": {"href": f"{pages}/{PAGES[severity]}"}, "message": "\n".join(lines)}


def actions(text: Text, uri: str, known: Known, first: int, last: int, pages: str) -> list[dict[str, Any]]:
    """The fixes of faults and warnings that touch what is between two offsets."""
    return [action(text, uri, row, pages) for row in known.faults if row.get("fix") and row["start"] <= last and first <= row["end"]]


def action(text: Text, uri: str, row: Row, pages: str) -> dict[str, Any]:
    fix = row["fix"]
    edit = {"range": text.range(fix["start"], fix["end"]), "newText": fix["text"]}
    return {"title": title(text, fix), "kind": "quickfix", "isPreferred": True, "diagnostics": [diagnostic(text, row, pages)],
            "edit": {"changes": {uri: [edit]}}}


def title(text: Text, fix: Row) -> str:
    """What a fix does, in words."""
    gone = re.sub(r"\s+", " ", text.content[fix["start"] : fix["end"]].decode("utf-8", "replace"))
    if not gone:
        return f"Write `{fix['text']}` here"
    return f"Write `{fix['text']}` in place of `{gone}`" if fix["text"] else f"Leave out `{gone}`"


def renamed(text: Text, found: list[Name], name: str) -> bytes:
    """The bytes of a text in which some names are another one."""
    parts, last = [], 0
    for use in sorted(found, key=lambda use: use.start):
        parts += [text.content[last : use.start], name.encode("utf-8", "surrogatepass")]
        last = use.end
    return b"".join([*parts, text.content[last:]])


def check_name(alone: Known, name: str) -> None:
    """Refuses a name that is none, by what is known of it as a source of its own."""
    kinds = [(token.kind, token.end - token.start) for token in alone.tokens]
    if kinds == [("name", len(name))]:
        return
    if len(kinds) == 1 and kinds[0][0] in ("keyword", "type", "reserved"):
        raise Refusal(f"{name} is a word of the language")
    faults = [row["message"] for row in alone.faults if row["row"] == "fault"]
    raise Refusal(f"{name or 'nothing'} is no name{f': {faults[0]}' if kinds and kinds[0][0] == 'fault' and faults else ''}")


def check_meaning(before: Known, after: Known, found: list[Name], name: str) -> None:
    """Refuses a name by which another name would mean something else: it is taken."""
    if len(before.names) != len(after.names):
        raise Refusal(f"{name} is taken")
    keys: dict[object, object] = {}
    back: dict[object, object] = {}
    for old, new in zip(before.names, after.names):
        is_same = keys.setdefault(old.key(), new.key()) == new.key() and back.setdefault(new.key(), old.key()) == old.key()
        if not is_same or (old.kind, old.role) != (new.kind, new.role):
            raise Refusal(f"{name} is taken")
    if [code for code in map(fault_of, after.faults) if code] != [code for code in map(fault_of, before.faults) if code]:
        raise Refusal(f"{name} can't be the name: there would be another fault")


def fault_of(row: Row) -> str:
    return str(row["code"]) if row["row"] == "fault" else ""


def span_of(text: Text, where: Fields) -> tuple[int, int]:
    """The offsets of a range of a message."""
    return text.offset(where.fields("start")), text.offset(where.fields("end"))
