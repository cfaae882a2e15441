"""Random sources with random edits, and what `crobots-why` says of a text: the diagnostics that an editor has to show."""

from __future__ import annotations

import os
import random
import re
import subprocess
import tempfile
from pathlib import Path
from typing import Any

from lsp_tests.clients import Editor, Units
from protocols import TOP

WORDS = ["if", "else", "while", "return", "int", "register", "for", "break", "main", "scan", "drive", "cannon", "damage", "a", "b", "angle",
         "range", "f", "0", "7", "90", "2147483648", "(", ")", "{", "}", ";", ";", ",", "=", "==", "+", "-", "*", "<", "&&", "++", "+=",
         "/* ", " */", "//", "#", "\"", "ä", "😀", "\n", "\n", "\r\n", "\r", " ", "\t", "x" * 32]
ROBOTS = sorted((TOP / "robots").glob("*.r"))
# A line on a fault or a warning.
LINE = re.compile(r":(\d+):(\d+): (warning: )?(.*)")


def source(draw: random.Random) -> str:
    """A sample, a part of one, or words."""
    if draw.random() < 0.7:
        text = draw.choice(ROBOTS).read_text(encoding="utf-8")
        return text if draw.random() < 0.7 else text[: draw.randrange(len(text))]
    return words(draw, draw.randrange(60))


def words(draw: random.Random, count: int) -> str:
    return "".join(draw.choice(WORDS) + draw.choice(["", " "]) for _ in range(count))


def change(draw: random.Random, text: Units) -> Any:
    """Changes a text; answers the change as the protocol has it: of a range, seldom of all."""
    if draw.random() < 0.03:
        whole = source(draw)
        text.replace(0, len(text.units), whole)
        return {"text": whole}
    size = len(text.units)
    first = draw.randint(0, size)
    last = min(size, first + draw.choice([0, 0, 0, 1, 1, 2, 5, 30]))
    while not text.is_apart(first):
        first -= 1
    while not text.is_apart(last):
        last += 1
    new = words(draw, draw.choice([0, 1, 1, 1, 2, 4]))
    it = {"range": {"start": text.position(first), "end": text.position(last)}, "text": new}
    text.replace(first, last, new)
    return it


def offset(content: bytes, line: int, column: int) -> int:
    """The offset of a position as the programs count: lines end in LF, columns are bytes from 1."""
    start = 0
    for _ in range(line - 1):
        start = content.index(b"\n", start) + 1
    return start + column - 1


def wanted(why: str, folder: str, text: Units) -> list[Any]:
    """What `crobots-why` says of a text: where in the editor's positions, how severe, and the first line."""
    content = text.text().encode("utf-8", "surrogatepass")
    path = os.path.join(folder, "wanted.r")
    Path(path).write_bytes(content)
    ran = subprocess.run([why, "--all", "--lint", path], capture_output=True, check=False)
    told = []
    for row in ran.stdout.decode(errors="replace").splitlines():
        found = LINE.fullmatch(row.removeprefix(path)) if row.startswith(f"{path}:") else None
        if found:
            position = text.position(text.of_bytes(offset(content, int(found[1]), int(found[2]))))
            told.append((position, 2 if found[3] else 1, found[4]))
    return sorted(told, key=key)


def got(diagnostics: list[Any]) -> list[Any]:
    """What was published, in the same form."""
    return sorted(((it["range"]["start"], it["severity"], it["message"].split("\n")[0]) for it in diagnostics), key=key)


def first_fault(why: str, folder: str, content: bytes) -> tuple[int, str] | None:
    """The first fault of a text as `crobots-why` says it: how many bytes stand from its token on, and what it is."""
    path = os.path.join(folder, "mended.r")
    Path(path).write_bytes(content)
    ran = subprocess.run([why, path], capture_output=True, check=False)
    found = LINE.fullmatch(ran.stdout.decode(errors="replace").partition("\n")[0].removeprefix(path))
    return (len(content) - offset(content, int(found[1]), int(found[2])), found[4]) if found else None


def gets_further(before: tuple[int, str] | None, after: tuple[int, str] | None) -> bool:
    """Whether a text with a fix compiles, or each of its tokens fits, or its first fault stands nearer to the end."""
    if after is None or before is None:
        return after is None
    lacks = [what in ("function not defined", "no main function") for _, what in (before, after)]
    return after[0] < before[0] and lacks[0] <= lacks[1] or lacks == [False, True]


def fixes_in_vain(editor: Editor, uri: str, why: str, folder: str, text: Units) -> list[str]:
    """The fixes of the first fault, or of warnings about a text without one, with which it gets no further."""
    end = text.position(len(text.units))
    params = {"textDocument": {"uri": uri}, "range": {"start": {"line": 0, "character": 0}, "end": end}, "context": {"diagnostics": []}}
    content, wrong = text.text().encode("utf-8", "surrogatepass"), []
    for action in editor.ask("textDocument/codeAction", params)["result"][:1]:
        edit, mended = action["edit"]["changes"][uri][0], Units(text.text())
        mended.replace(*(text.place(edit["range"][name]) for name in ("start", "end")), edit["newText"])
        before, after = (first_fault(why, folder, it) for it in (content, mended.text().encode("utf-8", "surrogatepass")))
        told = action["diagnostics"][0]
        if before and told["severity"] == 1 and told["range"]["start"] != text.position(text.of_bytes(len(content) - before[0])):
            # of a later fault, in what is left when the part with the first one is left out
            continue
        wrong += [] if gets_further(before, after) else [f"{action['title']}: {before}, and then {after}, of {text.text()!r}"[:3000]]
    return wrong


def key(it: Any) -> tuple[int, int, int, str]:
    position, severity, message = it
    return position["line"], position["character"], severity, message


def outside(diagnostics: list[Any], text: Units) -> list[Any]:
    """Ranges that aren't in a text, or end before they begin."""
    end = text.position(len(text.units))
    last = (end["line"], end["character"])
    pairs = [((it["range"]["start"]["line"], it["range"]["start"]["character"]), (it["range"]["end"]["line"], it["range"]["end"]["character"]))
             for it in diagnostics]
    return [it for it in pairs if not (0, 0) <= it[0] <= it[1] <= last]


def tried(editor: Editor, why: str, folder: str, seed: int, count: int) -> list[str]:
    """What is wrong with a number of edits of random sources: each source has up to ten."""
    draw, wrong, version = random.Random(seed), [], 0
    folder = tempfile.mkdtemp(dir=folder)
    uri, text = "file:///gone.r", Units("")
    for number in range(count):
        version += 1
        if number % 10 == 0:
            uri, text = f"file:///robots/r%20{number}.r", Units(source(draw))
            editor.open(uri, text.text(), version)
        else:
            editor.change(uri, version, [change(draw, text) for _ in range(draw.choice([1, 1, 2, 3]))])
        diagnostics = editor.diagnostics(uri)
        expected, found = wanted(why, folder, text), got(diagnostics)
        if expected != found or outside(diagnostics, text):
            wrong.append(f"seed {seed}, edit {number}: {found}, not {expected}, of {text.text()!r}"[:3000])
        wrong += fixes_in_vain(editor, uri, why, folder, text)
        if number % 10 == 9:
            editor.tell("textDocument/didClose", {"textDocument": {"uri": uri}})
    return wrong
