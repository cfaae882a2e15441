"""Edits that are tried in one check: which may be, and which of them the prover refused in it.

A function is proved from its own body and from what the functions that it calls promise. So where each edit changes bodies
alone, and those of other functions than the others do, what the prover says of a function is about the one edit of it."""

from __future__ import annotations

import re
from dataclasses import dataclass
from pathlib import Path

import ledgers
import surfaces

CYCLE = re.compile(r"\s*#\[cycle\((\w+)\)\]")
IMPL = re.compile(r"impl\b(?:<.*?>)? (?:(?:\w+::)*(\w+)(?:<.*>)? for )?(\w+)")
NAME = re.compile(r"\bfn (\w+)")
# a goal that the prover finds no proof of, and an error in a proof; none that only says that a name or another proof is gone
GOAL = re.compile(r"note: (src/\S+?):(\d+):(\d+): (it is not proved .*)")
GONE = r"has no field|is not in scope|has no `|was not admitted|was rejected|\(nearest: "
ERROR = re.compile(rf"(?:\./)?(proofs/\S+)/\w+\.antt:\d+:\d+: error: (?!.*(?:{GONE}))(.*)")
# What a goal says that comes last in a body, though its place is the function's head.
RETURNS = "what the function ensures holds when it returns"
# Why an edit is refused of which the prover names no goal.
NO_GOAL = "the crate is not proved with it"


@dataclass(frozen=True)
class Function:
    """A function with a body."""

    path: str  # its file
    lines: range  # those of the function, from 1, with its attributes
    proof: str  # the end of its proof's folder: its type or module, and its name; functions of a cycle of calls have one proof


@dataclass(frozen=True)
class Change:
    """A change of a file of code within a body."""

    path: str
    at: int
    old: str
    new: str


@dataclass(frozen=True)
class Edit:
    """An edit of bodies alone."""

    name: str
    changes: tuple[Change, ...]
    functions: frozenset[Function]

    def proofs(self) -> set[str]:
        """The proofs of its functions."""
        return {it.proof for it in self.functions}


def read(edit: Path) -> Edit | None:
    """An edit that changes nothing but bodies; none if it changes more."""
    crate, changes, functions = edit.parent.parent, list[Change](), set[Function]()
    for path, old, new in ledgers.pairs(edit):
        text = (crate / path).read_text(encoding="utf-8") if (crate / path).is_file() else ""
        found = function(crate.name, path, text, text.find(old), old) if text.count(old) == 1 else None
        if found is None:
            return None
        changes.append(Change(path, text.find(old), old, new))
        functions.add(found)
    spans = sorted((it.path, it.at, it.at + len(it.old)) for it in changes)
    is_apart = all(one[0] != next_one[0] or one[2] <= next_one[1] for one, next_one in zip(spans, spans[1:]))
    return Edit(edit.name, tuple(changes), frozenset(functions)) if is_apart else None


def function(crate: str, path: str, text: str, at: int, old: str) -> Function | None:
    """The function in whose body a text stands."""
    if not path.startswith("src/"):
        return None
    first, last = text.count("\n", 0, at), text.count("\n", 0, at + len(old))
    around = [it for it in surfaces.bodies(text) if it[1] <= first and last < it[2] - 1]
    return described(path, text.split("\n"), around[-1][0], around[-1][2]) if around else None


def described(path: str, lines: list[str], head: int, end: int) -> Function:
    """The function whose head is in this line, and which ends before that one."""
    owner = path.removesuffix(".rt").removesuffix("/mod").rpartition("/")[2]
    above = next((line for line in reversed(lines[:head]) if line.strip() and not line.startswith(" ")), "")
    if lines[head].startswith(" ") and (block := IMPL.match(above)):
        owner = f"{block[2]}{block[1] or ''}"
    name = NAME.search(lines[head])
    own = name[1] if name else ""
    first = head
    while first and lines[first - 1].strip().startswith(("#[", "//")):
        first -= 1
        if cycle := CYCLE.match(lines[first]):
            own = f"+{cycle[1]}"
    return Function(path, range(first + 1, end + 1), f"{owner}/{own}")


def together(edits: list[Edit], are_apart: bool = False) -> list[list[Edit]]:
    """The edits in batches: no two of a batch change one function, nor, if they are to be apart, functions that are proved together."""
    batches: list[tuple[list[Edit], set[object]]] = []
    for edit in edits:
        own: set[object] = set(edit.proofs() if are_apart else edit.functions)
        fits = (it for it in batches if not own & it[1])
        batch = next(fits, None)
        if batch is None:
            batches.append(([edit], own))
        else:
            batch[0].append(edit)
            batch[1].update(own)
    return [batch for batch, _ in batches]


def edited(texts: dict[str, str], edits: list[Edit]) -> dict[str, str]:
    """The files that edits change, as they are then."""
    changes = sorted((it for edit in edits for it in edit.changes), key=lambda it: (it.path, -it.at))
    found: dict[str, str] = {}
    for it in changes:
        text = found.get(it.path, texts[it.path])
        found[it.path] = text[:it.at] + it.new + text[it.at + len(it.old):]
    return found


@dataclass(frozen=True, order=True)
class Goal:
    """A goal that isn't proved, by its place in a file of code."""

    path: str
    line: int
    column: int
    text: str


def refused(edits: list[Edit], said: str) -> dict[str, str]:
    """The names of the edits of a batch of which a check said that a goal of one of their functions isn't proved, and for each why:
    the first such function by its name, and the first goal of it.

    An error in a proof counts too, if no other edit of the batch is of functions with this proof."""
    goals, errors = not_proved(said)
    errors = {proof: why for proof, why in errors.items() if sum(proof in edit.proofs() for edit in edits) == 1}
    found: dict[str, str] = {}
    for edit in edits:
        for it in sorted(edit.functions, key=lambda it: it.proof):
            own = [goal for goal in goals if goal.path == it.path and goal.line in it.lines]
            if own or it.proof in errors:
                found.setdefault(edit.name, f"{it.proof}: {own[0].text if own else errors[it.proof]}")
    return found


def not_proved(said: str) -> tuple[list[Goal], dict[str, str]]:
    """What a check said isn't proved: the goals in the order of the code, and by its proof each error in one. Nothing if all is proved."""
    lines = said.split("\n")
    if not any(line.startswith("logic=not-proved") for line in lines):
        return [], {}
    goals = sorted((Goal(it[1], int(it[2]), int(it[3]), it[4]) for line in lines if (it := GOAL.match(line))), key=place)
    errors: dict[str, str] = {}
    for line in lines:
        if it := ERROR.match(line):
            errors.setdefault("/".join(it[1].split("/")[-2:]), it[2])
    return goals, errors


def place(goal: Goal) -> tuple[bool, Goal]:
    """Where a goal stands among others: those of calls and loops first, and then those of what is returned."""
    return RETURNS in goal.text, goal


def why_refused(edit: Path, texts: dict[str, str], said: str) -> str:
    """Why an edit is refused that was tried alone, by what a check says of the crate with these texts: the first goal, and its function."""
    goals, errors = not_proved(said)
    for goal in goals:
        found = function_at(goal.path, texts.get(goal.path) or (edit.parent.parent / goal.path).read_text(encoding="utf-8"), goal.line)
        return f"{found.proof if found else goal.path}: {goal.text}"
    return next((f"{proof}: {why}" for proof, why in sorted(errors.items())), NO_GOAL)


def function_at(path: str, text: str, line: int) -> Function | None:
    """The function to which a line belongs: its body, or its head."""
    around = [it for it in surfaces.bodies(text) if it[0] < line <= it[2]]
    return described(path, text.split("\n"), around[-1][0], around[-1][2]) if around else None
