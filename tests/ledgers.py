"""The ledger of further edits: for each crate, of which contracts and edits it is known that the prover refuses each edit.

crates/NAME/must-fail has the edits that each gate tries. crates/NAME/further-edits has all others, which the gate passes
over. The file further-edits.tried has a line a crate that has such edits:

    NAME DIGEST DAY REFUSED SECONDS GOALS

REFUSED is how many edits were refused on that DAY, in a run of SECONDS seconds. The digest is of all that decides
whether an edit is refused: the edits themselves with their names, the crate's definitions, its code without bodies, and
what the crates below define, and promise of the functions that it may call. So if a contract changes, the line is out of
date, and the edits are to be tried again; if only bodies and proofs do, it isn't. A line NAME DIGEST untried says of such
a crate that nobody did so yet: it is skipped, with a line that `tests/run` counts.

Why an edit was refused stands in its own file, in a line that the kit passes over and the digest leaves out:

    refused: FUNCTION: GOAL

GOALS is how many edits have that line. It is lacking where the edits were tried before such lines were written."""

from __future__ import annotations

import hashlib
import sys
from dataclasses import dataclass
from pathlib import Path

sys.path.insert(0, str(Path(__file__).resolve().parent.parent / "scripts"))
import surfaces  # noqa: E402
from catalog import crates  # noqa: E402

MOST_EDITS, MOST_EDITS_OF_A_CRATE = 120, 12
TRIED = "further-edits.tried"
GOAL = "refused: "
# The most letters of a reason: what follows them are the terms of a goal.
MOST_REASON = 240


@dataclass(frozen=True)
class Line:
    """A line of the ledger."""

    crate: str
    digest: str
    day: str
    refused: int
    seconds: int
    goals: int | None = None

    def text(self) -> str:
        goals = "" if self.goals is None else f" {self.goals}"
        return f"{self.crate} {self.digest} {self.day} {self.refused} {self.seconds}{goals}"


class Ledger:
    """The ledger of a repository, and what it is to be compared with."""

    def __init__(self, top: Path) -> None:
        self._top = top
        self._below = crates.listed(top)

    def crates(self) -> list[str]:
        """The crates that have further edits."""
        return [name for name in sorted(self._below) if self.edits(name)]

    def edits(self, crate: str) -> list[Path]:
        """A crate's further edits."""
        return sorted((self._top / "crates" / crate / "further-edits").glob("*.edit"))

    def needed(self, names: list[str]) -> set[str]:
        """These crates, and those that they stand on, directly or through others."""
        return set(crates.needed(names, self._top))

    def digest(self, crate: str) -> str:
        """What decides whether a crate's further edits are refused."""
        found = hashlib.sha256()
        for edit in self.edits(crate):
            found.update(f"{edit.name}\n{change(edit)}".encode())
        below = sorted(self.needed([crate]) - {crate})
        known = surfaces.constants([self._top / "crates" / name for name in (crate, *below)])
        found.update(surfaces.read(self._top / "crates" / crate, known).encode())
        called = surfaces.words(self._top / "crates" / crate)
        for name in below:
            found.update(surfaces.read(self._top / "crates" / name, known, called).encode())
        return found.hexdigest()[:32]

    def lines(self) -> dict[str, Line]:
        """The ledger's lines by their crates; a line that is none is passed over."""
        path = self._top / TRIED
        rows = [row.split() for row in path.read_text(encoding="utf-8").splitlines()] if path.exists() else []
        return {row[0]: Line(row[0], row[1], row[2], *map(int, row[3:]))
                for row in rows if len(row) in (5, 6) and all(it.isdigit() for it in row[3:])}

    def is_untried(self, crate: str) -> bool:
        """Reports whether the ledger says that a crate's further edits weren't tried under its contracts of today."""
        return [crate, self.digest(crate), "untried"] in [row.split() for row in self._rows()]

    def is_tried(self, crate: str) -> bool:
        """Reports whether each further edit of a crate was refused under its contracts of today."""
        line = self.lines().get(crate)
        return line is not None and line.refused == len(self.edits(crate)) and line.digest == self.digest(crate)

    def without_goals(self, crate: str) -> list[Path]:
        """A crate's further edits that don't say why they were refused, though its line says that they do."""
        line = self.lines().get(crate)
        return [it for it in self.edits(crate) if not goal(it)] if line is not None and line.goals is not None else []

    def write(self, line: Line) -> None:
        """Puts a line in the place of the one that the crate had; lines of crates without such edits go."""
        lines = {**self.lines(), line.crate: line}
        open_ones = {row.split()[0]: row for row in self._rows() if row.endswith(" untried") and row.split()[0] not in lines}
        kept = [lines[name].text() if name in lines else open_ones[name] for name in self.crates() if name in lines or name in open_ones]
        (self._top / TRIED).write_text("".join(f"{it}\n" for it in kept), encoding="utf-8")

    def _rows(self) -> list[str]:
        path = self._top / TRIED
        return path.read_text(encoding="utf-8").splitlines() if path.exists() else []


def change(edit: Path) -> str:
    """The text of an edit, without why it was refused."""
    lines = edit.read_text(encoding="utf-8").splitlines(keepends=True)
    return "".join(line for line in lines if not line.startswith(GOAL))


def goal(edit: Path) -> str:
    """Why an edit was refused, if that is written down: the function, and what of it wasn't proved."""
    lines = edit.read_text(encoding="utf-8").splitlines()
    return next((line.removeprefix(GOAL) for line in lines if line.startswith(GOAL)), "")


def write_goal(edit: Path, why: str) -> None:
    """Writes down why an edit was refused."""
    text = change(edit)
    edit.write_text(f"{text}{'' if text.endswith(chr(10)) else chr(10)}{GOAL}{short(why)}\n", encoding="utf-8")


def short(why: str) -> str:
    """A reason, or its beginning up to a blank."""
    return why if len(why) <= MOST_REASON else f"{why[:MOST_REASON + 1].rpartition(' ')[0] or why[:MOST_REASON]} ..."


def pairs(edit: Path) -> tuple[tuple[str, str, str], ...]:
    """The pairs of an edit, in their order: of each its file, its old and its new text."""
    found: list[tuple[str, str, str]] = []
    path, old = "", None
    for line in edit.read_text(encoding="utf-8").split("\n"):
        if line.startswith("file: "):
            path = line.removeprefix("file: ").strip()
        elif line.startswith("old: "):
            old = line.removeprefix("old: ")
        elif line.startswith("new:") and old is not None:
            found.append((path, old, line.removeprefix("new:").removeprefix(" ")))
            old = None
    return tuple(found)


def wrong(top: Path, edit: Path) -> str:
    """What is wrong with an edit: each of its old texts stands once in its file, after the pairs before it; nothing if all is well."""
    try:
        return "" if edited(top, edit) else "it has no old and new text"
    except ValueError as why:
        return str(why)


def edited(top: Path, edit: Path) -> dict[str, str]:
    """The files that an edit changes, as they are then."""
    crate, texts = top / edit.relative_to(top).parent.parent, dict[str, str]()
    for path, old, new in pairs(edit):
        if path not in texts:
            texts[path] = (crate / path).read_text(encoding="utf-8") if (crate / path).is_file() else ""
        if (found := texts[path].count(old)) != 1:
            raise ValueError(f"an old text is in {path} {found} times, and not once")
        texts[path] = texts[path].replace(old, new)
    return texts


def twice(edits: list[Path]) -> list[tuple[Path, Path]]:
    """The edits that make the change of an earlier one of their crate, each after that one."""
    first: dict[tuple[Path, tuple[tuple[str, str, str], ...]], Path] = {}
    found: list[tuple[Path, Path]] = []
    for edit in edits:
        earlier = first.setdefault((edit.parent.parent, pairs(edit)), edit)
        if earlier != edit:
            found.append((earlier, edit))
    return found
