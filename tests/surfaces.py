"""What of a crate decides whether a wrong body is refused: its definitions, and of its code all but the bodies.

A number that gets a name, or another one, decides nothing: each constant stands here as its number, and what a definition imports is
sorted.

`rt fmt` lays the code out, and the gate refuses other layouts: a body begins at the brace that ends a signature, or that
stands alone under its clauses, and it ends at the first brace that stands alone at the function's own indentation."""

from __future__ import annotations

import re
from pathlib import Path
from typing import Iterator

HEAD = re.compile(r"( *)(pub(?:\([a-z]+\))? )?(?:const |unsafe |ghost )*fn (\w+)")
CLAUSE = re.compile(r" *(?:requires|ensures|decreases|where)\b")
# a constant of definitions or of code: its name, and its number
CONSTANT = re.compile(r"^(?:abbrev )?(?:pub )?(\w+) : ℕ(?: *--.*)?\n\1 = (\d+)(?: *--.*)?\n", re.MULTILINE)
CODE_CONSTANT = re.compile(r"^(?:pub(?:\([a-z]+\))? )?const (\w+): \w+ = ([\d_]+);\n", re.MULTILINE)
IMPORT = re.compile(r"^use ([\w.]+)\.\{(.*)\}\n", re.MULTILINE)
# what no contract says: imports of code, attributes, comments, statements of a crate's modules
IMPORTED = re.compile(r" *(?:pub |ghost )?use ")
ASIDE = re.compile(r" *(?://|#!?\[|(?:pub |ghost )?use |(?:pub )?mod )")


def surface(text: str, words: frozenset[str] | None = None) -> str:
    """The text of a file of code without bodies, comments, attributes and imports. With the words of another crate's code: of functions
    only those that it may call."""
    return "\n".join(line for line, name in declared(text.split("\n")) if words is None or name is None or name in words)


def declared(lines: list[str]) -> Iterator[tuple[str, str | None]]:
    """The lines outside of bodies; those of a function's head and clauses with the name by which others call it, '' if they can't.
    Those of a trait have none: an operator or a loop may call them."""
    at = 0
    while at < len(lines):
        head = HEAD.match(lines[at])
        if not head:
            if lines[at].strip() and not ASIDE.match(lines[at]):
                yield lines[at], None
            at = after_import(lines, at)
            continue
        name = None if is_of_trait(lines, at, head[1]) else head[3] if head[2] is not None else ""
        end, begins = ending(lines, at, head[1])
        # whether others can call it decides nothing of its own edits
        yield from ((line.replace(head[2] or "", "", 1), name) for line in lines[at:end])
        at = after_body(lines, end, head[1]) if begins else end


def after_import(lines: list[str], at: int) -> int:
    """The line after this one, and of an import the line after all of it."""
    if IMPORTED.match(lines[at]):
        at = next(end for end in range(at, len(lines)) if lines[end].endswith(";"))
    return at + 1


def bodies(text: str) -> Iterator[tuple[int, int, int]]:
    """The functions of a file of code that have a body: the line of each one's head, its body's first line, and the one after it."""
    lines = text.split("\n")
    for at, line in enumerate(lines):
        if head := HEAD.match(line):
            end, begins = ending(lines, at, head[1])
            if begins:
                yield at, end, after_body(lines, end, head[1])


def is_of_trait(lines: list[str], at: int, indent: str) -> bool:
    """Reports whether a function without `pub` is a trait's, or of an impl of one, so that others can call it."""
    above = (line for line in reversed(lines[:at]) if line.strip() and not line.startswith(indent)) if indent else iter(())
    block = next(above, "")
    return re.match(r"(?:pub )?(?:unsafe )?trait\b|impl\b.* for ", block) is not None


def ending(lines: list[str], at: int, indent: str) -> tuple[int, bool]:
    """Where a function's head with its clauses ends, and whether a body follows there."""
    has_clauses = False
    for end in range(at, len(lines)):
        line = lines[end]
        has_clauses = has_clauses or CLAUSE.match(line) is not None
        if line == f"{indent}{{" or not has_clauses and line.endswith(" {"):
            return end + 1, True
        if line.endswith((";", " {}", "{ }")) and not has_clauses or line == f"{indent}{{}}":
            return end + 1, False
        if has_clauses and end + 1 < len(lines) and is_next(lines[end + 1], indent):
            return end + 1, False
    return len(lines), False


def is_next(line: str, indent: str) -> bool:
    """Reports whether a line is no more of a head: one that isn't deeper than the function, and no body's beginning."""
    return not line.startswith(f"{indent} ") and line != f"{indent}{{" and line != f"{indent}{{}}"


def after_body(lines: list[str], begin: int, indent: str) -> int:
    """The line after the end of a body."""
    return next((at + 1 for at in range(begin, len(lines)) if lines[at] == f"{indent}}}"), len(lines))


def definition(text: str) -> str:
    """A file of definitions without its comments and blank lines."""
    return "\n".join(line for line in text.split("\n") if line.strip() and not line.lstrip().startswith("--"))


def constants(folders: list[Path]) -> dict[str, str]:
    """The constants of these crates, each with its number; none of a name that stands for two numbers."""
    found: dict[str, set[str]] = {}
    for folder in folders:
        for path in (*(folder / "specs").rglob("*.antt"), *(folder / "src").rglob("*.rt")):
            for name, number in (CODE_CONSTANT if path.suffix == ".rt" else CONSTANT).findall(path.read_text(encoding="utf-8")):
                found.setdefault(name, set()).add(number.replace("_", ""))
    return {name: numbers.pop() for name, numbers in found.items() if len(numbers) == 1}


def by_numbers(text: str, known: dict[str, str]) -> str:
    """A text with the number of each constant for its name; the lines that declare and import constants are left out."""
    def hidden(found: re.Match[str]) -> str:
        return "" if found[1] in known else found[0]

    text = CODE_CONSTANT.sub(hidden, CONSTANT.sub(hidden, f"{text}\n"))
    imports = sorted({f"{module}.{name}" for module, names in IMPORT.findall(text) for name in names.split(", ") if name not in known})
    return "\n".join([*imports, re.sub(r"\w+", lambda it: known.get(it[0], it[0]), IMPORT.sub("", text))])


def words(folder: Path) -> frozenset[str]:
    """The words of a crate's code: what it calls is among them."""
    return frozenset(word for path in (folder / "src").rglob("*.rt") for word in re.findall(r"\w+", path.read_text(encoding="utf-8")))


def read(folder: Path, known: dict[str, str], called: frozenset[str] | None = None) -> str:
    """All that a crate promises and defines, in the order of its files; with the words of another crate's code, to that one."""
    said = []
    for path in sorted((folder / "specs").rglob("*.antt")):
        said.append(f"{path.relative_to(folder)}\n{by_numbers(definition(path.read_text(encoding='utf-8')), known)}")
    for path in sorted((folder / "src").rglob("*.rt")):
        if "tests" not in path.relative_to(folder).parts and path.name != "tests.rt":
            said.append(f"{path.relative_to(folder)}\n{by_numbers(surface(path.read_text(encoding='utf-8'), called), known)}")
    return "\n".join(said)
