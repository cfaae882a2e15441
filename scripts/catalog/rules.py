"""The rules of the game as `crates/rules` writes them, and the files that are made of them: what stands there was compared with the
program by the gate, so no program is needed to read it."""

import json
from pathlib import Path
from typing import Any, Iterable, Iterator, Sequence

TOP = Path(__file__).resolve().parent.parent.parent
ROWS = TOP / "crates" / "rules" / "stdout"
PYTHON, PAGE = Path("scripts", "tools", "rules.py"), Path("web", "limits.js")
VIM, CODE = Path("share", "vim", "syntax", "crobots.vim"), Path("share", "vscode", "syntaxes", "crobots.tmLanguage.json")
LANGUAGE, MACHINE = Path("docs", "language.md"), Path("docs", "machine.md")
BEGIN, END = "// made by dev/rules from here\n", "// to here\n"
# The heads of tables in pages.
HEADS = {name: f"{head}\n" for name, head in {
    "intrinsics": "| intrinsic functions | arguments used |\n|---|---|", "limits": "| what | limit |\n|---|---|",
    "profiles": "| | first profile | second profile |\n|---|---|---|"}.items()}
# How both editors call the kinds of words, but for keywords in Vim, which have a group each.
GROUPS = {"type": "Type", "intrinsic": "Intrinsic", "reserved": "Reserved"}
SCOPES = {"keyword": "keyword.control", "type": "storage.type", "reserved": "invalid.illegal.reserved", "intrinsic": "support.function"}


def rows(kind: str, text: str = "") -> list[dict[str, Any]]:
    """The rows of a kind, in their order: of a text, or of the file."""
    each = map(json.loads, (text or ROWS.read_text(encoding="ascii")).splitlines())
    return [row for row in each if row.pop("row") == kind]


def numbers(kind: str) -> dict[str, int]:
    """The numbers of the only row of a kind, by their names."""
    row, = rows(kind)
    return row


def diagnostics() -> list[str]:
    """The texts of all diagnostics, in their order."""
    return [row["text"] for row in rows("diagnostic")]


def words() -> dict[str, list[str]]:
    """The words that have a meaning by themselves, by their kinds."""
    found: dict[str, list[str]] = {"keyword": [], "type": [], "reserved": [], "intrinsic": [row["name"] for row in rows("intrinsic")]}
    for row in rows("word"):
        found[row["is"]].append(row["text"])
    return found


def made() -> dict[Path, str]:
    """The files that are made of the rules, each with its text, by their paths below the top."""
    known = words()
    return {
        PYTHON: for_scripts(), PAGE: replaced(PAGE, {BEGIN: for_page()}, END),
        VIM: replaced(VIM, {f"syntax keyword crobots{group} ": " ".join(known[kind]) for kind, group in GROUPS.items()}),
        LANGUAGE: replaced(LANGUAGE, {HEADS["intrinsics"]: table(by_arguments()), HEADS["limits"]: table(limits())}, "\n\n"),
        MACHINE: replaced(MACHINE, {HEADS["profiles"]: table(of_profiles())}, "\n\n"),
        CODE: replaced(CODE, {f'"name": "{scope}.crobots",\n      "match": "\\\\b(?:': "|".join(known[kind]) + ')\\\\b"' for kind, scope in SCOPES.items()})}


def replaced(path: Path, texts: dict[str, str], end: str = "\n") -> str:
    """A file with other texts behind these, up to the end of each."""
    text = (TOP / path).read_text(encoding="utf-8")
    for begin, other in texts.items():
        before, rest = text.split(begin)
        text = f"{before}{begin}{other}{end}{rest.partition(end)[2]}"
    return text


def table(rows: Iterable[Sequence[str]]) -> str:
    """The rows of a table of a page."""
    return "\n".join(f"| {' | '.join(row)} |" for row in rows)


def by_arguments() -> Iterator[tuple[str, str]]:
    """The intrinsic functions by how many arguments they use, most first."""
    found = rows("intrinsic")
    for count in sorted({row["arguments"] for row in found}, reverse=True):
        yield " ".join(f"`{row['name']}`" for row in found if row["arguments"] == count), str(count)


def limits() -> list[tuple[str, str]]:
    """The limits of a source."""
    most = numbers("most")
    return [("source", f"{most['source_bytes']:,} bytes"), ("name", f"{most['name_bytes']} bytes"),
            ("externals; variables of a function; functions", f"{most['names']} each"), ("constructs nested in one another", str(most["nested"])),
            ("code", "the [profile's](machine.md#the-two-profiles) instructions")]


def of_profiles() -> list[tuple[str, ...]]:
    """What each language profile has room for."""
    said = {"instructions": "most instructions of a program, the NOP included", "words": "words of a stack", "frames": "most open frames"}
    return [(what, *(f"{profile[name]:,}" for profile in rows("profile"))) for name, what in said.items()]


def for_scripts() -> str:
    """The module of the scripts with all numbers and words."""
    each = {f"MOST_{name}": value for name, value in numbers("most").items()}
    each |= {f"{name}_DEFAULT": value for name, value in numbers("default").items()} | numbers("field")
    lines = (f"{name.upper()} = {value}" for name, value in each.items())
    head = '"""The rules of the game: numbers, and words. Made by dev/rules of what crates/rules writes, and not changed by hand."""'
    rest = (f'    "{kind}": "{" ".join(several)}",' for kind, several in words().items())
    return "\n".join((head, "", *lines, "WORDS = {", *rest, "}", ""))


def for_page() -> str:
    """What the page has of the limits of a run, and of one of which nothing is said."""
    most, usual, field = numbers("most"), numbers("default"), numbers("field")
    return f"""/** The limits of a run. */
export const Limits = Object.freeze({{
    robots: {most["files"]},
    matches: {most["matches"]},
    cycles: {most["cycles"]},
    first: {most["first"]},
    profile: {most["profile"]},
    seed: {most["seed"]}n,
    // one more than a source may have: of a longer one this much is enough to be refused
    sourceBytes: {most["source_bytes"] + 1},
}});

/** A run of which nothing is said. */
export const Usual = Object.freeze({{
    matches: {usual["matches"]}, limit: {usual["cycles"]}, first: {usual["first"]}, profile: {usual["profile"]}, seed: {usual["seed"]}n,
}});

/** The damage at which a robot is dead. */
export const DEADLY = {field["deadly"]};
"""
