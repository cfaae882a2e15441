"""Robots with the same code: what a source compiles to, without names, and who had it first."""

import os
import subprocess
from concurrent.futures import ThreadPoolExecutor
from typing import Iterable, Iterator, Mapping, NamedTuple, Sequence

from tools.faults import PROGRAM, Fault
from tournaments.programs import Program

from .entries import WITHDRAW, Entry, hashed
from .rules import rules
from .store import Store


class Compiled(NamedTuple):
    """What a source compiles to: the hash of its code, or what the program says of its fault."""

    code: str
    fault: str


def compiled(crobots: str, profile: int, path: str) -> Compiled:
    """Compiles a file."""
    words = [crobots, "-c", f"-p{profile}", "--", path]
    try:
        ran = subprocess.run(words, stdin=subprocess.DEVNULL, capture_output=True, check=False)
    except OSError as why:
        raise Fault(f"{crobots} can't be run: {why.strerror}", PROGRAM) from why
    if ran.returncode not in (0, 1):
        raise Fault(f"{crobots} -c ended with status {ran.returncode}: {os.fsdecode(ran.stderr).strip()}", PROGRAM)
    return Compiled("", os.fsdecode(ran.stderr)) if ran.returncode else Compiled(code_of(ran.stdout.decode("utf-8", "replace")), "")


def code_of(listing: str) -> str:
    """The hash of a listing without its names: of functions their places and sizes stay, and all instructions."""
    head, _, code = listing.partition("\nCode ")
    # 'Function 1 NAME vars 2 at 3', as docs/listing.md has it
    functions = [line.split(" ", 3)[3] for line in head.split("\n") if line.startswith("Function ")]
    return hashed(f"{functions} {code}".encode())


def codes(store: Store, profile: int, by: Program, sources: Mapping[str, str], jobs: int) -> dict[str, str]:
    """The code of each source by a program, by the hashes of their bytes and their files. What was compiled before is kept."""
    known = dict(store.rows("SELECT sha256, hash FROM code WHERE profile = ? AND program = ?", profile, by.sha256))
    new = [source for source in sources if source not in known]
    with ThreadPoolExecutor(jobs) as pool:
        found = [*pool.map(lambda sha256: compiled(by.path, profile, sources[sha256]), new)]
    rows = [(sha256, profile, by.sha256, answer.code, store.next()) for sha256, answer in zip(new, found) if answer.code]
    store.database.executemany("INSERT INTO code VALUES (?, ?, ?, ?, ?)", rows)
    return known | {sha256: code for sha256, _, _, code, _ in rows}


def last_codes(store: Store, profile: int) -> dict[str, str]:
    """The code of each source by the program that compiled one last; of those that it didn't compile none."""
    last = store.one("SELECT program FROM code WHERE profile = ? ORDER BY publication DESC, program LIMIT 1", profile)
    return dict(store.rows("SELECT sha256, hash FROM code WHERE profile = ? AND program = ?", profile, *last)) if last else {}


def otherwise(store: Store, by: Program, folder: str) -> Iterator[str]:
    """Sources, as files in a folder, that compile to something else than is kept of them, if it is by this program."""
    profiles = {rules(text).profile for text, in store.rows("SELECT rules FROM season UNION SELECT rules FROM ruling WHERE rules != ''")}
    for sha256, profile, program, code in store.rows("SELECT sha256, profile, program, hash FROM code ORDER BY 1, 2, 3"):
        if profile not in profiles:
            yield f"no season has the profile {profile}, by which {sha256} was compiled"
        elif program == by.sha256 and compiled(by.path, profile, os.path.join(folder, sha256)).code != code:
            yield f"the source {sha256} compiles to other code than the archive has of it"


def copied(happened: Sequence[Entry], authors: Mapping[str, str], code: Mapping[str, str]) -> dict[str, str]:
    """The robots whose last code another author's robot had before, each with the first of these."""
    first: dict[str, list[Entry]] = {}
    last: dict[str, Entry] = {}
    for entry in entered(happened):
        last[entry.robot] = entry
        if entry.sha256 in code:
            first.setdefault(code[entry.sha256], []).append(entry)
    found: dict[str, str] = {}
    for robot, own in last.items():
        had = first.get(code.get(own.sha256, ""), [])
        mine = next((entry.number for entry in had if entry.robot == robot), 0)
        others = [entry.robot for entry in had if entry.number < mine and authors[entry.robot] and authors[robot]
                  and authors[entry.robot] != authors[robot]]
        found |= {robot: others[0]} if others else {}
    return found


def entered(happened: Iterable[Entry]) -> Iterable[Entry]:
    """The entries by which robots got bytes."""
    return (entry for entry in happened if entry.what != WITHDRAW)
