"""The crates of this repository, as crates.txt lists them."""

from pathlib import Path
from typing import Collection

TOP = Path(__file__).resolve().parent.parent.parent


def rows(top: Path = TOP) -> dict[str, str]:
    """The line of each crate, by its name."""
    lines = (top / "crates.txt").read_text(encoding="utf-8").splitlines(keepends=True)
    return {words[0]: line for line in lines
            if (words := line.partition("#")[0].partition(":")[0].split()) and ":" in line.partition("#")[0]}


def text(names: Collection[str], top: Path = TOP) -> str:
    """What crates.txt has of some crates."""
    return "".join(line for name, line in rows(top).items() if name in names)


def libraries(name: str, top: Path = TOP) -> list[str]:
    """The libraries that a crate's line names, those of the kit too."""
    return rows(top)[name].partition("#")[0].partition(":")[2].split()


def listed(top: Path = TOP) -> dict[str, list[str]]:
    """The crates, and those of this repository that each of them names."""
    lines = rows(top)
    return {name: [library for library in libraries(name, top) if library in lines] for name in lines}


def needed(names: list[str], top: Path = TOP) -> dict[str, list[str]]:
    """These crates and all that they stand on, with what each of them names."""
    below, found, waiting = listed(top), dict[str, list[str]](), [*names]
    while waiting:
        name = waiting.pop()
        if name not in found:
            found[name] = below[name]
            waiting += below[name]
    return found


def below(name: str, top: Path = TOP) -> set[str]:
    """The crates that one stands on, directly or through others."""
    return set(needed([name], top)) - {name}
