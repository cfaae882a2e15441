"""The sample robots: where they are, and on which level of the ladder each stands."""

import os
import re

from .faults import Fault, reading

HERE = os.path.dirname(os.path.realpath(__file__))
# The robots' folder in the repository, and where this is installed.
PLACES = (os.path.normpath(os.path.join(HERE, "..", "..", "robots")), os.path.normpath(os.path.join(HERE, "..", "..")))
PAGE = "README.md"
# A row of the ladder: a level, and a robot with a link.
ROW = re.compile(r"^\| (\d+) \| \[(\w+\.r)\]", re.MULTILINE)


def ladder() -> list[tuple[str, int]]:
    """Each sample's path and level, in the order of the ladder."""
    pages = [os.path.join(place, PAGE) for place in PLACES]
    path = next((page for page in pages if os.path.exists(page)), pages[0])
    with reading(path), open(path, encoding="utf-8") as file:
        rows = ROW.findall(file.read())
    return [(os.path.join(os.path.dirname(path), name), int(level)) for level, name in rows]


def of_level(level: int) -> list[str]:
    """The samples of a level."""
    found = [path for path, rung in ladder() if rung == level]
    if not found:
        raise Fault(f"no sample is of level {level}; there are {', '.join(map(str, sorted({rung for _, rung in ladder()})))}")
    return found
