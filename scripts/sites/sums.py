"""Adds up what `crobots-trace --json` counts of a robot in some matches: its shots, its hits, and what hurt it."""

import json
from collections import Counter

TITLES = {
    "fired": "Shots fired", "hit": "Shots that hit", "took": "Damage to others",
    "shots": "Damage by shots of others", "own": "Damage by its own shots",
    "walls": "Damage by walls", "collisions": "Damage by collisions",
}


def added(objects: str) -> Counter[str]:
    """The sums by what is summed up, of objects of which each is of a match and of one robot."""
    found: Counter[str] = Counter()
    for line in objects.splitlines():
        for robot in json.loads(line)["robots"]:
            by = robot["lost_by_shots_of"]
            own = by[robot["robot"] - 1]
            found.update(fired=robot["fired"], hit=robot["hit"], took=sum(robot["took_from"]), shots=sum(by) - own, own=own,
                         walls=robot["lost_by_walls"], collisions=robot["lost_by_collisions"])
    return found


def matches(objects: str) -> int:
    """How many matches they are of."""
    return objects.count("\n")


def rows(objects: str) -> list[tuple[str, str]]:
    """The sums as rows, a match's mean beside each if there are several."""
    sums, many = added(objects), matches(objects)
    return [(title, told(sums, what, many)) for what, title in TITLES.items() if sums[what] or what in ("fired", "hit")]


def told(sums: Counter[str], what: str, many: int) -> str:
    """A sum in words."""
    unit = " %" if what not in ("fired", "hit") else ""
    part = f" ({100 * sums['hit'] / sums['fired']:.1f} %)" if what == "hit" and sums["fired"] else ""
    if many > 1:
        return f"{sums[what] / many:.1f}{unit} a match{part}"
    return f"{sums[what]:,}{unit}{part}"
