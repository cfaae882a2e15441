"""Tests of the size of sites: of 300 robots that all play each other, and what is written when little has changed."""

from __future__ import annotations

import os
import subprocess
import sys
import tempfile
from dataclasses import replace
from typing import Iterator

from results.scores import Score
from results.standings import Standing
from sites.facts import BySeat, Notable, Robot, Series
from sites.publishing import publish

from . import made
from .pages import many
from .reading import files
from .writing import state

Results = Iterator[tuple[str, bool]]
HERE = os.path.dirname(os.path.abspath(__file__))
ROBOTS = 300
# What a site of so many robots may have at most: files, and megabytes; and megabytes of memory while it is written.
FILES, SIZE, MEMORY = 2000, 60, 200
# Publishes a large site, and says how much memory that took at most.
WRITER = """
import resource, sys
sys.dont_write_bytecode = True
sys.path[:0] = sys.argv[2:]
from site_tests import sizes
sizes.publish_large(sys.argv[1])
print(resource.getrusage(resource.RUSAGE_SELF).ru_maxrss)
"""


def results() -> Results:
    """Each test with whether it passed."""
    with tempfile.TemporaryDirectory() as place:
        yield from large(os.path.join(place, "large"))
        yield from changed(os.path.join(place, "changed"))
        yield from too_many(os.path.join(place, "many"))


def publish_large(folder: str) -> None:
    """Publishes a site of many robots, each pair of which has results by seat and four matches."""
    few = many(ROBOTS)
    what = ("closest", "shortest", "longest", "greatest upset")
    pairs = tuple(replace(it, seats=(BySeat(1, 2, Score(4, 0, 1, 0), (Series(2**64 - 1 - at, 1, 5),)),
                                     BySeat(2, 1, Score(2, 1, 2, 1), (Series(2**63 - 1 - at, 1, 5),))), notable=tuple(
        Notable(kind, made.battle(it.one, it.other, 40, 100, 1000 * at + number)) for number, kind in enumerate(what, 1)))
        for at, it in enumerate(few.pairs))
    publish(replace(few, pairs=pairs), folder)


def large(folder: str) -> Results:
    """Files, bytes and memory."""
    paths = [os.path.dirname(HERE), os.path.join(HERE, "..", "..", "scripts")]
    ran = subprocess.run([sys.executable, "-c", WRITER, folder, *paths], capture_output=True, text=True, check=True)
    there = files(folder)
    size = sum(os.path.getsize(os.path.join(folder, it)) for it in there) / 1e6
    memory = int(ran.stdout) / 1e3
    yield f"{ROBOTS} robots have {len(there)} files", len(there) < FILES
    yield f"{ROBOTS} robots have {size:.0f} MB", size < SIZE
    yield f"{ROBOTS} robots take {memory:.0f} MB of memory", memory < MEMORY


def changed(folder: str) -> Results:
    """A robot's data don't depend on the table, nor on other robots' matches: those files alone change whose robots played."""
    facts = many(20)
    publish(facts, folder)
    before = state(folder)
    played = tuple(replace(it, score=Score(6, 0, 4)) if {it.one, it.other} == {"3.r", "7.r"} else it for it in facts.pairs)
    standings = (facts.standings[3], *facts.standings[:3], *facts.standings[4:])
    publish(replace(facts, pairs=played, standings=standings, day="2026-11-29"), folder)
    after = state(folder)
    other = {it for it in after if after[it] != before[it]}
    yield f"data that changed {other}", {it for it in other if it.startswith("data/")} == {"data/3.r.js", "data/7.r.js"}
    yield "the order of the table", "robots.js" in other and {*after} == {*before}


def too_many(folder: str) -> Results:
    """The map has room for some hundred robots, and says so."""
    facts = many(2)
    robots = [Robot(f"{at}.r", f"{at}.r", ()) for at in range(450)]
    standings: list[Standing] = [replace(facts.standings[0], robot=it.id) for it in robots]
    publish(replace(facts, robots=tuple(robots), standings=tuple(standings)), folder)
    with open(os.path.join(folder, "map.html"), encoding="utf-8") as file:
        text = file.read()
    yield "a map of the first robots", text.count("<tr>") == 401 and "The map has the first 400 of 450 robots." in text
