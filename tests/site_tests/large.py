"""Large leagues: robots with made sources, whose results are drawn by chance and written into the database, and not played."""

from __future__ import annotations

import os
import random
from dataclasses import replace

from leagues import entries, results, seasons
from leagues.rules import Rules
from leagues.schedules import Schedule
from leagues.seasons import field, season
from leagues.store import made, opened

DAY = "2026-11-02"
PROGRAM = "ab" * 32
ROBOTS = os.path.join(os.path.dirname(os.path.abspath(__file__)), "..", "..", "robots")


def league(folder: str, robots: int, rules: Rules = Rules(), seed: int = 1) -> None:
    """Makes a league in which all has been played."""
    with made(folder) as store, store.change():
        seasons.begin(store, "1", DAY, replace(rules, program=PROGRAM), {})
        for at, source in enumerate(sources(robots)):
            entries.add(store, f"robot-{at + 1:03}", f"Author {at % 50}", source, DAY)
    play(folder, seed)


def sources(robots: int) -> list[bytes]:
    """The sample robots again and again, each time with another comment."""
    names = sorted(name for name in os.listdir(ROBOTS) if name.endswith(".r"))
    samples = []
    for name in names:
        with open(os.path.join(ROBOTS, name), "rb") as file:
            samples.append(file.read())
    return [samples[at % len(samples)] + b"/* %d */\n" % at for at in range(robots)]


def play(folder: str, seed: int = 1) -> None:
    """Draws a result for each match of the season."""
    source = random.Random(seed)
    with opened(folder) as store, store.change():
        it = season(store)
        schedule = Schedule(field(store, it))
        worth = [source.gauss(0, 1) for _ in schedule.keys]
        for group in schedule.groups():
            for seats, drawn in schedule.seatings(group):
                each = range(schedule.settings.each(len(group)))
                found = [ended(source, [worth[at] for at in seats], it.rules.cycles) for _ in each]
                results.keep(store, it.rules, schedule.seated(seats, drawn), 1, ",".join(found), DAY)


def ended(source: random.Random, worth: list[float], limit: int) -> str:
    """How a match ends: the stronger survive more often, and a fifth of all matches goes to the limit."""
    cycles = limit if source.random() < 0.2 else 15 * source.randrange(20, max(limit // 15, 21))
    best = max(range(len(worth)), key=lambda at: worth[at] + source.gauss(0, 1))
    damage = [100 if cycles < limit and at != best else source.randrange(100) for at in range(len(worth))]
    return ":".join(map(str, (cycles, *damage)))
