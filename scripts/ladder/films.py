"""Pages that play matches: made when they are asked for, some at a time, and kept."""

import contextlib
import os
import threading

from leagues import seasons
from leagues.entries import source
from leagues.naming import names
from leagues.schema import DAMAGE
from leagues.store import Store
from sites.facts import Battle, Seat, Settings
from sites.films import before_all, film, order
from sites.markup import tag
from tools.output import replaced

from .judging import limiting
from .live import folder_of

FOLDER = "replays"
AT_A_TIME, KEPT = 2, 400
# What makes a film keeps what is said meanwhile in a file.
BLOCKS = 1 << 16
# What lets a film begin by itself: on the wall nobody presses a button.
PLAYING = b"""<script>
const waiting = setInterval(() => {
    if (!globalThis.player) return;
    clearInterval(waiting);
    globalThis.player.toggle();
}, 100);
</script>
"""
turns = threading.BoundedSemaphore(AT_A_TIME)


def page(store: Store, seating: int, number: int) -> bytes | None:
    """The page of a match that was played in the season; nothing if there is none, or `crobots-trace` isn't there."""
    season = seasons.season(store)
    battle = played(store, season, seating, number)
    if battle is None:
        return None
    path = os.path.join(folder_of(store.folder), FOLDER, f"{seating}-{number}.html")
    with contextlib.suppress(OSError), open(path, "rb") as file:
        return file.read()
    with turns:
        rules = season.rules
        hashes = store.one("SELECT hashes FROM seating WHERE number = ?", seating)[0].split(",")
        called = [seat.robot for seat in battle.seats]
        made = film(order(Settings(rules.matches, rules.cycles, rules.seed, rules.profile), battle,
                          [(name, source(store, sha256)) for name, sha256 in zip(called, hashes)]), limiting(BLOCKS))
    if made:
        keep(path, made)
    return made or None


def shown(made: bytes, table: str, is_playing: bool) -> bytes:
    """A page of a match as the ladder shows it: it leads to the table, or it begins by itself and leads nowhere."""
    if is_playing:
        return made + PLAYING
    return before_all(made, tag("nav", tag("a", "Table", href=table)).encode() + b"\n")


def played(store: Store, season: seasons.Season, seating: int, number: int) -> Battle | None:
    """A match of the season's robots as they are now."""
    rules = season.rules
    row = store.one(f"SELECT hashes, seed, battle.cycles, {DAMAGE} FROM battle JOIN seating ON seating.number = seating "
                    "WHERE seating = ? AND battle.number = ? AND seating.cycles = ? AND profile = ? AND program = ?",
                    seating, number, rules.cycles, rules.profile, rules.program)
    if not row:
        return None
    hashes, seed, cycles, *damage = row
    called = names(store)
    by_hash = {entrant.sha256: called.get(entrant.robot, entrant.robot) for entrant in seasons.field(store, season).robots}
    seats = [Seat(by_hash.get(sha256, "robot"), hurt) for sha256, hurt in zip(hashes.split(","), damage)]
    return Battle(tuple(seats), number, int(seed), cycles)


def keep(path: str, made: bytes) -> None:
    """Keeps a page, and removes the oldest ones if there are too many."""
    folder = os.path.dirname(path)
    with contextlib.suppress(OSError):
        os.makedirs(folder, exist_ok=True)
        replaced(path, made)
        found = sorted((file for file in os.scandir(folder) if file.name.endswith(".html")), key=lambda file: file.stat().st_mtime)
        for file in found[:-KEPT]:
            os.unlink(file.path)
