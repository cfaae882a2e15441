"""The seed of a final: it may be drawn while robots are still handed in, and its hash is shown then. So nobody who hands in knows it,
and nobody can choose another one later."""

import hashlib
import secrets
from typing import NamedTuple

from leagues.seasons import Season
from leagues.store import Store
from tools.rules import MOST_SEED


class Drawn(NamedTuple):
    """A seed that was drawn for a final, whether it was announced, and the number of the final's season once that began."""

    number: int
    seed: int
    is_announced: bool
    season: int | None

    @property
    def hash(self) -> str:
        """The SHA-256 of the seed's digits."""
        return hashlib.sha256(str(self.seed).encode()).hexdigest()


def last(store: Store) -> Drawn | None:
    """The seed that was drawn last."""
    row = store.one("SELECT number, seed, announced, season FROM ladder_final ORDER BY number DESC LIMIT 1")
    return Drawn(row[0], int(row[1]), bool(row[2]), row[3]) if row else None


def drawn(store: Store, announced: bool) -> Drawn:
    """The seed of the next final: the one that was announced, or a new one."""
    found = last(store)
    if found is None or found.season is not None:
        store.run("INSERT INTO ladder_final (seed, announced) VALUES (?, ?)", str(secrets.randbelow(MOST_SEED + 1)), announced)
        found = last(store)
    assert found
    return found


def use(store: Store, drawn: Drawn, season: Season) -> None:
    """Makes a season the final with this seed."""
    store.run("UPDATE ladder_final SET season = ? WHERE number = ?", season.number, drawn.number)


def is_final(store: Store, season: Season) -> bool:
    """Whether a season is a final."""
    found = last(store)
    return found is not None and found.season == season.number


def said(store: Store) -> str:
    """What pages say of the seed of the final; nothing if none was drawn."""
    found = last(store)
    if found is None:
        return ""
    if found.season is None:
        return f"The seed of the final is drawn. The SHA-256 of its digits is {found.hash}."
    return f"The seed of the final is {found.seed}." + (f" The SHA-256 of its digits, {found.hash}, was shown before." if found.is_announced else "")
