"""The terms of a hand-in: how much an author may hand in, when, and what others see of it."""

import datetime
import json
from dataclasses import asdict, dataclass, fields

from leagues.days import today
from leagues.store import Store

from .schema import is_ready

ALL, AUTHOR = "all", "author"
# No ladder takes a source of more bytes.
SIZE_MAX = 65_536


@dataclass(frozen=True)
class Terms:
    """All terms. A day is written as 2026-11-28; without one there is no such day."""

    robots: int = 3
    versions: int = 20
    size: int = SIZE_MAX
    opens: str = ""
    closes: str = ""
    grace: int = 0
    # how many trials against robots of others an author may have within an hour
    trials: int = 0
    # how many authors may sign up without an invitation
    sign_up: int = 0
    # whether pages say the names of authors, and who may read sources
    names: bool = True
    readers: str = AUTHOR
    # megabytes of the disk that stay free, and that the sources of an author may fill
    floor: int = 100
    quota: int = 20

    def closed(self, day: str) -> str:
        """Why nothing is taken on a day; nothing if it is."""
        if self.opens and day < self.opens:
            return f"the hand-in opens on {self.opens}"
        if self.closes and day > self.last_day():
            return f"the hand-in closed on {self.last_day()}"
        return ""

    def last_day(self) -> str:
        """The last day of the hand-in, with the days of grace."""
        return (datetime.date.fromisoformat(self.closes) + datetime.timedelta(self.grace)).isoformat()

    def is_late(self) -> bool:
        """Whether these are days of grace."""
        return bool(self.closes) and today() > self.closes


def terms(store: Store) -> Terms:
    """The terms that count now."""
    row = store.one("SELECT text FROM ladder_terms ORDER BY number DESC LIMIT 1")
    said = json.loads(row[0]) if row else {}
    known = {field.name for field in fields(Terms)}
    return Terms(**{name: value for name, value in said.items() if name in known})


def keeps_back(store: Store) -> bool:
    """Whether sources were handed in here that only their authors may read: so none is published."""
    return is_ready(store) and terms(store).readers == AUTHOR and bool(store.one("SELECT 1 FROM ladder_owner LIMIT 1"))


def settle(store: Store, terms: Terms) -> None:
    """Gives the ladder other terms."""
    store.run("INSERT INTO ladder_terms (text) VALUES (?)", json.dumps(asdict(terms), sort_keys=True))
