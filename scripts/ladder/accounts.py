"""Who somebody is: authors, the organiser, the links by which they join and the sessions of their browsers.

Nobody has a password. A token has 128 bits of chance, and is kept as its hash, by which it is found."""

import hashlib
import secrets
import time
import unicodedata
from dataclasses import dataclass
from typing import Iterable, NamedTuple

from leagues.entries import named
from leagues.store import Store
from tools.faults import Fault

from .audits import HERE, note

LINK, SESSION = "link", "session"
ORGANISER = "organiser"
TOKEN_BYTES = 16
SESSION_SECONDS = 30 * 86400.0


@dataclass(frozen=True)
class Who:
    """An author by number and name, or the organiser, who has no number."""

    number: int | None
    name: str

    @property
    def is_organiser(self) -> bool:
        return self.number is None


class Invitation(NamedTuple):
    """An author, and the token of the link that is theirs."""

    name: str
    token: str


class Author(NamedTuple):
    """An author, and whether there is a link that may be used."""

    number: int
    name: str
    team: str
    is_invited: bool


def hashed(token: str) -> str:
    return hashlib.sha256(token.encode("utf-8", "replace")).hexdigest()


def token(store: Store, kind: str, author: int | None) -> str:
    """A new token, of which the hash is kept."""
    made = secrets.token_urlsafe(TOKEN_BYTES)
    store.run("INSERT INTO ladder_token VALUES (?, ?, ?, ?, NULL)", hashed(made), kind, author, time.time())
    return made


def who(store: Store, given: str, kinds: Iterable[str] = (LINK, SESSION)) -> Who | None:
    """Who has a token; nobody if it isn't one of these kinds, is withdrawn, or is a session that is too old."""
    row = store.one("SELECT kind, author, name, ladder_token.made FROM ladder_token LEFT JOIN ladder_author ON number = author "
                    "WHERE hash = ? AND ended IS NULL", hashed(given))
    if not row or row[0] not in kinds or row[0] == SESSION and row[3] + SESSION_SECONDS < time.time():
        return None
    return Who(row[1], row[2] if row[1] is not None else ORGANISER)


def join(store: Store, link: str, address: str) -> str:
    """A session for a link: always a new one, so nobody's browser can be given one that is known. Nothing if the link is none."""
    with store.change():
        by = who(store, link, (LINK,))
        if by is None:
            return ""
        note(store, by.name, "join", "", address)
        return token(store, SESSION, by.number)


def leave(store: Store, session: str, address: str) -> None:
    """Ends a session, if it is one."""
    with store.change():
        if by := who(store, session, (SESSION,)):
            store.run("UPDATE ladder_token SET ended = ? WHERE hash = ?", time.time(), hashed(session))
            note(store, by.name, "leave", "", address)


def organiser(store: Store) -> str:
    """The organiser's token if there was none yet, else nothing."""
    if store.one("SELECT 1 FROM ladder_token WHERE author IS NULL AND kind = ? AND ended IS NULL", LINK):
        return ""
    with store.change():
        note(store, ORGANISER, "first start", "")
        return token(store, LINK, None)


def name_of(text: str) -> str:
    """The name of an author, in one form of its letters, if it can be one."""
    found = " ".join(unicodedata.normalize("NFC", named(text)).split())
    if not found or found.casefold() == ORGANISER:
        raise Fault("an author has a name, and it isn't 'organiser'")
    return found


def number_of(store: Store, name: str) -> int | None:
    """The number of an author."""
    row = store.one("SELECT number FROM ladder_author WHERE name = ?", name)
    return int(row[0]) if row else None


def invite(store: Store, name: str, team: str, by: str = ORGANISER, address: str = HERE) -> Invitation:
    """Makes an author with a link. One who is there already gets a new link, and the one before is withdrawn."""
    called = name_of(name)
    with store.change():
        number = number_of(store, called)
        if number is None:
            number = store.run("INSERT INTO ladder_author (name, team, made) VALUES (?, ?, ?)", called, named(team), time.time())
        else:
            ended(store, number)
        note(store, by, "invite", called, address)
        return Invitation(called, token(store, LINK, number))


def numbered(store: Store, count: int, team: str) -> list[Invitation]:
    """Makes so many authors who have numbers for names."""
    first = int(store.one("SELECT coalesce(max(number), 0) FROM ladder_author")[0]) + 1
    return [invite(store, f"author {first + at}", team) for at in range(count)]


def withdraw(store: Store, name: str, by: str = ORGANISER, address: str = HERE) -> None:
    """Withdraws an author's link and ends the sessions that came of it. The robots stay."""
    with store.change():
        number = number_of(store, name_of(name))
        if number is None:
            raise Fault(f"there is no author {name}")
        ended(store, number)
        note(store, by, "withdraw link", name, address)


def ended(store: Store, author: int) -> None:
    """Ends all tokens of an author."""
    store.run("UPDATE ladder_token SET ended = ? WHERE author = ? AND ended IS NULL", time.time(), author)


def authors(store: Store) -> list[Author]:
    """All authors, in the order in which they were made."""
    rows = store.rows("SELECT number, name, team, EXISTS (SELECT 1 FROM ladder_token WHERE author = number AND kind = ? "
                      "AND ended IS NULL) FROM ladder_author ORDER BY number", LINK)
    return [Author(number, name, team, bool(is_invited)) for number, name, team, is_invited in rows]


def owners(store: Store) -> dict[str, int]:
    """Whose robots are whose: of those that were handed in here."""
    return dict(store.rows("SELECT robot, author FROM ladder_owner"))
