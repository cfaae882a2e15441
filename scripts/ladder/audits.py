"""The audit: each write and each joining, with who did it and when, and the address as a hash with a key of the league."""

import hashlib
import time
from typing import NamedTuple

from leagues.store import Store

HERE = "command line"


class Done(NamedTuple):
    """What was done."""

    at: float
    who: str
    what: str
    of: str
    address: str


def note(store: Store, who: str, what: str, of: str, address: str = HERE) -> None:
    """Writes down what is done, in the transaction that does it."""
    store.run("INSERT INTO ladder_audit (at, who, what, of, address) VALUES (?, ?, ?, ?, ?)",
              time.time(), who, what, of, address if address == HERE else hidden(store, address))


def hidden(store: Store, address: str) -> str:
    """An address as a hash: equal ones can be told, and whose one is can't be read."""
    key = bytes(store.one("SELECT key FROM ladder_key")[0])
    return hashlib.blake2b(address.encode("utf-8", "replace"), key=key, digest_size=8).hexdigest()


def last(store: Store, many: int) -> list[Done]:
    """What was done last, the last one first."""
    rows = store.rows("SELECT at, who, what, of, address FROM ladder_audit ORDER BY number DESC LIMIT ?", many)
    return [Done(*row) for row in rows]
