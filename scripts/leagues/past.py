"""Whether an archive still has all that an older one had, or all that a hash stands for."""

import re
from collections import Counter
from itertools import takewhile
from typing import Iterator

from tools.faults import Fault

from . import archives, chain
from .store import Store

HASH = re.compile("[0-9a-f]{64}")
MOST_SHOWN = 20


def changed_since(store: Store, older: str) -> Iterator[str]:
    """What was changed since an older archive, or since the publication with a hash."""
    if HASH.fullmatch(older):
        if older not in chain.hashes(store).values():
            yield f"no publication has the hash {older}: something of it was changed, or it is of another league"
        return
    with archives.read(older) as (before, _):
        yield from changed(store, before, older)


def changed(store: Store, before: Store, name: str) -> Iterator[str]:
    """What was changed since an older archive, whose own chain has to be right."""
    links = chain.links(before)
    if not links:
        raise Fault(f"{name} has no chain, so nothing can be compared with it")
    own, last = [*inconsistent_links(before)], links[-1]
    yield from own
    if not own and chain.hashes(store).get(last.number) != last.hash:
        yield f"publication {last.number} was another one in {name}"
        yield from differences(before, store, last.number)


def inconsistent_links(store: Store) -> Iterator[str]:
    """Publications of the older archive that aren't what it has."""
    found = chain.hashes(store)
    yield from (f"the older archive was changed: its publication {link.number} has another hash"
                for link in chain.links(store) if found.get(link.number) != link.hash)


def differences(before: Store, now: Store, last: int) -> Iterator[str]:
    """The rows of two archives, up to a publication, that only one of them has."""
    one, other = rows(before, last), rows(now, last)
    found = [*(f"is gone: {element}" for element in (one - other).elements()), *(f"was added: {element}" for element in (other - one).elements())]
    yield from (line.replace("\t", " ").rstrip("\n") for line in found[:MOST_SHOWN])
    if len(found) > MOST_SHOWN:
        yield f"and {len(found) - MOST_SHOWN} more rows"


def rows(store: Store, last: int) -> Counter[str]:
    """The rows that are shown up to a publication."""
    return Counter(text for _, text in takewhile(lambda row: row[0] <= last, chain.lines(store, 0)))
