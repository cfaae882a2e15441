"""The keys by which robots are told apart that have the same bytes."""

import itertools
from typing import Iterator, Sequence

from tournaments import seats

from .store import Store


def copies_of(store: Store) -> dict[str, int]:
    """Of all bytes that a robot ever had the highest number of a robot that had them."""
    return dict(store.rows("SELECT sha256, max(copy) FROM entry GROUP BY sha256"))


def possible(hashes: Sequence[str], copies: dict[str, int]) -> Iterator[list[str]]:
    """The keys that robots with these bytes may have, by how many had the same ones; none if there was no such robot."""
    if not {*hashes} <= copies.keys():
        return
    for numbers in itertools.product(*(range(copies[sha256] + 1) for sha256 in hashes)):
        keys = [seats.keys([sha256] * (number + 1))[-1] for sha256, number in zip(hashes, numbers)]
        if len({*keys}) == len(keys):
            yield keys
