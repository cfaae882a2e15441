"""The page of all pairs: its script shows the pair that the address names, from the data of both robots."""

from . import places
from .frames import page, sentence
from .lookups import Lookup
from .markup import joined, tag


def pair_page(lookup: Lookup) -> str:
    """The page, without a pair."""
    lacking = joined("This page needs JavaScript. The ", tag("a", "pairs as CSV", href=places.PAIRS), " have the same scores.")
    return page(lookup, places.PAIR, "Pair", tag("div", tag("h1", "Pair"), tag("noscript", sentence(lacking)), id="pair"),
                scripted=True)
