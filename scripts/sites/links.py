"""Links that open a battle in the browser's page, which takes its robots and settings from the address's fragment.

It is the form that web/links.js reads: JSON, deflated, in base 64 of the alphabet for addresses."""

import base64
import json
import zlib
from typing import Sequence

from .facts import Battle, Settings

MARK = "#battle="


def fragment(settings: Settings, battle: Battle, robots: Sequence[tuple[str, bytes]]) -> str:
    """The fragment that carries a match, by the names and sources of its robots in their order.

    A source is a text there. So bytes that are no UTF-8, which only comments have, are replaced by a sign for that."""
    said = {
        "robots": [{"name": name, "source": source.decode("utf-8", "replace")} for name, source in robots],
        "settings": {
            "matches": 1, "limit": settings.cycles, "seed": str(battle.seed), "first": battle.number,
            "profile": settings.profile,
        },
    }
    return MARK + packed(json.dumps(said, separators=(",", ":"), ensure_ascii=False).encode("utf-8", "replace"))


def packed(data: bytes) -> str:
    """Bytes as a link carries them."""
    packer = zlib.compressobj(wbits=-zlib.MAX_WBITS)
    return base64.urlsafe_b64encode(packer.compress(data) + packer.flush()).decode().rstrip("=")
