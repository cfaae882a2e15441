"""The robots' sources as files, from which they are played: in a folder of the league, named by their hashes."""

import contextlib
import hashlib
import os
from typing import Iterable

from tools.faults import writing
from tools.output import replaced

from .entries import source
from .store import Store

NAME = "sources"


def laid(store: Store, hashes: Iterable[str]) -> str:
    """Sees to it that the folder has these sources as they are in the database; answers its path."""
    folder = os.path.abspath(os.path.join(store.folder, NAME))
    with writing(folder):
        os.makedirs(folder, exist_ok=True)
        for sha256 in sorted({*hashes}):
            path = os.path.join(folder, sha256)
            if not is_whole(path, sha256):
                replaced(path, source(store, sha256))
    return folder


def is_whole(path: str, sha256: str) -> bool:
    """Reports whether a file has the bytes with this hash."""
    with contextlib.suppress(OSError), open(path, "rb") as file:
        return hashlib.file_digest(file, "sha256").hexdigest() == sha256
    return False
