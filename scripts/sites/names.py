"""Names: of files on the site, from robots' ids; and as a reader is shown them."""

import functools
import hashlib
import re

from tools import shells

UNSEEN = shells.UNSEEN
PLAIN = re.compile(rb"[a-z0-9-]")
MOST = 80
# Names of devices, which no file of Windows may have, and the page that a server takes for its folder's.
TAKEN = re.compile(r"(con|prn|aux|nul|com[0-9]|lpt[0-9]|index)(?![^.])")


@functools.cache
def file_name(robot: str) -> str:
    """A name for a file that no other robot gets, on no system.

    All but small letters, digits, and dots and '-' in between is coded. A code has two digits, so what follows '__' is
    no code: it is a hash, which stands for the rest of a long name."""
    found = b"".join(map(coded, re.findall(rb"(?s).", robot.encode("utf-8", "surrogatepass")))).decode()
    found = re.sub(r"\.$|(?<=\.)\.", "_2e", found) or "_"
    if found[0] in ".-" or TAKEN.match(found):
        found = f"_{ord(found[0]):02x}{found[1:]}"
    if len(found) <= MOST:
        return found
    return f"{found[:40]}__{hashlib.sha256(found.encode()).hexdigest()[:32]}"


def coded(byte: bytes) -> bytes:
    """A byte as it is, or its code."""
    return byte if PLAIN.match(byte) or byte == b"." else f"_{byte[0]:02x}".encode()


def shown(text: str) -> str:
    """A text without what can't be seen: in its place stands the sign for that."""
    return UNSEEN.sub("\ufffd", text)


def named(name: str) -> str:
    """A robot's name as a reader is shown it, which is never empty."""
    return shown(name) if name.strip() else "(no name)"
