"""Names of files and folders as the database and archives have them."""

import os


def text(name: str) -> str:
    """A name in signs that can be shown: others, and bytes that are no UTF-8, are written as their codes, like `\\x1b`."""
    found = os.fsencode(name).decode("utf-8", "backslashreplace")
    return "".join(letter if letter.isprintable() else letter.encode("unicode_escape").decode("ascii") for letter in found)
