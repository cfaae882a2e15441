"""Addresses that a site leads to: those of pages, and nothing that runs."""

import argparse
import re
from urllib.parse import urlsplit

SCHEMES = {"http", "https", "file"}
# What no address has, and what browsers leave out when they read one.
STRANGE = re.compile(r"[\x00-\x20\x7f-\x9f\\]")


def is_page(address: str) -> bool:
    """Whether an address is one of a page: by http, https or file, or without a scheme one beside the site."""
    if not address or STRANGE.search(address):
        return False
    try:
        return urlsplit(address).scheme in SCHEMES or ":" not in re.split("[/?#]", address)[0]
    except ValueError:
        return False


def page(text: str) -> str:
    """Reads the address of a page."""
    if text and not is_page(text):
        raise argparse.ArgumentTypeError(f"{text!r} is no address of a page: http:, https: or file:, or a path")
    return text
