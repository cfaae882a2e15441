"""HTML and SVG: elements are put together here alone, so no text gets into a page without being escaped."""

import functools
import html
import re
from typing import Iterable

from .names import UNSEEN, named, shown

SPECIAL = re.compile(f"[&<>\"']|{UNSEEN.pattern}")
# Elements that have no end tag.
VOID = {"link", "meta", "br", "hr", "col", "input"}


class Markup(str):
    """A text that is HTML."""


def escaped(text: str) -> str:
    """A text as HTML, if it isn't already. One with nothing to be escaped may be escaped again, and stays as it is."""
    if isinstance(text, Markup) or not SPECIAL.search(text):
        return text
    return Markup(html.escape(shown(text)))


def joined(*parts: str) -> Markup:
    """Parts one after another."""
    return Markup("".join(map(escaped, parts)))


def separated(separator: str, parts: Iterable[str]) -> Markup:
    """Parts with something between them."""
    return Markup(escaped(separator).join(map(escaped, parts)))


def block(lines: Iterable[str]) -> Markup:
    """Lines one below another, for a text that keeps its lines."""
    return Markup("\n".join(map(escaped, lines)))


def tag(element: str, *children: str, **attributes: str | int | float | None) -> Markup:
    """An element with its children. An attribute that is None is left out."""
    found = "".join([f' {attribute(name)}="{escaped(value) if isinstance(value, str) else value}"'
                     for name, value in attributes.items() if value is not None])
    return Markup(f"<{element}{found}>" + ("" if element in VOID else f"{''.join(map(escaped, children))}</{element}>"))


@functools.cache
def attribute(name: str) -> str:
    """An attribute's name, as aria-label for aria_label and class for class_."""
    return name.rstrip("_").replace("_", "-")


def name_of(name: str) -> Markup:
    """A robot's name, whose direction of writing leaves what is around it alone."""
    return tag("bdi", named(name))
