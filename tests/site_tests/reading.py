"""Reads pages: their elements with attributes and texts, and where their links lead."""

from __future__ import annotations

import json
import os
import re
from dataclasses import dataclass, field
from html.parser import HTMLParser
from typing import Any, Iterator
from urllib.parse import unquote, urlsplit

VOID = {"meta", "link", "br", "hr", "img", "input"}


@dataclass
class Element:
    """An element of a page."""

    name: str
    attributes: dict[str, str]
    children: list[Element | str] = field(default_factory=list)

    def all(self, name: str = "") -> Iterator[Element]:
        """This element and all within it, of one name if it is given."""
        if name in ("", self.name):
            yield self
        for child in self.children:
            if isinstance(child, Element):
                yield from child.all(name)

    def one(self, name: str) -> Element:
        return next(self.all(name))

    def text(self) -> str:
        return "".join(child if isinstance(child, str) else child.text() for child in self.children)

    def classes(self) -> list[str]:
        return self.attributes.get("class", "").split()


class Reader(HTMLParser):
    """Reads a page whose elements are all closed."""

    def __init__(self) -> None:
        super().__init__()
        self.top = Element("", {})
        self._open = [self.top]
        self.wrong: list[str] = []

    def handle_starttag(self, tag: str, attrs: list[tuple[str, str | None]]) -> None:
        it = Element(tag, {name: value or "" for name, value in attrs})
        if len(it.attributes) != len(attrs):
            self.wrong.append(f"{tag} has an attribute twice")
        self._open[-1].children.append(it)
        if tag not in VOID:
            self._open.append(it)

    def handle_endtag(self, tag: str) -> None:
        if self._open[-1].name != tag:
            self.wrong.append(f"{tag} ends within {self._open[-1].name}")
        else:
            self._open.pop()

    def handle_data(self, data: str) -> None:
        self._open[-1].children.append(data)


def read(path: str) -> Element:
    """A page as a tree."""
    with open(path, encoding="utf-8") as file:
        return parsed(file.read(), path)


def parsed(text: str, path: str) -> Element:
    """The text of a page as a tree."""
    reader = Reader()
    reader.feed(text)
    reader.close()
    assert not reader.wrong, f"{path}: {reader.wrong}"
    return reader.top


def data(folder: str, place: str) -> Any:
    """What a file of data hands in. All but its first and last word is JSON."""
    with open(os.path.join(folder, place), encoding="ascii") as file:
        found = re.fullmatch(r'site\.take\("([a-z0-9._-]*)", (.*)\);\n', file.read(), re.DOTALL)
    assert found and found[1] == (place[5:-3] if place.startswith("data/") else ""), place
    return json.loads(found[2])


def pairs(folder: str) -> set[tuple[str, str]]:
    """The pairs that the site has in full, by the files of their robots."""
    there = sorted(it for it in files(folder) if it.startswith("data/"))
    return {(place[5:-3], other) for place in there for other, it in data(folder, place)["pairs"].items() if len(it) == 5}


def files(folder: str) -> set[str]:
    """All files of a folder, by their paths in it."""
    return {os.path.relpath(os.path.join(place, name), folder) for place, _, names in os.walk(folder) for name in names}


def links(page: Element) -> list[str]:
    return [it.attributes[name] for it in page.all() for name in ("href", "src") if name in it.attributes]


def target(place: str, href: str) -> str | None:
    """The file to which a link of a page leads; None if it leads out of the site."""
    parts = urlsplit(href)
    if parts.scheme:
        return None
    return os.path.normpath(os.path.join(os.path.dirname(place), unquote(parts.path))) if parts.path else place


def dangling(folder: str, is_done: bool = True) -> tuple[set[str], list[str]]:
    """The files that are found from the first page on, and the links that lead nowhere.

    The script finds the data of each robot that has a page. The page of all pairs shows those that are in these; while a site is being
    written it may say of some that they aren't there."""
    seen, left, wrong, known = {"index.html"}, ["index.html"], [], pairs(folder)
    while left:
        place = left.pop()
        page = read(os.path.join(folder, place))
        ids = {it.attributes["id"] for it in page.all() if "id" in it.attributes}
        if place.startswith("robots/") and known:
            seen |= {f"data/{place[7:-5]}.js"}
        for href in links(page):
            to = target(place, href)
            if to is None:
                continue
            part = href.partition("#")[2]
            is_pair = to == "pair.html" and place != to
            if not os.path.isfile(os.path.join(folder, to)) or (to == place and part and part not in ids) or (
                    is_pair and is_done and tuple(part.split("/")) not in known):
                wrong.append(f"{place}: {href}")
            elif to not in seen:
                seen.add(to)
                if to == "site.js":
                    seen |= {"robots.js", "pair.html"}
                    left.append("pair.html")
                if to.endswith(".html") and not to.startswith("replays/"):
                    left.append(to)
    seen |= {row[5] for place in sorted(seen) if place.startswith("data/") for it in data(folder, place)["pairs"].values() if len(it) == 5
             for row in it[4] if len(row) > 5}
    wrong += [place for place in sorted(seen) if not os.path.isfile(os.path.join(folder, place))]
    return seen, wrong


def rows(table: Element) -> list[list[str]]:
    """The texts of a table's cells."""
    return [[cell.text() for cell in row.children if isinstance(cell, Element)] for row in table.all("tr")]
