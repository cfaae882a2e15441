"""Ids made of names as people have them, and the names that robots keep: `Müller` gets the id Muller."""

import itertools
import re
import unicodedata
from typing import Container

from .store import Store
from .texts import text

MOST = 40
# Letters that have no accent that could be left out, in the way in which most passports write them.
LATIN = {"ß": "ss", "ẞ": "SS", "æ": "ae", "Æ": "Ae", "œ": "oe", "Œ": "Oe", "ø": "o", "Ø": "O", "ł": "l", "Ł": "L", "đ": "d", "Đ": "D",
         "ð": "d", "Ð": "D", "þ": "th", "Þ": "Th", "ı": "i"}
CYRILLIC = dict(zip("абвгдеёжзийклмнопрстуфхцчшщъыьэюяєіїґ",
                    "a b v g d e e zh z i i k l m n o p r s t u f kh ts ch sh shch - y - e iu ia ie i i g".replace("-", "").split(" ")))
GREEK = dict(zip("αβγδεζηθικλμνξοπρσςτυφχψω", "a v g d e z i th i k l m n x o p r s s t y f ch ps o".split(" ")))
LETTERS = LATIN | CYRILLIC | GREEK


def plain(name: str) -> str:
    """A name in letters that an id may have; other signs become '-'. Of a name without such letters nothing is left."""
    found = "".join(map(letter, unicodedata.normalize("NFC", name)))
    return re.sub("-+", "-", re.sub("[^A-Za-z0-9_.]+", "-", found.replace("'", "").replace("\N{RIGHT SINGLE QUOTATION MARK}", ""))).strip("-._")


def letter(sign: str) -> str:
    """A letter without accents, or one or two letters that are read like it."""
    if sign.lower() in LETTERS:
        return LETTERS.get(sign) or LETTERS[sign.lower()].capitalize()
    parts = [part for part in unicodedata.normalize("NFKD", sign) if not unicodedata.combining(part)]
    return "".join(parts if parts == [sign] else map(letter, parts))


def made(name: str, taken: Container[str]) -> str:
    """An id for a name, which no robot ever had: of equal ones the second has a 2."""
    begin = plain(name)[:MOST] or "robot"
    ends = itertools.chain([""], (f"-{number}" for number in itertools.count(2)))
    return next(fresh for end in ends if (fresh := begin[:MOST - len(end)] + end) not in taken)


def taken(store: Store) -> set[str]:
    """All ids that were ever given."""
    return {robot for robot, in store.rows("SELECT id FROM robot")}


def keep(store: Store, folder: str, robot: str, name: str) -> None:
    """Keeps the name that a robot has, and the folder from which it was taken, if any."""
    store.run("INSERT INTO handed (folder, robot, name, publication) VALUES (?, ?, ?, ?)", text(folder), robot, text(name), store.next())


def handed(store: Store) -> list[tuple[str, str, str]]:
    """The folders, robots and names that were kept, the last ones last."""
    return store.rows("SELECT folder, robot, name FROM handed ORDER BY number")


def names(store: Store) -> dict[str, str]:
    """The names that robots have, if they aren't their ids."""
    return {robot: name for _, robot, name in handed(store)}


def robots_of_folders(store: Store) -> dict[str, str]:
    """Which robot was taken from each folder."""
    return {folder: robot for folder, robot, _ in handed(store) if folder}
