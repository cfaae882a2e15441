"""Tests of the field alone, which other pages show in a frame: the address says what is shown, and nothing is kept."""

from __future__ import annotations

import contextlib
import os
import re
import shutil
import tempfile
import urllib.parse
from typing import Iterator

from .battles import Battle, Settings
from .firsts import MOVES, PLAYER, STANDS, is_from
from .pages import Page, Tests, fragment, served

BATTLE = Battle([("mover.r", b"main() { while (1) drive(90, 50); }"), ("still.r", b"main() { }")], Settings(limit=3_000, first=4))
# frames as other pages have them
SIZES = ((480, 560), (360, 480), (640, 360), (1000, 800))
STORED = """const done = arguments[0]; const none = !localStorage.length && !sessionStorage.length && !document.cookie;
    return indexedDB.databases().then(all => [none, all.length])"""
# a page that asks for storage ends here
REFUSED = """for (const name of ['localStorage', 'sessionStorage', 'indexedDB']) Object.defineProperty(window, name, {get() { window.asked = name; throw new Error(name); }})"""
HEADS = ("<title>", '<meta name="description" content="', '<meta property="og:title" content="', '<meta property="og:description" content="')
HOST = '<!DOCTYPE html><title>host</title><link rel="icon" href="data:,"><iframe id="film" width="480" height="560" allow="fullscreen" src="embed.html{tail}"></iframe>'


def opened(page: Page, tail: str) -> Page:
    """The field alone, with the end of an address."""
    other = Page(page.driver, urllib.parse.urljoin(page.address, "embed.html"))
    other.driver.get("about:blank")
    other.driver.get(other.address + tail)
    return other


def shown(page: Page) -> tuple[str, int, float, float]:
    """The heading of the match that plays, the robot that is followed, the cycle, and the most cycles that can have been played."""
    page.wait(MOVES)
    heading, robot, cycle, most = page.js(STANDS)
    return heading, robot, cycle, most


def by_address(page: Page) -> list[str]:
    """The address names the battle, the moment and the robot that is followed; none names two samples. It may change later."""
    wrong = []
    link = fragment(BATTLE)
    wanted = {"": ("Match 2: hunter.r and sniper.r", 0, 0), link: ("Match 4: mover.r and still.r", 0, 0),
              f"{link}&match=2&cycle=900&robot=2": ("Match 2: mover.r and still.r", 2, 600)}
    for tail, (heading, robot, begin) in wanted.items():
        other = opened(page, tail)
        got = shown(other)
        way = other.js("return document.getElementById('whole').href")
        wrong += [] if got[:2] == (heading, robot) and is_from(begin, *got[2:]) else [f"{tail[-30:]}: {got}"]
        wrong += [] if way == urllib.parse.urljoin(page.address, f"index.html{tail}") else [f"the way to the page is {way[-60:]}"]
    other.js("location.hash = arguments[0]", link)
    other.wait("return document.getElementById('film').contentDocument?.getElementById('heading')?.textContent.startsWith('Match 4')")
    other.js("location.hash = arguments[0]", link[:-9])
    other.wait("return document.getElementById('told').textContent === 'The link carries no battle that can be read.'")
    return wrong


def in_sight(page: Page) -> list[str]:
    """In frames of some sizes the field and its play button are in sight, and nothing makes it wider or higher."""
    wrong = []
    for size in SIZES:
        page.size(*size)
        other = opened(page, "")
        shown(other)
        boxes = other.js("const film = document.getElementById('film'), top = film.getBoundingClientRect().top;"
                         "const of = id => { const it = film.contentDocument.getElementById(id).getBoundingClientRect(); return [it.top + top, it.bottom + top, it.width]; };"
                         "const {scrollWidth, scrollHeight} = document.documentElement;"
                         "return [of('field'), of('play-pause'), [scrollWidth, scrollHeight]]")
        field, play, whole = boxes
        right = 0 <= field[0] and field[1] <= size[1] and play[1] <= size[1] and field[2] >= 150 and whole[0] <= size[0] and whole[1] <= size[1]
        wrong += [] if right else [f"{size}: {boxes}"]
    page.whole_window()
    return wrong


def keeps_nothing(page: Page) -> list[str]:
    """It asks for no storage and has no editor."""
    page.forget()
    other = opened(page, fragment(BATTLE))
    shown(other)
    stored = other.js(STORED)
    editors = other.js("return document.querySelectorAll('textarea, input, .CodeMirror, script[src*=codemirror]').length")
    wrong = [] if stored == [True, 0] and editors == 0 else [f"{stored}, {editors} fields"]
    if page.driver.name == "chrome":
        with page.before(REFUSED):
            other = opened(page, fragment(BATTLE))
            shown(other)
            asked = other.js("return window.asked ?? ''")
        wrong += [f"it asks for {asked}"] if asked else []
    return wrong


@contextlib.contextmanager
def hosted(folder: str, tail: str) -> Iterator[str]:
    """The address of a page that shows the field alone in a frame."""
    with tempfile.TemporaryDirectory() as place:
        shutil.copytree(folder, place, dirs_exist_ok=True)
        with open(os.path.join(place, "host.html"), "w", encoding="utf-8") as file:
            file.write(HOST.format(tail=tail))
        with served(place) as address:
            yield f"{address}host.html"


def in_a_frame(page: Page, folder: str) -> list[str]:
    """In a frame of another page it plays."""
    with hosted(folder, fragment(BATTLE)) as address:
        page.driver.get("about:blank")
        page.driver.get(address)
        inner = PLAYER.replace("document", "document.getElementById('film').contentDocument?", 1)
        page.wait(f"return {inner}?.isPlaying && {inner}.cycle > 0".replace("contentDocument?.getElementById('film').contentWindow",
                                                                          "contentDocument?.getElementById('film')?.contentWindow"))
    page.open()
    return []


def heads(folder: str) -> list[str]:
    """Both pages say what they are, for those who get a link to them, and have the same policy."""
    wrong, policies = [], set()
    for name in ("index.html", "embed.html"):
        with open(os.path.join(folder, name), encoding="utf-8") as file:
            text = file.read()
        wrong += [f"{name} lacks {head}" for head in HEADS if not re.search(re.escape(head) + r"\w", text)]
        policies |= set(re.findall(r'Content-Security-Policy" content="([^"]*)"', text))
    return wrong + ([] if len(policies) == 1 else [f"{policies}"])


def tests(folder: str) -> Tests:
    """The tests by their names."""
    yield "the field alone: by its address", by_address
    yield "the field alone: in sight", in_sight
    yield "the field alone: keeps nothing", keeps_nothing
    yield "the field alone: in a frame", lambda page: in_a_frame(page, folder)
    yield "the field alone: heads and policies", lambda _: heads(folder)
