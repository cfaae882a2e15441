"""What a class does with the page: the ways of those who meet it for the first time, by mouse, by keys and by touch.

The sample is changed and broken, the advice is read, the fault is mended. The robot is watched at the moment it is hit. A
better one wins. It is saved, a link is made, a friend's link is opened, and the next day one's own robots are there. `WAYS`
has who goes how. Each browser walks a third of them; with CROBOTS_PATHS=all each walks all."""

from __future__ import annotations

import contextlib
import os
import time
from dataclasses import dataclass
from functools import partial
from typing import Any, Callable, Iterator

from .battles import Battle
from .pages import SECONDS, Page, Tests, fragment

LAPTOP, SCREEN, LOW, PHONE = (1366, 768), (1920, 1080), (740, 360), (360, 740)
# how often the tab key is pressed again, for as many stops as then lie between
MOST_TABS = 200
# how long it is waited for that a key is heard which does nothing, before it is pressed again
SECONDS_OF_A_PROBE = 2
FRIEND = "main() { while (1) drive(30, 40); }"
MINE = "/* mine */"
# keys as the protocol of drivers has them
BACKSPACE, TAB, ENTER, SHIFT, CONTROL, HOME, LEFT = "\ue003", "\ue004", "\ue007", "\ue008", "\ue009", "\ue011", "\ue012"
# the tab key's stops from what has the focus to an element, in the order of the page and of the frames in it: how many, those before are
# negative; 0 if the element has the focus. It is 1, or -1, if what has the focus is no stop
STOPS = """const all = root => [...root.querySelectorAll('a[href], button, input, select, textarea, summary, iframe, [tabindex], [contenteditable]')]
    .filter(it => it.tabIndex >= 0 && !it.disabled && (it.checkVisibility?.() ?? it.getClientRects().length) && !it.closest('[inert]')).flatMap(it => it.contentDocument ? all(it.contentDocument) : [it]);
    const deepest = it => it.contentDocument ? deepest(it.contentDocument.activeElement ?? it.contentDocument.body) : it;
    const it = ELEMENT, now = document.activeElement ?? document.body, stops = all(document);
    const from = stops.indexOf(deepest(now)), to = stops.findIndex(stop => it.contains(stop));
    return it.contains(now) ? 0 : from >= 0 && to >= 0 && from !== to ? to - from : now.compareDocumentPosition(it) & 2 ? -1 : 1"""
# where a press on an element goes to, if that lies on top there
PLACE = """const it = ELEMENT, box = it.getBoundingClientRect();
    const place = [Math.round(box.left + box.width / 2), Math.round(box.top + Math.min(box.height, 60) / 2)];
    return it.contains(document.elementFromPoint(...place)) && place"""
# counts the keys that come to a window
HEARS = """const it = WINDOW;
    if (it.heard === undefined) { it.heard = 0; it.addEventListener('keydown', () => { it.heard += 1; }, true); }
    return it.heard"""


@dataclass(frozen=True)
class Way:
    """One reader: by what, in which window, and what was chosen where the page leaves a choice."""

    kind: str
    size: tuple[int, int]
    # what breaks the robot, written before all that it has, and what the page says of it
    fault: tuple[str, str]
    watches: str
    wins_by: str
    friends: str
    is_file: bool = False

    @property
    def name(self) -> str:
        return f"a first way by {self.kind} at {self.size[0]} by {self.size[1]}{', as a file' if self.is_file else ''}"


BREAK, AT, BRACE = (" break;", "reserved word. This word of C"), (" @", "bad character. The language has"), (" }", "syntax error. Something before")
NAME, NUMBER = (f" int {'a' * 32};", "name too long. A name has"), (" 2147483648", "constant too large. The largest number")
TWICE = (" int angle", "syntax error. Something before")
# The match is watched by the report or by the form. Who wins is the last step's robot, or the strongest sample in a battle of
# its own. A friend's link is opened and changed, followed in the open page and changed, or only looked at.
WAYS = (
    Way("mouse", LAPTOP, BREAK, "report", "step", "changed"),
    Way("keys", SCREEN, AT, "form", "sample", "followed"),
    Way("touch", PHONE, BRACE, "report", "step", "looked at"),
    Way("mouse", PHONE, NAME, "form", "sample", "looked at"),
    Way("keys", LAPTOP, TWICE, "report", "step", "looked at"),
    Way("touch", LOW, NUMBER, "form", "step", "changed"),
    Way("mouse", LAPTOP, BRACE, "form", "step", "changed", is_file=True),
    Way("keys", PHONE, BREAK, "form", "step", "changed"),
    Way("touch", LAPTOP, AT, "form", "sample", "changed"),
    Way("mouse", SCREEN, NUMBER, "report", "step", "followed"),
    Way("keys", LOW, NAME, "form", "step", "followed"),
    Way("touch", SCREEN, NAME, "report", "sample", "followed"),
    Way("mouse", LOW, TWICE, "report", "sample", "looked at"),
)
# at each run each walks a third of them, some by mouse, some by keys and some by touch
BROWSERS = ("Chromium", "Firefox", "WebKit")


class Reader:
    """Someone who uses the page in one way."""

    def __init__(self, page: Page, way: Way) -> None:
        self.page, self.way = page, way

    @property
    def has_keys(self) -> bool:
        """Whether nothing is pointed at."""
        return self.way.kind == "keys"

    def reach(self, element: str) -> None:
        """Goes to the place of the page where an element is, if places are shown one at a time."""
        place = self.page.js(f"const place = ({element})?.closest('.place');"
                             "return place && !place.offsetWidth ? [...place.classList].find(name => name !== 'place') : ''")
        if place:
            self.press(by_id(f"to-{place}"))

    def press(self, element: str) -> None:
        """Presses an element of the page, by an expression of JavaScript."""
        self.reach(element)
        if self.has_keys:
            self.tab(element)
            self.awake()
            self.chord(ENTER)
        else:
            self.point(element)

    def tab(self, element: str) -> None:
        """Goes to an element by the tab key, or back with shift: over as many stops at once as lie between."""
        for _ in range(MOST_TABS):
            stops = int(self.page.js(STOPS.replace("ELEMENT", element)))
            if not stops:
                return
            self.keys([("keyDown", SHIFT)] * (stops < 0) + [("keyDown", TAB), ("keyUp", TAB)] * abs(stops) + [("keyUp", SHIFT)] * (stops < 0))
        raise TimeoutError(f"no way by the tab key to {element}")

    def point(self, element: str) -> None:
        """Points at the middle of an element, once it is scrolled to and nothing lies over it; if something stays in sight above, it is
        scrolled to the window's lower edge."""
        end = time.monotonic() + SECONDS
        while time.monotonic() < end:
            for block in ("center", "end"):
                self.scroll(element, block)
                if place := self.page.js(PLACE.replace("ELEMENT", element)):
                    self.at(*place)
                    return
        raise TimeoutError(f"something lies over {element}")

    def scroll(self, element: str, block: str) -> None:
        """Scrolls to an element, once it is there, until all stands still."""
        self.page.wait(f"const it = {element}; it?.scrollIntoView({{block: arguments[0]}}); return Boolean(it)", block)
        self.page.settle()

    def at(self, x: int, y: int) -> None:
        """Presses at a place of the window."""
        kind = self.way.kind
        steps = [{"type": "pointerMove", "duration": 0, "x": x, "y": y, "origin": "viewport"}, {"type": "pointerDown", "button": 0}, {"type": "pointerUp", "button": 0}]
        perform(self.page.driver, [{"type": "pointer", "id": kind, "parameters": {"pointerType": kind}, "actions": steps}])

    def place_in_film(self, name: str) -> tuple[int, int, int]:
        """Where a button of the film is in the window, and how high that is."""
        x, y, height = self.page.js("const frame = document.getElementById('film'); const box = frame.getBoundingClientRect();"
                                    "const it = frame.contentDocument.querySelector(arguments[0]).getBoundingClientRect();"
                                    "return [Math.round(box.left + it.left + it.width / 2), Math.round(box.top + it.top + it.height / 2), innerHeight]", name)
        return x, y, height

    def press_in_film(self, name: str, key: str, is_done: str) -> None:
        """Presses a button of the film, or its key, until that is done."""
        if self.has_keys:
            self.awake("document.getElementById('film').contentWindow")
            self.write(key)
        else:
            self.scroll(f"document.getElementById('film').contentDocument.querySelector('{name}')", "nearest")
            self.at(*self.place_in_film(name)[:2])
        self.page.wait(f"return {is_done}")

    def awake(self, window: str = "window") -> None:
        """Waits until keys come to the page, or to the window of a frame in it: drivers lose those that come while the focus goes there. The
        key that is pressed for that does nothing, however often it comes, and however late."""
        end = time.monotonic() + SECONDS
        while time.monotonic() < end:
            before = self.page.js(HEARS.replace("WINDOW", window))
            self.chord(SHIFT)
            with contextlib.suppress(TimeoutError):
                self.page.wait(f"return {window}.heard > arguments[0]", before, seconds=SECONDS_OF_A_PROBE)
                return
        raise TimeoutError(f"no key comes to {window}")

    def edit(self) -> None:
        """Goes to the first place of the source."""
        self.reach("document.querySelector('.CodeMirror')")
        if self.has_keys:
            self.tab("document.querySelector('.CodeMirror')")
        else:
            self.point("document.querySelector('.CodeMirror-line')")
        self.awake()
        self.chord(CONTROL, HOME)

    def write(self, text: str) -> None:
        """Writes where the cursor is."""
        self.keys([(kind, letter) for letter in text for kind in ("keyDown", "keyUp")])

    def chord(self, *keys: str) -> None:
        """Presses keys together."""
        self.keys([*(("keyDown", key) for key in keys), *(("keyUp", key) for key in reversed(keys))])

    def keys(self, steps: list[tuple[str, str]]) -> None:
        """Presses and releases keys."""
        perform(self.page.driver, [{"type": "key", "id": "keyboard", "actions": [{"type": kind, "value": key} for kind, key in steps]}])


def perform(driver: Any, actions: list[dict[str, Any]]) -> None:
    """Does what pointers do, in each of the drivers."""
    if driver.name == "firefox":
        driver.perform(actions)
    else:
        driver.execute("actions", {"actions": actions})


def by_id(name: str) -> str:
    """An element by its name, as an expression."""
    return f"document.getElementById('{name}')"


def told(page: Page, element: str, words: str) -> None:
    """Waits until an element says some words."""
    page.wait("return document.querySelector(arguments[0])?.textContent.includes(arguments[1])", element, words)


def starts_well(reader: Reader) -> None:
    """The page is there at this size, and needs no scrolling sideways."""
    wide, high = reader.way.size
    seen = reader.page.js("return [innerWidth, innerHeight, document.documentElement.scrollWidth]")
    if abs(seen[0] - wide) > 2 or abs(seen[1] - high) > 2 or seen[2] > seen[0]:
        raise TimeoutError(f"the window has {seen}")


def write_and_mend(reader: Reader) -> None:
    """The sample is changed and broken, the advice is read at its line, and the fault is mended."""
    page, (fault, advice) = reader.page, reader.way.fault
    reader.edit()
    reader.write(MINE)
    told(page, "#diagnostic", "No fault.")
    reader.write(fault)
    told(page, ".fault-words", advice)
    reader.write(BACKSPACE * len(fault))
    told(page, "#diagnostic", "No fault.")


def watch_the_hit(reader: Reader) -> None:
    """The battle is run and lost, its first match is watched, and the film goes to the moment at which one's robot is hit."""
    page = reader.page
    reader.press(by_id("run"))
    told(page, "#said", "Done in")
    told(page, "#report", "won 0 tied 0 lost 1 hunter.r")
    reader.press("document.querySelector('#report button')" if reader.way.watches == "report" else by_id("watch"))
    told(page, "#told", "can be watched")
    page.wait("return document.activeElement.id === 'film' && !document.getElementById('watch').disabled")
    page.settle()
    _, place, height = reader.place_in_film("#hit-after")
    if place > height:
        raise TimeoutError(f"the buttons of the film are at {place}, below {height}")
    player = "document.getElementById('film').contentWindow.player"
    reader.press_in_film("#robots .number", "1", f"{player}.chosen === 1")
    reader.press_in_film("#hit-after", "n", f"{player}.cycle > 0 && !{player}.isPlaying")
    page.wait("return /^[\\d,]+\\s*1\\) hunter.r loses \\d+% to robot 2$/.test("
              "document.getElementById('film').contentDocument.querySelector('#events li').innerText.replaceAll('\\n', ' ').trim())")


def look_why(reader: Reader) -> None:
    """The robot is seen from inside, at the line where it is at that moment."""
    for is_open in (True, False):
        reader.press("document.querySelector('#inside summary')")
        reader.page.wait("return document.getElementById('inside').open === arguments[0]", is_open)
        if is_open:
            reader.page.wait("return document.querySelector('#inside-source .current')")


def share_the_moment(reader: Reader) -> None:
    """A link to the moment of the match that is watched is made; a page that is a file offers none."""
    reader.press(by_id("link-moment"))
    is_made = "location.hash.endsWith(`&match=${watched}&cycle=${cycle}&robot=1`)"
    is_offered = "document.getElementById('told').textContent.startsWith('This page is a file')"
    reader.page.wait("const {value: watched} = document.getElementById('watched'), {cycle} = document.getElementById('film').contentWindow.player;"
                     f"return {is_offered if reader.way.is_file else is_made}")


def bring_back(reader: Reader) -> None:
    """Something is written, and the version that was run comes back in its place."""
    page, ran = reader.page, reader.page.source
    reader.edit()
    reader.write("/* newer */")
    page.wait("return document.querySelector('.CodeMirror').CodeMirror.getValue().startsWith('/* newer */')")
    reader.press("document.querySelector('#versions summary')")
    button = "[...document.querySelectorAll('#robot-versions button:enabled')].find(it => it.textContent === 'Bring back')"
    page.wait(f"return Boolean({button})")
    reader.press(button)
    page.wait("return document.querySelector('.CodeMirror').CodeMirror.getValue() === arguments[0]", ran)
    reader.press("document.querySelector('#versions summary')")
    page.wait("return !document.getElementById('versions').open")


def win_by_step(reader: Reader) -> tuple[str, str]:
    """The robot of the last step is tried in a new battle."""
    reader.press("document.querySelector('#start summary')")
    reader.page.wait("return document.getElementById('start').open")
    reader.press("document.querySelectorAll('#steps button')[4]")
    told(reader.page, "#noted", "This is a new battle")
    return "step5.r", "wallhugger.r"


def win_by_sample(reader: Reader) -> tuple[str, str]:
    """The strongest sample fights in a new battle against one that is weaker."""
    page = reader.page
    reader.press("document.querySelector('#kept summary')")
    page.wait("return document.getElementById('kept').open")
    reader.press(by_id("new"))
    page.wait("return document.querySelectorAll('#tabs [role=tab]').length === 1")
    for name, button in (("jouster.r", "replace"), ("sniper.r", "add-sample")):
        # what a list of choices looks like, and how one chooses in it, is the browser's matter
        page.js("document.getElementById('sample').value = arguments[0]", name)
        reader.press(by_id(button))
        page.wait("return [...document.querySelectorAll('#tabs [role=tab]')].at(-1).textContent === arguments[0]", name)
    show_first(reader)
    return "jouster.r", "sniper.r"


def show_first(reader: Reader) -> None:
    """The first robot is shown, of two of which the other one was."""
    reader.reach(by_id("tab-0"))
    if reader.has_keys:
        reader.tab("document.querySelector('#tabs [aria-selected=true]')")
        reader.chord(LEFT)
    else:
        reader.point(by_id("tab-0"))
    reader.page.wait("return document.getElementById('tab-0').getAttribute('aria-selected') === 'true'")


def win(reader: Reader) -> tuple[str, str]:
    """A better robot wins more than half of its matches. Returns its name and that of its opponent."""
    page = reader.page
    names = {"step": win_by_step, "sample": win_by_sample}[reader.way.wins_by](reader)
    reader.press(by_id("run"))
    told(page, "#report", f" {names[0]}")
    won = page.js("return /^Totals: (\\d+) match[^]*1\\) won (\\d+) .* (\\S+)$/m.exec(document.getElementById('report').textContent)")
    if won[3] != names[0] or 2 * int(won[2]) <= int(won[1]):
        raise TimeoutError(f"no win: {won}")
    return names


def save_and_send(reader: Reader, name: str) -> None:
    """The robot is saved, and a link to the battle is made."""
    page = reader.page
    page.js("window.saved = ''; HTMLAnchorElement.prototype.click = function () { window.saved = this.download; }")
    reader.press(by_id("save"))
    page.wait("return window.saved === arguments[0]", name)
    reader.press(by_id("link"))
    page.wait("return location.hash.startsWith('#battle=') || document.getElementById('said').textContent.startsWith('This page is a file')")


def open_a_friends(reader: Reader) -> None:
    """A friend's link is opened, or followed in the open page; it is changed, or only looked at."""
    page, battle = reader.page, Battle([("friend.r", FRIEND.encode())])
    if reader.way.friends == "followed":
        page.show(battle)
    else:
        page.open(fragment(battle))
    told(page, "#linked", "This battle came with a link, ")
    if reader.way.friends != "looked at":
        reader.edit()
        reader.write(" ")
        page.wait("return !location.hash")


def come_back(reader: Reader, names: tuple[str, str]) -> None:
    """The next day one's own robots are there, or a button leads to them; and all battles are in the list."""
    page = reader.page
    page.open()
    is_kept, is_own = reader.way.friends != "looked at", reader.way.wins_by == "sample"
    if is_kept:
        reader.press("document.querySelector('#linked button')")
    # a step that was only tried is no battle of one's own
    page.wait("return document.getElementById('tab-0').textContent === arguments[0]", names[0] if is_own else "hunter.r")
    reader.press("document.querySelector('#kept summary')")
    page.wait("return document.getElementById('kept').open")
    wanted = sorted([*([", ".join(names)] if is_own else []), "hunter.r, sniper.r", *(["friend.r"] if is_kept else [])])
    page.wait("return [...document.querySelectorAll('#entries > li > button:first-child')].map(it => it.textContent).sort().join('; ') === arguments[0]", "; ".join(wanted))
    reader.press("[...document.querySelectorAll('#entries button')].find(it => it.textContent === 'hunter.r, sniper.r')")
    page.wait("return document.querySelector('.CodeMirror').CodeMirror.getValue().startsWith(arguments[0])", MINE)


def whole(reader: Reader) -> Iterator[tuple[str, Callable[[], Any]]]:
    """The parts of a way, by their names."""
    names = ("", "")

    def won() -> None:
        nonlocal names
        names = win(reader)

    yield "the page", lambda: starts_well(reader)
    yield "write and mend", lambda: write_and_mend(reader)
    yield "watch the hit", lambda: watch_the_hit(reader)
    yield "look why", lambda: look_why(reader)
    yield "share the moment", lambda: share_the_moment(reader)
    yield "bring back", lambda: bring_back(reader)
    yield "win", won
    yield "save and send", lambda: save_and_send(reader, names[0])
    yield "open a friend's", lambda: open_a_friends(reader)
    yield "come back", lambda: come_back(reader, names)


def path(page: Page, folder: str, way: Way) -> list[str]:
    """The whole way; what is wrong with it. How long it took is printed."""
    begun = time.monotonic()
    walked = Page(page.driver, "file://" + os.path.join(os.path.abspath(folder), "index.html")) if way.is_file else page
    walked.size(*way.size)
    walked.fresh()
    for name, part in whole(Reader(walked, way)):
        try:
            part()
        except TimeoutError as why:
            return [f"{name}: {why}; {walked.js('return document.body.innerText').splitlines()[:40]}"]
    print(f"{way.name} in {page.driver.name} took {time.monotonic() - begun:.1f} s")
    page.whole_window()
    return []


def walked_by(browser: str) -> tuple[Way, ...]:
    """The ways that a browser walks at each run."""
    at = BROWSERS.index(browser)
    first, last = (len(WAYS) * it // len(BROWSERS) for it in (at, at + 1))
    return WAYS if os.environ.get("CROBOTS_PATHS") == "all" else WAYS[first:last]


def tests(browser: str, folder: str) -> Tests:
    """The tests by their names."""
    yield from ((way.name, partial(path, folder=folder, way=way)) for way in walked_by(browser))
