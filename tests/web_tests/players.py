"""Tests of the film's keys on the page, of the whole screen for a projector, and of the question before work is left that isn't kept."""

from __future__ import annotations

from .battles import Battle, Settings
from .keeping import BLOCKED, FILL, NO_DATABASE, OWN
from .pages import Page, Tests

PLAYER = "document.getElementById('film').contentWindow.player"
# what the film shows after a key: its cycle, whether it plays, the robot that is chosen
PRESS = f"""const player = {PLAYER}, view = document.getElementById('film').contentWindow;
    view.document.getElementById('play-pause').dispatchEvent(new view.KeyboardEvent('keydown', {{key: arguments[0], bubbles: true, cancelable: true}}));
    const found = [Math.floor(player.cycle), player.isPlaying, player.chosen]; return found"""
# from cycle 90 on; a blank on a button presses it, so that one is tried on the field
KEYS: tuple[tuple[str, list[object]], ...] = (
    ("ArrowRight", [105, False, 0]), ("ArrowLeft", [90, False, 0]), (".", [91, False, 0]), (",", [90, False, 0]), ("1", [90, False, 1]), ("2", [90, False, 2]),
    ("3", [90, False, 3]), ("4", [90, False, 4]), ("4", [90, False, 0]), ("End", [3_000, False, 0]), ("Home", [0, False, 0]))
FOUR = [(f"{name}.r", b"main() { while (1) drive(0, 0); }") for name in ("a", "b", "c", "d")]
LARGE = """const size = name => parseFloat(it.defaultView.getComputedStyle(it.querySelector(name)).fontSize);
    return [Boolean(it.fullscreenElement), size('.robots .name'), size('.robots .percent'), it.querySelector('.robots .bar').offsetHeight]"""
ASKS = "const it = new Event('beforeunload', {cancelable: true}); dispatchEvent(it); return it.defaultPrevented"


def keys(page: Page) -> list[str]:
    """Keys as a player has them: space, arrows, comma and point, 1 to 4, the ends; with a robot shown from inside they do the same once."""
    page.show(Battle(FOUR, Settings(limit=3_000)))
    page.watch(1, 90)
    wrong = [f"{key}: {got}, not {wanted}" for key, wanted in KEYS if (got := page.js(PRESS, key)) != wanted]
    page.js("document.getElementById('inside').open = true")
    page.wait("return document.querySelector('#inside-source .current')")
    got = [page.js(PRESS, key)[0] for key in "...,"]
    page.js("document.getElementById('inside').open = false")
    blank = page.inside("const view = it.defaultView; it.body.dispatchEvent(new view.KeyboardEvent('keydown', {key: ' ', bubbles: true, cancelable: true}));"
                        "const {isPlaying} = view.player; it.body.dispatchEvent(new view.KeyboardEvent('keydown', {key: ' ', bubbles: true, cancelable: true}));"
                        "return [isPlaying, view.player.isPlaying]")
    return wrong + ([] if got == [1, 2, 3, 2] and blank == [True, False] else [f"from inside {got}, blanks {blank}"])


def whole_screen(page: Page) -> list[str]:
    """The key F shows the match on the whole screen, with names and bars that are read from afar, and F again as before."""
    page.show(Battle(FOUR[:2], Settings(limit=3_000)))
    page.watch(1)
    before, seen = page.inside(LARGE), []
    page.driver.switch_to.frame(page.driver.find_element("id", "film"))
    for is_whole in (True, False):
        page.driver.switch_to.active_element.send_keys("f")
        page.wait("return Boolean(document.fullscreenElement) === arguments[0] && document.documentElement.classList.contains('full') === arguments[0]", is_whole)
        seen.append(page.js(f"const it = document; {LARGE}"))
    page.driver.switch_to.default_content()
    right = before[0] is False and seen[0][0] and min(seen[0][1:3]) >= 28 and seen[0][3] >= 18 and seen[1] == before
    return [] if right else [f"before {before}, then {seen}"]


def leaving(page: Page) -> list[str]:
    """Leaving asks if something of one's own isn't kept: where the storage is refused or full, and not before anything is changed."""
    asked = []
    page.fresh()
    asked.append(page.js(ASKS))
    page.write(OWN)
    asked.append(page.js(ASKS))
    with page.before(BLOCKED):
        page.open()
        asked.append(page.js(ASKS))
        page.write(OWN)
        asked.append(page.js(ASKS))
    page.driver.get("about:blank")
    page.forget()
    with page.before(NO_DATABASE):
        page.open()
        page.write(OWN)
        page.js(FILL)
        page.write(OWN + "/* more and more */" * 20)
        asked.append(page.js(ASKS))
        page.js("Object.keys(localStorage).filter(it => it.startsWith('filler')).forEach(it => localStorage.removeItem(it))")
        page.write(OWN)
        asked.append(page.js(ASKS))
    return [] if asked == [False, False, False, True, True, False] else [f"{asked}"]


def tests() -> Tests:
    """The tests by their names."""
    yield "the film's keys", keys
    yield "the whole screen", whole_screen
    yield "leaving what isn't kept", leaving
