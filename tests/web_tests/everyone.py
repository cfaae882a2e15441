"""Tests that the page is for everyone: widths, contrast, sizes, names, forced colours, no motion, the moment in words."""

from __future__ import annotations

import os
import re
from typing import Any

from .battles import Battle, Settings, samples
from .pages import Page, Tests

WIDTHS = (320, 360, 683, 768, 1366, 1920)
HEIGHT = 800
FAULTY = b"/* a comment */\nmain()\n{\n  int angle;\n  while (scan(angle, 10) == 0) angle += 20;\n  break;\n}\n"
ROLES = {"button", "textbox", "combobox", "spinbutton", "slider", "tab", "listbox", "option", "meter", "Iframe", "link", "dialog", "progressbar"}
# of the page with a film, at any width
LEAST_CONTROLS = 30
OTHERS = ("manual.html", "about.html", "pages/language.html")
MOMENT = r"Cycle 450: 1 at \d+, \d+, damage \d+ percent; 2 at \d+, \d+, damage \d+ percent"


def probe(page: Page) -> None:
    """Puts the script that measures into the page."""
    with open(os.path.join(os.path.dirname(os.path.abspath(__file__)), "probe.js"), encoding="utf-8") as file:
        page.js(file.read())


def widths(page: Page) -> list[str]:
    """No width needs scrolling sideways."""
    wrong = []
    for width in WIDTHS:
        page.size(width, HEIGHT)
        page.fresh()
        page.run()
        page.js("document.querySelectorAll('details').forEach(it => { it.open = true; })")
        wide = page.js("return document.documentElement.scrollWidth - document.documentElement.clientWidth")
        wrong += [f"{width} pixels: {wide} too wide"] if wide > 0 else []
    page.whole_window()
    return wrong


def full_of_things(page: Page) -> None:
    """Shows the page with all that it has: a fault, a report, a film, what is found, lists, help."""
    page.show(Battle([("a.r", FAULTY), *samples()[:2]], Settings(3, 3_000)))
    page.run()
    page.js("document.getElementById('tab-0').click()")
    page.js("document.querySelectorAll('details').forEach(it => { it.open = true; })")
    page.click("find")
    page.set("wanted", "angle")
    page.js("document.querySelector('.CodeMirror').CodeMirror.focus(); document.querySelector('.CodeMirror').CodeMirror.setCursor(4, 17)")
    page.wait("return document.querySelector('.fault-words')")


def film(page: Page) -> None:
    """Shows a film in which somebody is hurt."""
    page.show(Battle([*samples()[3:5], samples()[0]], Settings(1, 30_000)))
    page.watch(1)
    page.inside("it.getElementById('to-end').click(); it.getElementById('describe').click()")


def shown(page: Page, code: str) -> list[tuple[str, Any]]:
    """What code that is given a window answers at each width: of the page with all that it has, and of a film."""
    found = []
    for name, show, view in (("page", full_of_things, "window"), ("film", film, "document.getElementById('film').contentWindow")):
        show(page)
        probe(page)
        for width in WIDTHS:
            page.size(width, HEIGHT)
            found.append((f"{name} at {width} pixels", page.js(code.format(view=view))))
    return found


def contrast(page: Page) -> list[str]:
    """In both themes and at each width texts have a contrast of 4.5 with what is behind them, also selected ones, and borders one of 3."""
    wrong = []
    page.fresh()
    for theme in ("light", "dark"):
        page.media(color_scheme=theme)
        for name, found in shown(page, "return probe({view})"):
            wrong += [f"{theme}, {name}: {it}" for it in found["texts"] + found["borders"]]
        for other in OTHERS:
            page.driver.get(page.address + other)
            probe(page)
            wrong += [f"{theme}, {other}: {it}" for it in page.js("return probe(window).texts")]
        page.open()
    page.media()
    page.whole_window()
    return wrong


def touch(page: Page) -> list[str]:
    """On a screen that is touched all that is pressed is at least 24 pixels high and wide, rows of the listing too."""
    wrong = []
    page.driver.execute_cdp_cmd("Emulation.setTouchEmulationEnabled", {"enabled": True})
    page.fresh()
    page.run()
    page.js("document.querySelectorAll('details').forEach(it => { it.open = true; })")
    page.watch(1)
    probe(page)
    for width in WIDTHS:
        page.driver.execute_cdp_cmd("Emulation.setDeviceMetricsOverride", {"width": width, "height": HEIGHT, "deviceScaleFactor": 2, "mobile": True})
        found = page.js("return [document.querySelectorAll('#code [role=option]').length, probe(window).sizes,"
                        "probe(document.getElementById('film').contentWindow).sizes]")
        wrong += [f"{width}: {it}" for it in found[1]] + [f"{width}, film: {it}" for it in found[2]] + ([] if found[0] > 10 else ["no rows"])
    page.driver.execute_cdp_cmd("Emulation.setTouchEmulationEnabled", {"enabled": False})
    page.whole_window()
    return wrong


def nameless(page: Page) -> list[str]:
    """The controls without a name that a screen reader says."""
    tree = page.driver.execute_cdp_cmd("Accessibility.getFullAXTree", {})["nodes"]
    controls = [node for node in tree if not node["ignored"] and node["role"]["value"] in ROLES]
    wrong = [f"{node['role']['value']} without a name: {node.get('nodeId')}" for node in controls if not node.get("name", {}).get("value", "").strip()]
    return wrong + ([] if len(controls) > LEAST_CONTROLS else [f"{len(controls)} controls"])


def named(page: Page) -> list[str]:
    """At each width each control has a name that a screen reader says, and the editor is a text field of several lines."""
    page.fresh()
    full_of_things(page)
    page.show(Battle(samples()[:2]))
    page.watch(1)
    wrong = []
    for width in WIDTHS:
        page.size(width, HEIGHT)
        wrong += [f"{width}: {it}" for it in nameless(page)]
    page.js("document.getElementById('remove').click()")
    tree = page.driver.execute_cdp_cmd("Accessibility.getFullAXTree", {})["nodes"]
    page.press("ESCAPE")
    page.whole_window()
    asked = [node["name"]["value"] for node in tree if not node["ignored"] and node["role"]["value"] in ("dialog", "button")]
    wrong += [] if {"Remove boxer.r from this battle?", "Remove it", "Cancel"} <= set(asked) else [f"asked: {asked}"]
    kind = page.js("const it = document.querySelector('.CodeMirror [contenteditable]');"
                   "return [it.getAttribute('role'), it.getAttribute('aria-multiline'), it.getAttribute('aria-label')]")
    return wrong + ([] if kind == ["textbox", "true", "Source of the robot"] else [f"{kind}"])


def forced_colours(page: Page) -> list[str]:
    """With forced colours the bars of damage and the tab that is shown are still seen."""
    page.fresh()
    film(page)
    page.media(forced_colors="active")
    bars = page.inside("const view = document.getElementById('film').contentWindow;"
                       "return [...it.querySelectorAll('.bar')].map(bar => [bar, bar.firstChild].map(part => view.getComputedStyle(part).backgroundColor))")
    chosen = page.js("return [0, 1].map(at => getComputedStyle(document.getElementById(`tab-${at}`)).outlineStyle)")
    page.media()
    wrong = [] if bars and all(bar != fill for bar, fill in bars) else [f"bars: {bars}"]
    return wrong + ([] if chosen == ["solid", "none"] else [f"tabs: {chosen}"])


def in_words(page: Page) -> list[str]:
    """The moment is said in words on request, by a key and by a button, and goes with the next one."""
    page.fresh()
    page.watch(1, 450)
    page.driver.switch_to.frame("film")
    page.press("d")
    page.driver.switch_to.default_content()
    said = page.inside("const box = it.getElementById('described'); return [box.textContent, box.getAttribute('role')]")
    place = page.inside("return it.querySelector('#robots .state').textContent")
    page.inside("it.getElementById('update-after').click()")
    later = page.inside("return it.getElementById('described').textContent")
    at = re.match(r"(\d+), (\d+) m", place)
    right = re.fullmatch(MOMENT, said[0]) and said[1] == "status" and at and f"1 at {at[1]}, {at[2]}," in said[0] and later == ""
    return [] if right else [f"{said} {place} {later}"]


# notes at which frames a film's clock was drawn anew; no machine with much else to do changes the times of frames by what it draws late
PICTURES = """window.times = []; const view = it.defaultView;
    new MutationObserver(() => window.times.push(view.document.timeline.currentTime)).observe(it.getElementById('clock'), {childList: true});
    it.getElementById('play-pause').click()"""
MOST_A_PICTURE = 333
IS_QUICK = f"return window.times.some((it, at) => at && it - window.times[at - 1] < {MOST_A_PICTURE})"


def still(page: Page) -> list[str]:
    """For those who want no motion a match plays by still pictures, at most three a second; for others there are more."""
    least = []
    for motion in ("no-preference", "reduce"):
        page.media(reduced_motion=motion)
        page.fresh()
        page.watch(1)
        page.inside(PICTURES)
        page.wait(IS_QUICK if motion == "no-preference" else "return window.times.length > 4")
        times = page.js("return window.times")
        least.append(min(after - before for before, after in zip(times, times[1:])))
    page.media()
    return [] if least[0] < MOST_A_PICTURE <= least[1] else [f"milliseconds between pictures: {least}"]


def tests() -> Tests:
    """The tests by their names."""
    all_: list[Any] = [widths, contrast, touch, named, forced_colours, in_words, still]
    yield from ((f"for everyone: {test.__name__.replace('_', ' ')}", test) for test in all_)
