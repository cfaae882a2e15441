"""Tests of what readers met on the page: links, names, reports, sizes of windows, keys, the film's graph and its frame."""

from __future__ import annotations

import os
import random
from functools import partial
from typing import Any

from .battles import Battle, Settings, samples
from .keeping import dropped
from .pages import MOST_NARROW, Page, Tests, fragment

SIZES = ((1366, 768), (1920, 1080), (740, 360), (683, 384), (360, 740))
STILL = ("still.r", b"main(){}")
# a link carries the text of the first kind, and not that of the second
MUCH, TOO_MUCH = 20_000, 3_000_000
BOXES = """scrollTo(0, 0); const film = document.getElementById('film'), top = film.getBoundingClientRect().top;
    const inside = id => { const it = film.contentDocument.getElementById(id).getBoundingClientRect(); return [top + it.top, top + it.bottom]; };
    const run = document.getElementById('run').getBoundingClientRect();
    return {field: inside('field'), play: inside('play-pause'), run: [run.top, run.bottom], height: [0, innerHeight]}"""
# no frame loads anything
UNLOADED = "['src', 'srcdoc'].forEach(it => Object.defineProperty(HTMLIFrameElement.prototype, it, {set() {}}))"
# the browser refuses the script of what is written into a frame, as far as the page sees
UNSHOWN = """const {write} = Document.prototype;
    Document.prototype.write = function (text) { write.call(this, text.replace(/<script>[^]*<\\/script>/, '')); }"""
COLOURS = """const it = document.getElementById('film').contentDocument.getElementById('damage'), scale = devicePixelRatio;
    const wide = it.width - 60 * scale, from = 60 * scale;
    const data = it.getContext('2d').getImageData(from, 0, wide - from, it.height).data;
    let count = 0;
    for (let at = 0; at < data.length; at += 4) { const [r, g, b, a] = data.slice(at, at + 4); count += a && Math.max(r, g, b) - Math.min(r, g, b) > 60 ? 1 : 0; }
    return count"""


def wrong_link(page: Page, folder: str) -> list[str]:
    """No link is made with a setting out of its limits, and it is said which one."""
    page.fresh()
    wrong = []
    for name, value, word in (("seed", "99999999999999999999", "seed"), ("limit", "0", "most cycles of each"), ("matches", "", "matches")):
        page.set(name, value)
        page.click("link")
        page.wait("return document.getElementById('said').textContent.startsWith('No link')")
        told = page.text("said")
        wrong += [] if told == f"No link: {word} out of the limits." and "#" not in page.driver.current_url else [f"{told} {page.driver.current_url[-40:]}"]
        page.js("document.getElementById('said').textContent = ''")
        page.set(name, "1")
    return wrong


def long_links(page: Page, folder: str) -> list[str]:
    """Of a long battle, and on a page that is a file, a file is offered in place of a link; opened elsewhere it is the same battle."""
    texts = random.Random(1)
    wrong = []
    file = Page(page.driver, "file://" + os.path.join(os.path.abspath(folder), "index.html"))
    for where, letters in ((page, MUCH), (page, TOO_MUCH), (file, 0)):
        where.fresh()
        source = f"main() {{ }} /* {''.join(texts.choices('abcdefghijklmnopqrstuvwxyz', k=letters))} */"
        where.write(source.replace("*/", "*/\n"))
        where.js("window.texts = []; const Plain = Blob; window.Blob = class extends Plain { constructor(parts, ...more) { super(parts, ...more);"
                 "window.texts.push(parts[0]); } }; HTMLAnchorElement.prototype.click = function () { window.saved = this.download; }")
        where.click("link")
        where.wait("return /^(The link|The battle|This page)/.test(document.getElementById('said').textContent)")
        address = where.driver.current_url
        if letters == MUCH:
            wrong += [] if "#battle=" in address else ["no link"]
            continue
        wrong += [] if "#" not in address else [f"a link of {len(address)} letters"]
        where.choose("noted", "Save the battle as a file")
        name, text = where.js("return [window.saved, window.texts.at(-1)]")
        page.fresh()
        dropped(page, {name: text})
        page.wait("return !document.getElementById('linked').hidden")
        wrong += [] if page.source == source.replace("*/", "*/\n") and page.names == ["hunter.r", "sniper.r"] else [f"{page.names} {page.source[:60]}"]
    return wrong


def zeros(page: Page, folder: str) -> list[str]:
    """A seed may begin with zeros: it is the number that they begin."""
    page.show(Battle(samples()[:2], Settings(limit=3_000)))
    page.set("seed", "7")
    plain = page.run()
    page.set("seed", "0" * 23 + "7")
    return [] if page.run() == plain else [page.text("said")]


def mark(page: Page, folder: str) -> list[str]:
    """A byte order mark of a file is a letter of the source."""
    page.fresh()
    dropped(page, {"mark.r": "\ufeffmain() {}\n"})
    page.wait("return document.getElementById('tab-2')")
    return [] if page.source == "\ufeffmain() {}\n" else [repr(page.source)]


def blanks(page: Page, folder: str) -> list[str]:
    """Blanks around a name are no part of it: the tab and the report have it without them at once, and after a link too."""
    page.show(Battle([STILL, ("other.r", STILL[1])], Settings(limit=1)))
    page.set("name", "  a b.r  ")
    before = page.names[0], page.run()
    page.show(Battle([("  a b.r  ", STILL[1]), ("other.r", STILL[1])], Settings(limit=1)))
    after = page.names[0], page.run()
    return [] if before == after and before[0] == "a b.r" else [f"{before}, and then {after}"]


def many_matches(page: Page, folder: str) -> list[str]:
    """Of a long report the page says how many matches can be pressed; what has no number of a film is none of them."""
    page.show(Battle([STILL], Settings(6_000, 1)))
    page.run()
    told = page.seen("report-left")
    wrong = [] if told == "The first 5,000 matches can be pressed. Watch one of the other 1,000 by its number." else [told]
    page.show(Battle([STILL], Settings(20, 1, first=999_990)))
    report, buttons = page.run(), page.js("return [...document.querySelectorAll('#report button')].map(it => Number(it.dataset.match))")
    wrong += [] if buttons == [*range(999_990, 1_000_001)] and report.count("\nMatch ") == 19 else [f"{buttons} {report[-200:]}"]
    return wrong + ([] if page.seen("report-left") == "Matches after number 1,000,000 can't be watched." else [page.seen("report-left")])


def reloaded(page: Page, folder: str) -> list[str]:
    """The report is there after a reload, its matches can be pressed, and it says whether it is of an older battle."""
    page.fresh()
    page.set("matches", "3")
    report = page.run()
    page.driver.refresh()
    page.wait("return document.getElementById('report')?.textContent")
    got = page.text("report"), page.seen("report-age"), page.js("return document.querySelectorAll('#report button').length")
    page.set("seed", "5")
    return [] if got == (report, "", 3) and page.seen("report-age") else [f"{got}"]


def in_sight(page: Page, folder: str) -> list[str]:
    """At each size of a window the field, the play button and Run are in sight at once, and the menu of speeds is beside them; also below
    a notice with a way back to one's own robots."""
    page.size(*SIZES[0])
    page.fresh()
    page.write("main() { drive(1, 1); }")
    page.show(Battle(samples()[:2], Settings(limit=3_000)))
    page.watch(1)
    wrong = []
    for size in SIZES:
        page.size(*size)
        page.wait("return document.getElementById('film').contentDocument.getElementById('field').offsetWidth > 100")
        boxes = page.js(BOXES)
        wrong += [f"{size}: {name} at {box}" for name, box in boxes.items() if box[0] < 0 or box[1] > boxes["height"][1]]
        tops = page.inside("return ['play-pause', 'speed'].map(id => it.getElementById(id).getBoundingClientRect().top)")
        wrong += [f"{size}: the speeds are at {tops}"] if size[0] >= 1366 and abs(tops[0] - tops[1]) > 4 else []
    page.whole_window()
    return wrong


def stepping(page: Page, folder: str) -> list[str]:
    """While one steps inside a robot, the field and the line that it is at are in sight at once."""
    wrong = []
    for seed, size in enumerate(SIZES):
        page.size(*size)
        page.show(Battle(samples()[:2], Settings(limit=3_000, seed=seed)))
        page.watch(1)
        page.js("document.getElementById('inside').open = true")
        page.wait("return document.querySelector('#inside-source .current')")
        page.click("step-into")
        page.wait("return !document.getElementById('inside-at').textContent.startsWith('Cycle 0 ')")
        page.js("document.getElementById('inside-source').scrollIntoView({block: 'nearest'})")
        film, line, height = page.js("const film = document.getElementById('film'), top = film.getBoundingClientRect().top;"
                                     "const of = it => { const {top, bottom} = it.getBoundingClientRect(); return [top, bottom]; };"
                                     "const field = of(film.contentDocument.getElementById('field'));"
                                     "return [field.map(it => it + top), of(document.querySelector('#inside-source .current')), innerHeight]")
        wrong += [] if film[1] > 0.5 * (film[1] - film[0]) and film[0] < height and 0 <= line[0] and line[1] <= height else [f"{size}: {film} {line}"]
        page.js("document.getElementById('inside').open = false")
    page.whole_window()
    return wrong


def long_names(page: Page, folder: str) -> list[str]:
    """No name makes the page wider than a narrow window, whatever is open."""
    wrong = []
    page.size(360, 740)
    for letters in (36, 60):
        page.show(Battle([("W" * letters, STILL[1]), STILL], Settings(2, 100)))
        page.run()
        page.watch(1)
        page.js("document.querySelectorAll('details').forEach(it => { it.open = true; })")
        page.wait("return document.querySelector('#inside-source .current') && document.querySelector('#inside-robot option')")
        for place in ("to-write", "to-fight", "to-watch"):
            page.click(place)
            wide = page.js("return document.documentElement.scrollWidth - document.documentElement.clientWidth")
            wrong += [f"{letters} letters, {place}: {wide} too wide"] if wide > 0 else []
    page.whole_window()
    return wrong


def keys(page: Page, folder: str) -> list[str]:
    """Links lead past all else, to the editor and to the field; Run is a few keys away, and its button says the key that does it at once."""
    page.fresh()
    page.js("document.body.tabIndex = -1; document.body.focus()")
    ways = []
    for _ in range(8):
        page.press("TAB")
        ways.append(page.js("return document.activeElement.id"))
    wrong = [] if ways[:2] == ["to-editor", "to-field"] and "run" in ways else [f"{ways}"]
    wrong += [] if "Ctrl Enter" in page.js("return document.getElementById('run').innerText") else ["no key on the button"]
    page.js("document.getElementById('to-editor').focus()")
    page.press("ENTER")
    page.wait("return document.querySelector('.CodeMirror').contains(document.activeElement)")
    page.watch(1)
    page.js("document.getElementById('to-field').focus()")
    page.press("ENTER")
    page.wait("return document.activeElement.id === 'film'")
    page.js("document.getElementById('name').focus(); document.getElementById('said').textContent = ''")
    page.driver.switch_to.active_element.send_keys("\ue009\ue007")
    page.wait("return document.getElementById('said').textContent.startsWith('Done')")
    return wrong


# whether what has the focus is wholly in the window as far as it fits, and nothing lies over it; what it is, if it isn't
IN_SIGHT = """const it = document.activeElement, {left, top, right, bottom} = it.getBoundingClientRect();
    const [x, y] = [(Math.max(left, 0) + Math.min(right, innerWidth)) / 2, (Math.max(top, 0) + Math.min(bottom, innerHeight)) / 2];
    const there = document.elementFromPoint(x, y), isFree = there && (it.contains(there) || there.contains(it) || it.labels?.[0]?.contains(there));
    const fits = bottom - top > innerHeight / 2 || top >= -1 && bottom <= innerHeight + 1;
    return it === document.body ? "" : isFree && fits && bottom > 0 && top < innerHeight ? "." : `${it.id || it.outerHTML.slice(0, 60)} at ${top} to ${bottom}`"""
MOST_TABS = 150


def focus(page: Page, folder: str) -> list[str]:
    """Who goes through the page by the tab key sees what has the focus, at each size of a window and in each place: nothing lies over it."""
    wrong = []
    for size in SIZES:
        page.size(*size)
        page.fresh()
        page.run()
        total = 0
        for place in ("write", "fight", "watch") if size[0] <= MOST_NARROW else ("fight",):
            page.js(f"document.getElementById('to-{place}').click()")
            count, hidden = stops(page)
            total += count
            wrong += [f"{size}, {place}: {it}" for it in hidden]
        wrong += [] if total > 20 else [f"{size}: {total} stops"]
    page.whole_window()
    return wrong


def stops(page: Page) -> tuple[int, list[str]]:
    """How many stops the tab key makes until it leaves the page, and what isn't in sight when it has the focus."""
    hidden = []
    page.js("document.body.tabIndex = -1; document.body.focus(); scrollTo(0, 0)")
    for count in range(MOST_TABS):
        page.press("TAB")
        seen = page.js(IN_SIGHT)
        if not seen and count:
            break
        hidden += [] if seen == "." else [seen]
    return count, hidden


def graph(page: Page, folder: str) -> list[str]:
    """The graph of damage doesn't tell what comes: it grows with the film; a switch shows all of it."""
    page.show(Battle(samples()[:2], Settings(limit=60_000)))
    page.watch(1)
    page.inside("it.getElementById('damage').scrollIntoView()")
    page.settle()
    counts = [page.js(COLOURS)]
    page.inside("it.getElementById('whole').click()")
    counts.append(page.js(COLOURS))
    page.inside("it.getElementById('whole').click(); it.getElementById('to-end').click()")
    counts.append(page.js(COLOURS))
    return [] if counts[0] * 20 < counts[1] and counts[0] * 20 < counts[2] else [f"{counts} coloured pixels"]


def totals(page: Page, folder: str) -> list[str]:
    """Who won is in sight at once, above the reports of many matches."""
    page.size(1366, 768)
    page.show(Battle([*samples()[:2]], Settings(100, 500)))
    report = page.run()
    page.js("document.getElementById('fought').scrollIntoView()")
    box = page.js("const {top, bottom} = document.getElementById('totals').getBoundingClientRect(); return [top, bottom, innerHeight]")
    shown = page.text("totals")
    page.whole_window()
    return [] if report.endswith(shown) and shown.startswith("Totals: 100 matches\n") and 0 < box[0] < box[1] < box[2] else [f"{box} {shown}"]


def try_it(page: Page, folder: str) -> list[str]:
    """After a step is tried, the battle is run where that is said."""
    page.fresh()
    page.js("document.getElementById('start').open = true; document.querySelector('#steps button').click()")
    page.wait("return document.getElementById('noted').textContent.startsWith('This is a new battle')")
    page.choose("noted", "Run")
    page.wait("return document.getElementById('said').textContent.startsWith('Done')")
    return [] if "step1.r" in page.text("report") else [page.text("report")]


def lazy_frame(page: Page, folder: str) -> list[str]:
    """A film is shown also if the browser loads no frame, which some do late or never. If it doesn't run, the page says so, and Run and Watch
    can be pressed again."""
    with page.before(UNLOADED):
        page.fresh()
        page.watch(1)
    page.driver.get("about:blank")
    with page.before(UNSHOWN):
        page.fresh()
        page.click("watch")
        page.wait("return document.getElementById('told').textContent.startsWith(\"The film's page doesn't run\")")
        free = page.js("return ['run', 'watch'].map(id => document.getElementById(id).disabled)")
    return [] if free == [False, False] else [f"{free}"]


def bars(page: Page, folder: str) -> list[str]:
    """Beside each bar of a film stands that it is damage, in a narrow window too."""
    page.size(360, 740)
    page.fresh()
    page.watch(1)
    words = page.inside("return [...it.querySelectorAll('.percent')].map(one => one.innerText.trim())")
    page.whole_window()
    return [] if len(words) == 2 and all(word.startswith("damage") for word in words) else [f"{words}"]


def own_work_beside_links(page: Page, folder: str) -> list[str]:
    """A link to a battle that is no sample, followed and run, leaves one's own battle the one to come back to."""
    page.fresh()
    page.write("main() { drive(1, 1); }")
    page.show(Battle([("friend.r", b"main() { drive(2, 2); }")]))
    page.run()
    page.choose("linked", "Back to my robots")
    page.wait("return document.querySelector('.CodeMirror').CodeMirror.getValue() === 'main() { drive(1, 1); }'")
    page.open(fragment(Battle([("friend.r", b"main() { drive(2, 2); }")])))
    return [] if page.seen("linked").startswith("This battle came with a link") else [page.seen("linked")]


def moments(page: Page, folder: str) -> list[str]:
    """A link to a moment plays its match from some cycles before it on, whatever was set since; watching keeps the battle, as a run does."""
    page.show(Battle([("mover.r", b"main() { while (1) drive(90, 50); }"), STILL], Settings(limit=3_000, first=2)))
    page.watch(3, 900)
    kept = [source for robots in page.entries() for _, source in robots]
    page.set("limit", "77")
    page.click("link-moment")
    page.wait("return document.getElementById('told').textContent.startsWith('The link')")
    link = page.js("return location.hash")
    page.fresh(link)
    page.wait("return document.getElementById('told').textContent.startsWith('Match 3 can be watched')")
    page.wait("return document.getElementById('film').contentWindow.player.cycle > 600")
    at = page.js("return [document.getElementById('film').contentWindow.player.cycle, document.getElementById('limit').value, document.getElementById('watched').value]")
    right = link.endswith("&match=3&cycle=900") and 600 < at[0] <= 3_000 and at[1:] == ["3000", "3"] and "main() { while (1) drive(90, 50); }" in kept
    return [] if right else [f"{link[-30:]} {at} {kept}"]


TESTS: dict[str, Any] = {
    "a link out of the limits": wrong_link, "links that are too long": long_links, "a seed with zeros": zeros, "a byte order mark": mark,
    "blanks around a name": blanks, "many matches": many_matches, "a report after a reload": reloaded, "in sight at once": in_sight,
    "stepping beside the field": stepping, "long names": long_names, "few keys": keys, "the focus": focus, "a graph that grows": graph, "totals": totals,
    "a step is run": try_it, "a frame that doesn't load": lazy_frame, "bars": bars, "links beside one's own": own_work_beside_links, "a link to a moment": moments,
}


def tests(folder: str) -> Tests:
    """The tests by their names."""
    yield from ((f"seen: {name}", partial(test, folder=folder)) for name, test in TESTS.items())
