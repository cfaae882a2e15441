"""Tests that the page loses nothing: samples, links, two tabs, removal, a storage that is full or blocked, undo, files, versions."""

from __future__ import annotations

import json
import os
import re
import tempfile
import time
from typing import Any

from .battles import Battle, samples
from .pages import SECONDS, Page, Tests, fragment

OWN = "main() { while (1) drive(10, 20); }"
FRIEND = "main() { while (1) drive(30, 40); }"
NO_DATABASE = "Object.defineProperty(window, 'indexedDB', {get() { return undefined; }});"
BLOCKED = NO_DATABASE + "Object.defineProperty(window, 'localStorage', {get() { throw new DOMException('no', 'SecurityError'); }})"
FILL = "let text = 'x'.repeat(1 << 20); while (text) try { localStorage.setItem('filler' + localStorage.length, text); } catch { text = text.slice(0, text.length >> 1); }"
MIRROR = "document.querySelector('.CodeMirror').CodeMirror"


def sources(page: Page) -> set[str]:
    """All sources that the browser keeps."""
    return {source for robots in page.entries() for _, source in robots}


def a_sample(page: Page) -> list[str]:
    """A sample that is chosen by a key replaces nothing; added it is a robot more; put in place of one it can be undone."""
    page.fresh()
    page.write(OWN)
    page.js("document.getElementById('sample').focus()")
    page.press("ARROW_DOWN", "ARROW_DOWN")
    wrong = [] if page.source == OWN and len(page.names) == 2 else ["a key in the list replaces the robot"]
    page.js("document.getElementById('sample').value = 'pilot.r'")
    page.click("add-sample")
    wrong += [] if page.names == ["hunter.r", "sniper.r", "pilot.r"] else [f"added: {page.names}"]
    page.js("document.getElementById('tab-0').click()")
    page.click("replace")
    replaced = page.names[0], page.source == dict(samples())["pilot.r"].decode()
    wrong += [] if replaced == ("pilot.r", True) else [f"replaced: {replaced}"]
    page.choose("noted", "Undo")
    back = page.names[0], page.source
    return wrong + ([] if back == ("hunter.r", OWN) and OWN in sources(page) else [f"undone: {back}"])


def a_link(page: Page) -> list[str]:
    """A link and a key leave one's own robots where they were; the page leads back to them, and lists both battles."""
    page.fresh()
    page.write(OWN)
    page.open(fragment(Battle([("friend.r", FRIEND.encode())])))
    page.js(f"{MIRROR}.replaceRange(' ', {{line: 0, ch: 0}})")
    wrong = [] if {OWN, f" {FRIEND}"} <= sources(page) else [f"after a key: {sources(page)}"]
    page.choose("linked", "Back to my robots")
    wrong += [] if page.source == OWN and page.names[0] == "hunter.r" else [f"back: {page.names}"]
    page.js("document.getElementById('kept').open = true")
    page.wait("return document.getElementById('entries').children.length === 2")
    page.choose("entries", "friend.r")
    page.wait("return document.getElementById('tab-0').textContent === 'friend.r'")
    return wrong + ([] if page.source == f" {FRIEND}" else ["the list doesn't lead to the friend's battle"])


def a_link_in_the_open_page(page: Page) -> list[str]:
    """A link that is followed in the open page displaces robots that nothing keeps, which is said before the first change; the way back
    has them too."""
    page.forget()
    with page.before(BLOCKED):
        page.open()
        told = page.seen("unkept")
        page.write(OWN)
        page.show(Battle([("friend.r", FRIEND.encode())]))
        page.choose("linked", "Back to my robots")
        wrong = [] if page.source == OWN else [page.source]
    return wrong + ([] if told.startswith("This browser keeps nothing of this page") else [f"a blocked storage: {told!r}"])


def next_day(page: Page) -> list[str]:
    """After a friend's link was only looked at, the page opens with one's own robots."""
    page.fresh()
    page.write(OWN)
    page.open(fragment(Battle([("friend.r", FRIEND.encode())])))
    page.run()
    page.open()
    return [] if page.source == OWN else [page.source]


def many_steps(page: Page) -> list[str]:
    """Unchanged samples, as the steps have them, are no battles of one's own, also if they are run; thirty of one's own all stay."""
    page.fresh()
    for number in range(30):
        page.click("new")
        page.js(f"{MIRROR}.setValue('/* {number} */ main(){{}}')")
    page.js("document.getElementById('start').open = true")
    for _ in range(2):
        page.js("document.querySelectorAll('#steps button').forEach(it => it.click())")
        page.run()
    page.js("document.getElementById('kept').open = true")
    page.wait("return document.getElementById('entries').children.length >= 30")
    numbers = sorted(int(source.split()[1]) for source in sources(page) if source.startswith("/* ") and source.split()[1].isdigit())
    listed = page.js("return document.getElementById('entries').children.length")
    return [] if sorted(set(numbers)) == [*range(30)] and listed == 30 else [f"{numbers}, {listed} listed"]


def two_tabs(page: Page) -> list[str]:
    """Two tabs with the same battle: the page says that there is a second change, and both are kept."""
    driver = page.driver
    page.fresh()
    page.write(OWN)
    first = driver.current_window_handle
    driver.switch_to.new_window("tab")
    try:
        page.open()
        page.write("main() { /* second */ }")
        driver.switch_to.window(first)
        page.wait("return !document.getElementById('noted').hidden")
        told = [page.seen("noted")]
        page.write("main() { /* first */ }")
        told.append(page.seen("noted"))
        page.wait("return !document.getElementById('noted').hidden")
        kept = sources(page)
    finally:
        driver.switch_to.window(driver.window_handles[-1])
        driver.close()
        driver.switch_to.window(first)
    wrong = [] if {"main() { /* first */ }", "main() { /* second */ }"} <= kept else [f"kept: {kept}"]
    told_well = told[0].startswith("This battle was changed in another tab.") and told[1].startswith("Another tab has changed this battle too.")
    return wrong + ([] if told_well else [f"told: {told}"])


def removing(page: Page) -> list[str]:
    """To remove a robot is asked, and can be undone."""
    page.fresh()
    page.write(OWN)
    page.click("remove")
    wrong = [] if page.js("return document.getElementById('asking').open") else ["removing doesn't ask"]
    page.press("ESCAPE")
    page.wait("return !document.getElementById('asking').open")
    wrong += [] if len(page.names) == 2 else ["a no removes"]
    page.click("remove")
    page.choose("answers", "Remove it")
    page.wait("return document.querySelectorAll('#tabs [role=tab]').length === 1")
    page.choose("noted", "Undo")
    return wrong + ([] if page.names == ["hunter.r", "sniper.r"] and page.source == OWN else [f"undone: {page.names}"])


def full(page: Page) -> list[str]:
    """The page says that the storage is full, and that there is room again. It has no database here."""
    page.forget()
    with page.before(NO_DATABASE):
        page.open()
        return fills(page)


def fills(page: Page) -> list[str]:
    """Fills the storage, and frees it again."""
    page.write(OWN)
    page.js(FILL)
    page.write(OWN + "/* more and more */" * 20)
    told = page.seen("unkept")
    page.js("Object.keys(localStorage).filter(it => it.startsWith('filler')).forEach(it => localStorage.removeItem(it))")
    page.write(OWN)
    later = page.seen("unkept")
    right = told.startswith("The storage is full: your last changes aren't kept.") and later == ""
    return [] if right and OWN in sources(page) else [f"full: {told!r}, later {later!r}"]


def making_room(page: Page) -> list[str]:
    """Where there is no more room the oldest versions without a name go first, and the page says how many."""
    page.forget()
    with page.before(NO_DATABASE):
        page.open()
        texts = [f"/* {number} */ main() {{ }}\n" + "/* a long text */\n" * 1000 for number in range(5)]
        for number, text in enumerate(texts):
            if number == 4:
                page.js(FILL)
            page.write(text)
            page.run()
        page.wait("return document.getElementById('noted').textContent.startsWith('To make room, the oldest ')")
        told, kept = page.seen("noted"), sources(page)
        page.js("Object.keys(localStorage).filter(it => it.startsWith('filler')).forEach(it => localStorage.removeItem(it))")
    gone = re.match(r"To make room, the oldest (\d) versions? without a name went, up to that of ", told)
    right = gone and [text in kept for text in texts] == [number >= int(gone[1]) for number in range(5)]
    return [] if right else [f"{told} {[text in kept for text in texts]}"]


def undo(page: Page) -> list[str]:
    """What was written can be undone after another tab was shown."""
    page.fresh()
    page.write(OWN)
    page.js("document.getElementById('tab-1').click(); document.getElementById('tab-0').click()")
    page.js(f"{MIRROR}.undo()")
    return [] if page.source == dict(samples())["hunter.r"].decode() else [page.source[:80]]


def dropped(page: Page, files: dict[str, str]) -> None:
    """Drops files on the page."""
    page.js("const data = new DataTransfer(); Object.entries(arguments[0]).forEach(([name, text]) => data.items.add(new File([text], name)));"
            "document.body.dispatchEvent(new DragEvent('drop', {dataTransfer: data, bubbles: true, cancelable: true}))", files)
    page.wait("return document.getElementById('noted').textContent.includes('opened')")


def opening(page: Page) -> list[str]:
    """Files become robots: several at once, by the button or dropped; the page says what doesn't fit."""
    page.fresh()
    with tempfile.TemporaryDirectory() as folder:
        paths = [os.path.join(folder, name) for name in ("one.r", "two.r")]
        for path in paths:
            with open(path, "w", encoding="utf-8") as file:
                file.write(OWN)
        page.js("document.getElementById('files').hidden = false")
        page.driver.find_element("id", "files").send_keys("\n".join(paths))
        page.wait("return document.getElementById('noted').textContent.includes('opened')")
        page.js("document.getElementById('files').hidden = true")
    wrong = [] if page.names == ["hunter.r", "sniper.r", "one.r", "two.r"] and page.source == OWN else [f"{page.names}"]
    dropped(page, {"three.r": FRIEND})
    told = page.seen("noted")
    wrong += [] if told.startswith("0 of 1 files opened. Not opened: three.r.") and len(page.names) == 4 else [told]
    page.click("remove")
    page.choose("answers", "Remove it")
    page.wait("return document.querySelectorAll('#tabs [role=tab]').length === 3")
    dropped(page, {"three.r": FRIEND})
    return wrong + ([] if page.names[-1] == "three.r" and page.source == FRIEND else [f"dropped: {page.names}"])


def saving(page: Page) -> list[str]:
    """A robot is saved as a file, whose name ends in .r."""
    page.fresh()
    page.write(OWN)
    page.set("name", "mine")
    with tempfile.TemporaryDirectory() as folder:
        page.driver.execute_cdp_cmd("Browser.setDownloadBehavior", {"behavior": "allow", "downloadPath": folder})
        page.click("save")
        path = os.path.join(folder, "mine.r")
        end = time.monotonic() + SECONDS
        while not os.path.exists(path) and time.monotonic() < end:
            time.sleep(0.02)
        if not os.path.exists(path):
            return [f"no file mine.r: {os.listdir(folder)}"]
        with open(path, encoding="utf-8") as file:
            text = file.read()
    return [] if text == OWN else [text]


def former(page: Page) -> list[str]:
    """What an earlier page kept is there as one of the battles."""
    page.forget()
    page.js("localStorage.setItem('crobots', JSON.stringify({robots: [{name: 'old.r', source: arguments[0]}]}))", OWN)
    page.open()
    return [] if page.names == ["old.r"] and page.source == OWN else [f"{page.names}"]


def undo_leaves_newer(page: Page) -> list[str]:
    """Undo of a removal brings that robot back, and leaves what was written and set since; after a link there is no such undo."""
    page.fresh()
    page.write(OWN)
    page.js("document.getElementById('tab-1').click()")
    page.click("remove")
    page.choose("answers", "Remove it")
    page.wait("return document.querySelectorAll('#tabs [role=tab]').length === 1")
    page.click("add")
    page.write(FRIEND)
    page.set("matches", "7")
    page.choose("noted", "Undo")
    kept = page.names, page.js("return document.getElementById('matches').value"), page.js("document.getElementById('tab-2').click()"), page.source
    wrong = [] if kept == (["hunter.r", "sniper.r", "robot1.r"], "7", None, FRIEND) else [f"{kept}"]
    page.click("replace")
    page.show(Battle([("friend.r", FRIEND.encode())]))
    undo_there = page.js("return [...document.querySelectorAll('#noted button')].map(it => it.textContent)")
    return wrong + ([] if page.names == ["friend.r"] and "Undo" not in undo_there else [f"{page.names} {undo_there}"])


def replaced_is_found(page: Page) -> list[str]:
    """A robot that a sample took the place of is among the battles after a reload, and comes back from there."""
    page.fresh()
    page.write(OWN)
    page.click("replace")
    page.open()
    page.js("document.getElementById('kept').open = true; document.getElementById('wanted-battle').value = 'drive(10, 20)';"
            "document.getElementById('wanted-battle').dispatchEvent(new Event('input'))")
    page.wait("return document.querySelector('#entries button')")
    page.js("document.querySelector('#entries button').click()")
    page.wait("return document.querySelector('.CodeMirror').CodeMirror.getValue() === arguments[0]", OWN)
    return []


def versions(page: Page) -> list[str]:
    """A robot's versions are compared with it by lines and brought back; a version is named, found, and deleted with the room told."""
    page.fresh()
    page.write("main() {\n  drive(1, 2);\n}\n")
    page.run()
    page.write("main() {\n  drive(3, 4);\n}\n")
    page.js("document.getElementById('versions').open = true")
    page.wait("return document.querySelector('#robot-versions button')")
    page.choose("robot-versions", "Compare with now")
    rows = page.js("return [...document.querySelectorAll('#robot-versions .diff span')].map(it => it.textContent)")
    wrong = [] if rows == ["  main() {\n", "-   drive(1, 2);\n", "+   drive(3, 4);\n", "  }\n", "  \n"] else [f"{rows}"]
    page.choose("robot-versions", "Bring back")
    page.wait("return document.querySelector('.CodeMirror').CodeMirror.getValue().includes('drive(1, 2)')")
    wrong += [] if any("drive(3, 4)" in source for source in sources(page)) else ["the newer text is lost"]
    page.js("document.getElementById('kept').open = true")
    page.wait("return document.querySelector('#entries input')")
    page.js("const it = document.querySelector('#entries input'); it.value = 'mine'; it.dispatchEvent(new Event('change'))")
    page.wait("return document.getElementById('entries').textContent.includes('\"mine\"')")
    before = len(page.kept())
    page.choose("entries", "Delete")
    page.choose("answers", "Delete it")
    page.wait("return document.getElementById('noted').textContent.startsWith('Deleted: that frees')")
    return wrong + ([] if len(page.kept()) <= before else [f"{before} before, {len(page.kept())} later"])


def carried(page: Page) -> list[str]:
    """All battles are written into a file; another browser reads it, once."""
    page.fresh()
    page.write(OWN)
    page.run()
    page.js("window.texts = []; const Plain = Blob; window.Blob = class extends Plain { constructor(parts, ...more) { super(parts, ...more); window.texts.push(parts[0]); } };"
            "HTMLAnchorElement.prototype.click = function () { window.saved = this.download; }")
    page.click("export")
    name, text = page.js("return [window.saved, window.texts.at(-1)]")
    page.fresh()
    told = []
    for _ in range(2):
        dropped(page, {name: text.replace('"versions"', '"versions"')})
        told.append(page.seen("noted"))
    dropped(page, {"two.json": two_of(text)})
    told.append(page.seen("noted"))
    right = name == "crobots-battles.json" and page.source == OWN and "2 versions came into 'My battles', 0 were there" in told[2]
    return [] if right else [f"{name} {told} {page.source[:40]}"]


def two_of(text: str) -> str:
    """A file with two versions that no browser has, of one that has one."""
    read = json.loads(text)
    read["versions"] = [{**read["versions"][0], "id": f"other {number}", "line": f"line {number}"} for number in range(2)]
    return json.dumps(read)


def own_link(page: Page) -> list[str]:
    """After a link was copied and the page loaded anew, the battle is still one's own."""
    page.fresh()
    page.write(OWN)
    page.click("link")
    page.wait("return document.getElementById('said').textContent.startsWith('The link')")
    page.open(page.js("return location.hash"))
    wrong = [] if page.source == OWN and page.seen("linked") == "" else [f"{page.source[:40]} {page.seen('linked')}"]
    page.write(f"{OWN} ")
    page.js("document.getElementById('kept').open = true")
    page.wait("return document.querySelector('#entries button')")
    listed = page.text("entries")
    return wrong + (["it is listed as one from a link"] if "from a link" in listed else [])


def tests() -> Tests:
    """The tests by their names."""
    all_: list[Any] = [a_sample, a_link, a_link_in_the_open_page, next_day, many_steps, two_tabs, removing, full, making_room, undo, opening, saving, former,
                        undo_leaves_newer, replaced_is_found, versions, carried, own_link]
    yield from ((f"nothing is lost: {test.__name__.replace('_', ' ')}", test) for test in all_)
