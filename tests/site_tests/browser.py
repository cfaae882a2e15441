"""Tests of a made site in headless Chromium: at three widths, in light and dark, by keys; and that a replay opens."""

from __future__ import annotations

import contextlib
import json
import os
import tempfile
import time
from dataclasses import replace
from functools import partial
from typing import Callable, Iterator

from browsers import SECONDS, Browser, chromium, tries
from harness import skip
from packages import lacking
from results.verdicts import Verdict
from sites.publishing import publish

from . import made
from .filming import replays, stand_in
from .pages import HUNTER_FILE, many
from .reading import Element, links, parsed, rows
from .units import unpacked

Results = Iterator[tuple[str, bool]]
WIDTHS = (360, 768, 1366)
PAGES = ("index.html", "map.html", "settings.html", "robots/hunter.r.html",
         "robots/_3cscript_3ealert_281_29_3c_2fscript_3e.r.html", "pair.html#_2e_2e/hunter.r",
         "pair.html#folder_2fhunter.r/hunter.r")
# What is wider than the page, though it is in no box that scrolls.
WIDE = """[...document.querySelectorAll("main *")].filter(it => !it.closest(".scroll, .listing, .unseen, .skip")
    && it.getBoundingClientRect().right > innerWidth + 1).map(it => it.outerHTML.slice(0, 80))"""
FOCUSED = "document.activeElement.textContent.trim().slice(0, 40) + '|' + document.activeElement.tagName"


def results() -> Results:
    """Each test with whether it passed."""
    if not chromium():
        skip("the site in a browser", lacking(["chromium"]))
        return
    with tempfile.TemporaryDirectory() as place, stand_in(place), tries() as browsers:
        site = os.path.join(place, "site")
        publish(made.league(), site, replays=1)
        parts: dict[str, Callable[[Browser], Results]] = {
            "looks": partial(looks, site=site), "keys": partial(keys, site=site), "a pair": partial(a_pair, site=site), "verdicts": partial(verdicts, place=place),
            "opponents": partial(opponents, site=site), "the dense map": partial(the_dense_map, place=place),
            "a replay": partial(replay, path=os.path.join(site, *sorted(replays(site))))}
        for name, part in parts.items():
            yield from browsers.checks(f"sites: {name}", part)


def looks(browser: Browser, site: str) -> Results:
    """No page is wider than the window, whose colours are those of its theme; the console stays empty."""
    for width in WIDTHS:
        for dark in (False, True):
            browser.look(width, 800, dark)
            for page in PAGES if not dark else PAGES[:1]:
                load(browser, site, page)
                wide = browser.value("document.documentElement.scrollWidth")
                yield f"{page} at {width}: {wide} {browser.value(WIDE)}", wide <= width and not browser.value(WIDE)
            ground = browser.value("getComputedStyle(document.body).backgroundColor")
            yield f"the theme at {width}: {ground}", (sum(map(int, ground[4:-1].split(","))) < 150) == dark
    yield f"the console {browser.messages}", not browser.messages


def keys(browser: Browser, site: str) -> Results:
    """The keys go to the content, the pages and the robots, and a cell of the map leads to its pair."""
    browser.load(os.path.join(site, "index.html"))
    found = []
    for _ in range(7):
        tab(browser)
        found.append(browser.value(FOCUSED))
    yield f"the way of the key Tab {found}", found == [
        "to the content|A", "A league of <robots>|A", "Table|A", "Pairs|A", "Settings|A",
        browser.value("document.querySelector('.scroll').textContent.trim().slice(0, 40) + '|DIV'"), "hunter.r|A"]
    browser.load(os.path.join(site, "map.html"))
    browser.value("document.querySelector('td a').click()")
    yield "a cell leads to its pair", has_heading(browser, f"hunter.r against {made.SCRIPT}")


def load(browser: Browser, site: str, page: str) -> None:
    """Loads a page of the site, and waits until its script has shown the pair that its address names, if it names one."""
    place, mark, files = page.partition("#")
    browser.load(os.path.join(site, place), mark + files)
    if mark:
        browser.value("new Promise((done, fail) => { setTimeout(() => fail(new Error('no pair is shown')), 10000);"
                      " const look = () => document.getElementById('pair').dataset.shown === location.hash ? done() : setTimeout(look, 2); look(); })")


def rendered(browser: Browser, site: str, page: str) -> Element:
    """A page as the browser shows it."""
    load(browser, site, page)
    # the links to the browser's page are packed meanwhile
    browser.value("new Promise(done => setTimeout(done, 20))")
    return parsed(browser.value("document.documentElement.outerHTML"), page)


def a_pair(browser: Browser, site: str) -> Results:
    """The page of a pair says what the facts say, from the side of the robot that is higher in the table."""
    page = rendered(browser, site, "pair.html#_2e_2e/hunter.r")
    facts = {it.one("dt").text(): it.one("dd").text().replace("\u00a0", " ") for it in page.one("dl").all("div")}
    yield "the heading", page.one("h1").text() == "hunter.r against .."
    yield "the title", page.one("title").text() == "hunter.r against .. · A league of <robots>"
    yield "the score", facts == {
        "Matches": "10", "Won, tied, lost": "6 won, 1 tied, 3 lost, of which both lost 1",
        "Share": "70.0 %, 95 % interval 39.8 % to 89.2 %", "Verdict": "which of them is better may be chance"}
    yield "by seat", rows(page.one("table")) == [
        ["Seat of hunter.r", "Seat of ..", "Played", "Won", "Tied", "Lost", "Share", "Results"],
        ["1", "2", "5", "4", "0", "1", "80.0\u00a0%", ""], ["2", "1", "5", "2", "1", "2", "60.0\u00a0%", ""]]
    cards = [*page.all("article")]
    yield "matches", [it.one("h3").text() for it in cards] == ["Closest, longest", "Shortest", "Greatest upset"]
    seats = [[part.text() for part in it.all("span") if "unseen" not in part.classes()] for it in cards[2].all("li")]
    yield "bars say that they are damage", not any("unseen" in part.classes() for it in cards for part in it.all("span"))
    yield "where the other matches are", "These are 3 of 10 matches. The table above counts how the other 7 ended, too." in page.text()
    yield "its seats", seats == [["..", "won", " 12 % damage"], ["hunter.r", "lost", " 100 % damage"]]
    words = cards[1].one("pre").text().split(" ")
    yield "its command line", words[:7] == ["crobots", "-f1", "-m1", "-l500000", f"-s{2**64 - 1}", "-p1", HUNTER_FILE]
    yield "its files", os.path.isfile(os.path.join(site, words[7])) and words[7].startswith("sources/_2e_2e-")
    link = next(href for href in links(cards[1]) if href.startswith(made.PAGE))
    battle = json.loads(unpacked(link[len(made.PAGE):]))
    yield "its link", [it["name"] for it in battle["robots"]] == ["hunter.r", ".."] and battle["settings"] == {
        "matches": 1, "limit": 500000, "seed": str(2**64 - 1), "first": 1, "profile": 1}
    yield "its link's sources", battle["robots"][0]["source"] == made.SOURCE.decode() + "/* 0 */\n"
    yield from all_matches(page)
    yield from bad_addresses(browser, site)


def all_matches(page: Element) -> Results:
    """Beside those that are worth a look each other match of the pair is reached: by the browser's page, and by a command line."""
    parts = [it for it in page.all("div") if "series" in it.classes()]
    yield "what the series are", [it.one("p").text() for it in parts] == [
        "Matches 1 to 5, hunter.r in the first seat", "Matches 1 to 3, .. in the first seat", "Matches 7 to 8, .. in the first seat"]
    battles = [json.loads(unpacked(next(iter(links(it)))[len(made.PAGE):])) for it in parts]
    common = {"limit": 500000, "profile": 1}
    yield "the series' links", [([robot["name"] for robot in it["robots"]], it["settings"]) for it in battles] == [
        (["hunter.r", ".."], common | {"matches": 5, "seed": str(2**64 - 1), "first": 1}),
        (["..", "hunter.r"], common | {"matches": 3, "seed": "8", "first": 1}),
        (["..", "hunter.r"], common | {"matches": 2, "seed": "9", "first": 7})]
    yield "all matches are there", f"{sum(it['settings']['matches'] for it in battles)}" == next(
        it.one("dd").text() for it in page.one("dl").all("div") if it.one("dt").text() == "Matches")
    words = [it.one("pre").text().split(" ") for it in parts]
    yield "the series' command lines", words[2][:6] == ["crobots", "-f7", "-m2", "-l500000", "-s9", "-p1"] and words[2][7] == words[0][6] == HUNTER_FILE


def bad_addresses(browser: Browser, site: str) -> Results:
    """An address that names no pair says so, whatever it is; the order of the robots makes no difference."""
    for mark in ("", "#", "#hunter.r", "#hunter.r/hunter.r", "#hunter.r/gone.r", "#../robots/hunter.r", "#constructor/hunter.r",
                 "#hunter.r/__proto__", "#<b>/hunter.r", "#a/b/c"):
        browser.load(os.path.join(site, "pair.html"), mark)
        yield f"the address {mark!r}", has_text(browser, "There is no such pair on this site.")
    browser.load(os.path.join(site, "pair.html"), "#hunter.r/_2e_2e")
    yield "the robots exchanged", has_heading(browser, "hunter.r against ..")
    browser.value("location.hash = '#_43_4f_4e/hunter.r'")
    yield "another pair", has_heading(browser, "hunter.r against CON")
    yield f"the console of pairs {browser.messages}", not browser.messages


def has_text(browser: Browser, wanted: str) -> bool:
    """Waits for a text in the main part."""
    end = time.monotonic() + SECONDS
    while time.monotonic() < end:
        if wanted in browser.value("document.querySelector('main').textContent"):
            return True
        time.sleep(0.05)
    return False


def verdicts(browser: Browser, place: str) -> Results:
    """Each verdict in words, from the side of the robot that is higher in the table: the second robot of each pair is it."""
    facts = made.league(2)
    said = {("better", 30): f"{made.SCRIPT} is better, by the test after 30 matches", ("worse", 1010): "hunter.r is better, by the test after 1,010 matches",
            ("even", 40): "even: neither is better by much, by the test after 40 matches", ("not decided", 20): "not decided after 20 matches",
            ("better", 0): f"{made.SCRIPT} is better", ("not decided", 0): "which of them is better may be chance"}
    pair = replace(facts.pairs[0], one=made.SCRIPT, other="hunter.r")
    for at, ((what, matches), wanted) in enumerate(said.items()):
        site = os.path.join(place, f"verdict {at}")
        publish(replace(facts, pairs=(replace(pair, verdict=Verdict(what, matches)),)), site)
        page = rendered(browser, site, "pair.html#_3cscript_3ealert_281_29_3c_2fscript_3e.r/hunter.r")
        found = next(it.one("dd").text() for it in page.one("dl").all("div") if it.one("dt").text() == "Verdict")
        yield f"the verdict {what} {matches}: {found}", found == wanted


def opponents(browser: Browser, site: str) -> Results:
    """All opponents of a robot, when they are asked for; each leads to its pair."""
    browser.load(os.path.join(site, "robots", "hunter.r.html"))
    browser.value("document.querySelector('[data-opponents]').closest('details').open = true")
    yield "all opponents are shown", has_text(browser, "All opponents, in the order of the table")
    page = parsed(browser.value("document.documentElement.outerHTML"), "hunter")
    table = next(it for it in page.all("table") if it.one("caption").text().startswith("All opponents"))
    found = rows(table)
    yield "their rows", len(found) == len(made.NAMES) and found[1][:6] == [
        made.SCRIPT, "70.0\u00a0%", "39.8\u00a0% to 89.2\u00a0%", "6", "1", "3"]
    hrefs = links(table)
    yield "their links", hrefs[1] == "../pair.html#_3cscript_3ealert_281_29_3c_2fscript_3e.r/hunter.r" and all(
        os.path.isfile(os.path.join(site, "robots", href.partition("#")[0])) for href in hrefs)


def the_dense_map(browser: Browser, place: str) -> Results:
    """A cell of a large map leads to its pair, and is named where the pointer is."""
    site = os.path.join(place, "many")
    publish(many(25), site)
    browser.load(os.path.join(site, "map.html"))
    cell = "document.querySelectorAll('tbody tr')[3].cells[8]"
    browser.value(f"{cell}.dispatchEvent(new MouseEvent('mouseover', {{bubbles: true}}))")
    yield "a cell's name", browser.value(f"{cell}.title") == "3.r against 7.r"
    browser.value(f"{cell}.click()")
    yield "a cell of a large map leads to its pair", has_heading(browser, "3.r against 7.r")


def has_heading(browser: Browser, wanted: str) -> bool:
    """Waits for a page with this heading. A page that is left meanwhile answers nothing."""
    end = time.monotonic() + SECONDS
    while time.monotonic() < end:
        with contextlib.suppress(RuntimeError):
            if browser.value("document.querySelector('h1').textContent") == wanted:
                return True
        time.sleep(0.1)
    return False


def tab(browser: Browser) -> None:
    """Presses the key Tab."""
    for kind in ("rawKeyDown", "keyUp"):
        browser.call("Input.dispatchKeyEvent", type=kind, key="Tab", code="Tab", windowsVirtualKeyCode=9)


def replay(browser: Browser, path: str) -> Results:
    """A replay opens, and plays."""
    browser.load_replay(path)
    browser.value("document.querySelector('#play-pause').click()")
    yield "a replay opens", browser.value("document.querySelectorAll('#robots li').length") == 2
    yield f"a replay's console {browser.messages}", not browser.messages
