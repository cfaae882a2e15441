"""Tests of the site of a tournament that is played: its numbers are those of the matches, command lines play them."""

from __future__ import annotations

import csv
import io
import os
import re
import shlex
import shutil
import subprocess
import sys
import tempfile
from collections import Counter, defaultdict
from decimal import Decimal
from typing import Iterator

from browsers import Browser, chromium, tries
from harness import skip
from packages import lacking
from results.tallies import Tally
from sites.facts import Facts
from sites.publishing import publish
from sites.tournament_facts import facts_of_tournament, kept_sources
from tournaments.records import Record, played
from tournaments.robots import Robot, in_order, names
from tournaments.standings import Weighed, standings

from .browser import rendered
from .filming import replays
from .reading import Element, dangling, files, links, pairs, read, rows
from .writing import write

Results = Iterator[tuple[str, bool]]
HERE = os.path.dirname(os.path.abspath(__file__))
TOP = os.path.normpath(os.path.join(HERE, "..", ".."))
SETTINGS = ("-m4", "-l20000", "--points", "3,1")
COMMANDS, REPLAYS = 40, 6
PERCENTS = "[...document.querySelectorAll('#robots .percent')].map(it => parseInt(/[0-9]+/.exec(it.textContent)))"
Row = dict[str, str]


def results(trace: str = "", crobots: str = "") -> Results:
    """Each test with whether it passed."""
    if not crobots:
        skip("the site of a tournament that is played", "no programs were given")
        return
    with tempfile.TemporaryDirectory() as place:
        paths = robots(place)
        journal = os.path.join(place, "journal")
        words = [sys.executable, os.path.join(TOP, "scripts", "tournament"), *SETTINGS, "--quiet", "--crobots", crobots,
                 "--journal", journal]
        table, long = (told([*words, form, *paths]) for form in ("--csv", "--long"))
        facts = read_journal(journal)
        site = os.path.join(place, "site")
        publish(facts, site)
        found, wrong = dangling(site)
        yield "links lead somewhere", not wrong and files(site) - found == {"site.list"}
        yield from the_option(words, paths, site)
        yield from the_table(site, table)
        if not chromium():
            skip("pairs and replays", lacking(["chromium"]))
            return
        with tries() as browsers:
            shown: dict[tuple[str, str], Element] = {}
            yield from browsers.checks("sites: pairs", lambda browser: show(browser, site, shown))
            yield from the_pairs(shown, long)
            yield from the_command_lines(site, crobots, shown)
            yield from the_replays(facts, site, trace)
            yield from browsers.checks("sites: replays", lambda browser: the_ends(browser, site))


def show(browser: Browser, site: str, shown: dict[tuple[str, str], Element]) -> Results:
    """Takes the page of each pair as the browser shows it."""
    shown.update({place: rendered(browser, site, f"pair.html#{'/'.join(place)}") for place in sorted(pairs(site))})
    yield "each pair is shown", True


def robots(place: str) -> list[str]:
    """Ten sample robots, and two of them changed a little. The strongest three are left out: they would win all matches."""
    folder = os.path.join(place, "robots")
    left_out = shutil.ignore_patterns("*.md", "boxer.r", "jouster.r", "shuttle.r")
    shutil.copytree(os.path.join(TOP, "robots"), folder, ignore=left_out)
    for name in ("hunter", "sniper"):
        with open(os.path.join(folder, f"{name}.r"), encoding="utf-8") as file, \
                open(os.path.join(folder, f"{name} <2>.r"), "w", encoding="utf-8") as other:
            other.write(file.read() + "/* another */\n")
    return sorted(os.path.join(folder, name) for name in os.listdir(folder))


def told(words: list[str]) -> list[Row]:
    """The rows that a tournament writes."""
    ran = subprocess.run(words, capture_output=True, text=True, check=True)
    return [*csv.DictReader(io.StringIO(ran.stdout))]


def read_journal(path: str) -> Facts:
    """The facts of the tournament of a journal."""
    with open(path, encoding="utf-8") as file:
        records: list[Record] = [played(line) for line in file]
    among: list[Robot] = in_order({robot for it in records for robot in it.robots})
    tally, scoring = Tally(), Weighed(Decimal(3), Decimal(1))
    for it in records:
        tally.add(it.series.seats, it.ended)
    table = standings(tally, names([it.path for it in among]), scoring)
    return facts_of_tournament("A tournament", records[0].settings, scoring, among, kept_sources(among), table, records,
                               "https://example.org/")


def the_option(words: list[str], paths: list[str], site: str) -> Results:
    """The option --html writes the same site, also if the robots were changed after they were played."""
    other = os.path.join(os.path.dirname(site), "other")
    options = ["--html", other, "--title", "A tournament", "--page", "https://example.org/", "--replays", "0"]
    told([*words, "--csv", *options, *paths])
    yield "the option --html", not subprocess.run(["diff", "-r", site, other], check=False).returncode
    write(other, "robots/hunter.r.html", "changed by someone")
    ran = subprocess.run([*words, *options[:2], "--title", "Another", *paths], capture_output=True, text=True, check=False)
    yield "a site is written over", (ran.returncode, ran.stderr) == (0, "") and "Another" in read(
        os.path.join(other, "robots", "hunter.r.html")).one("title").text()
    os.unlink(os.path.join(other, "site.list"))
    ran = subprocess.run([*words, *options, *paths], capture_output=True, text=True, check=False)
    yield f"a file in the way {ran.stderr!r}", ran.returncode == 3 and ran.stdout.startswith("rank") and ran.stderr.count("\n") == 1


def the_table(site: str, table: list[Row]) -> Results:
    """The rows are those that the tournament writes itself."""
    found = rows(read(os.path.join(site, "index.html")).one("table"))[1:]
    minus = "\N{MINUS SIGN}"
    wanted = [[it["rank"], it["robot"], it["points"], it["rating"].replace("-", minus) + ("≈" if it["close"] else ""),
               f"{it['low']} to {it['high']}".replace("-", minus), it["played"], it["won"], it["tied"], it["lost"]]
              for it in table]
    yield "the table", [[*it[:4], *it[5:10]] for it in found] == wanted
    yield "all robots", len(found) == 12


def the_pairs(shown: dict[tuple[str, str], Element], long: list[Row]) -> Results:
    """The pages of pairs, counted from all matches."""
    ended: dict[tuple[str, str], list[Row]] = defaultdict(list)
    for row in long:
        ended[row["seed"], row["match"]].append(row)
    counts: dict[tuple[str, str], Counter[str]] = defaultdict(Counter)
    for both in ended.values():
        for mine, theirs in (both, both[::-1]):
            died = [int(it["damage"]) >= 100 for it in (mine, theirs)]
            result = "lost" if died[0] else "won" if died[1] else "tied"
            counts[mine["robot"], theirs["robot"]][f"{result} {mine['seat']}"] += 1
    yield "all pairs", len(shown) == 66 == len(counts) // 2
    for page in shown.values():
        one, other = page.one("h1").text().split(" against ")
        counted = counts[one, other]
        by_seat = [[f"{seat}", f"{3 - seat}", "2", *(str(counted[f"{it} {seat}"]) for it in ("won", "tied", "lost"))]
                   for seat in (1, 2)]
        yield f"{one} against {other} by seat", [it[:6] for it in rows(page.one("table"))[1:]] == by_seat
        won, tied, lost = (counted[f"{it} 1"] + counted[f"{it} 2"] for it in ("won", "tied", "lost"))
        upsets = [survivor(it) for it in page.all("article") if "upset" in it.one("h3").text()]
        was_beaten = any(counts[other, one][f"won {seat}"] for seat in (1, 2))
        yield f"{one} against {other}: an upset", upsets == ([other] if was_beaten else [])
        yield f"{one} against {other}", f"{won} won, {tied} tied, {lost} lost" in page.one("dl").text()


def survivor(card: Element) -> str:
    """Who won a match."""
    return next(it.one("bdi").text() for it in card.all("li") if "won" in it.text())


def cards(site: str, pages: dict[tuple[str, str], Element]) -> list[tuple[str, Element]]:
    """All matches that pages of robots and pairs show, each with its page."""
    robots = [it for it in sorted(files(site)) if it.startswith("robots/")]
    every = {it: read(os.path.join(site, it)) for it in robots} | {f"pair.html#{'/'.join(two)}": page for two, page in pages.items()}
    return [(place, card) for place, page in every.items() for card in page.all("article")]


def shown(card: Element) -> tuple[list[str], str, list[str]]:
    """The words, the cycles and the damages of a match."""
    cycles = re.findall(r", ([\d,]+) cycles", card.text())[0].replace(",", "")
    return shlex.split(card.one("pre").text()), cycles, re.findall(r" (\d+) % damage", card.text())


def the_command_lines(site: str, crobots: str, pages: dict[tuple[str, str], Element]) -> Results:
    """Command lines, run in the site's folder, play the matches that are shown."""
    found = cards(site, pages)
    yield "many matches", len(found) > 150
    for place, card in found[::len(found) // COMMANDS]:
        words, cycles, damages = shown(card)
        ran = subprocess.run([crobots, *words[1:]], cwd=site, capture_output=True, text=True, check=False)
        ended = re.findall(r"cycles = (\d+)|damage +(\d+)%", ran.stdout)
        yield f"{place}: {shlex.join(words)}", ["".join(it) for it in ended] == [cycles, *damages]
    lost = [(place, card) for place, card in found if place.startswith("robots/")]
    for place, card in lost:
        name = read(os.path.join(site, place)).one("h1").text()
        mine = next(it for it in card.all("li") if it.one("bdi").text() == name)
        yield f"{place}: {card.one('h3').text()}", " 100 % damage" in mine.text()


def the_replays(facts: Facts, site: str, trace: str) -> Results:
    """Replays by the program."""
    folder = os.path.dirname(site)
    os.symlink(trace, os.path.join(folder, "crobots-trace"))
    before = os.environ["PATH"]
    os.environ["PATH"] = f"{folder}:{before}"
    try:
        publish(facts, site, replays=REPLAYS, jobs=4)
    finally:
        os.environ["PATH"] = before
    yield "replays are made", len(replays(site)) == REPLAYS and not dangling(site)[1]


def the_ends(browser: Browser, site: str) -> Results:
    """Replays open in the browser with the damages that are shown."""
    linked = [(place, card, href) for place, card in cards(site, {}) for href in links(card) if "replays/" in href]
    for place, card, href in linked[:2]:
        browser.load_replay(os.path.normpath(os.path.join(site, os.path.dirname(place), href)))
        browser.value("document.querySelector('#to-end').click()")
        percents = browser.value(PERCENTS)
        yield f"{place}: the replay's damages {percents}", [str(it) for it in percents] == shown(card)[2]
