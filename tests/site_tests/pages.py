"""Tests of the pages of a made site: they are whole, safe, can be read by all, and say what the facts say."""

from __future__ import annotations

import csv
import functools
import hashlib
import json
import os
import re
import tempfile
from dataclasses import replace
from decimal import Decimal
from typing import Iterator

from results.scores import Score
from results.standings import Rating
from sites.facts import BySeat, Facts, Pair, Robot
from sites.publishing import publish

from . import made
from .reading import Element, data, dangling, files, links, pairs, read, rows

Results = Iterator[tuple[str, bool]]
ROBOTS = len(made.NAMES)
ARCHIVE = b"sources, settings and results"
HUNTER_FILE = f"sources/hunter-{hashlib.sha256(made.SOURCE + b'/* 0 */' + bytes([10])).hexdigest()[:12]}.r"


def results() -> Results:
    """Each test with whether it passed."""
    with tempfile.TemporaryDirectory() as place:
        archive = os.path.join(place, "League 1.tar")
        with open(archive, "wb") as file:
            file.write(ARCHIVE)
        folder = os.path.join(place, "site")
        publish(made.league(archive=archive), folder)
        yield from whole(folder)
        yield from safe(folder)
        yield from sane(folder)
        yield from the_table(folder)
        yield from the_map(folder)
        yield from a_pairs_data(folder)
        yield from a_robot(folder)
        yield from the_settings(folder)
        yield from the_data(folder)
        yield from the_other_side(folder, place)
        yield from with_less(place)
        yield from trends(place)


@functools.cache
def pages(folder: str) -> dict[str, Element]:
    """All pages by their places."""
    return {place: read(os.path.join(folder, place)) for place in sorted(files(folder)) if place.endswith(".html")}


def whole(folder: str) -> Results:
    """Every link leads to a file, and every file is found."""
    found, wrong = dangling(folder)
    there = files(folder)
    yield f"links lead somewhere {wrong[:3]}", not wrong
    yield f"all files are found {there ^ found}", there - found == {"site.list"}
    yield "all pairs", len(pairs(folder)) == ROBOTS * (ROBOTS - 1) // 2 and all(one < other for one, other in pairs(folder))
    yield "a page each", sum(it.startswith("robots/") for it in there) == ROBOTS == sum(it.startswith("data/") for it in there)
    # four robots have an older version, which is the same bytes: yet each has its own file
    yield "a source each", sum(it.startswith("sources/") for it in there) == ROBOTS + 4
    yield "names for all systems", all(re.fullmatch(r"[a-z0-9._/-]+", it) for it in there)


def safe(folder: str) -> Results:
    """No script but the site's own, and nothing from elsewhere."""
    for place, page in pages(folder).items():
        policy = next(it.attributes["content"] for it in page.all("meta")
                      if it.attributes.get("http-equiv") == "Content-Security-Policy")
        scripts = [it for it in page.all("script")]
        wanted = "default-src 'none'; style-src 'self'; img-src data:; base-uri 'none'; form-action 'none'"
        yield f"{place}: the policy", policy == wanted + "; script-src 'self'" * bool(scripts)
        own = {"src": "../" * place.count("/") + "site.js", "defer": ""}
        yield f"{place}: no script but the site's", all(it.attributes == own and not it.children for it in scripts) and len(
            scripts) == (place == "pair.html" or place.startswith("robots/"))
        yield f"{place}: no frame", not any(it.name in ("iframe", "object", "style") for it in page.all())
        names = {name for it in page.all() for name in it.attributes if it.name != "script"}
        yield f"{place}: no handler", not any(name.startswith("on") or name in ("style", "src") for name in names)
        out = [href for href in links(page) if re.match("[a-z]+:|//", href)]
        known = all(href.startswith(made.PAGE + "#battle=") or href == "data:," for href in out)
        yield f"{place}: nothing from elsewhere", known


def sane(folder: str) -> Results:
    """Headings one below another, names for what scrolls or is drawn, heads and captions of tables."""
    for place, page in pages(folder).items():
        levels = [int(it.name[1]) for it in page.all() if re.fullmatch("h[1-6]", it.name)]
        yield f"{place}: headings", levels[0] == 1 and levels.count(1) == 1 and all(
            after <= before + 1 for before, after in zip(levels, levels[1:]))
        yield f"{place}: heads of tables", all(it.attributes.get("scope") in ("row", "col") for it in page.all("th"))
        first = [next(child.name for child in it.children if isinstance(child, Element)) for it in page.all("table")]
        yield f"{place}: captions", {*first} <= {"caption"}
        yield f"{place}: rows of tables", all(len({len(row) for row in rows(it)}) == 1 for it in page.all("table"))
        yield f"{place}: drawings", all(it.attributes.get("aria-label") if it.attributes.get("role") == "img"
                                        else it.attributes.get("aria-hidden") == "true" for it in page.all("svg"))
        yield f"{place}: what scrolls", all(it.attributes.get("role") == "region" and it.attributes.get("aria-label")
                                            for it in page.all() if "tabindex" in it.attributes)
        yield f"{place}: links have names", all(it.text().strip() or it.attributes.get("title") for it in page.all("a"))
        yield f"{place}: language, title, main part", page.one("html").attributes["lang"] == "en" and bool(
            page.one("title").text()) and len([*page.all("main")]) == 1


def the_table(folder: str) -> Results:
    """The rows of the table are those of the facts."""
    page = read(os.path.join(folder, "index.html"))
    found = rows(page.one("table"))
    head = ["Rank", "Trend", "Robot", "Points a match", "Rating", "95\u00a0% interval", "Played", "Won", "Tied", "Lost",
            "Results"]
    yield "the head", [it for at, it in enumerate(found[0]) if at != 5] == head
    # 11 opponents: the first robot wins 6 of 10 against each, and ties 1
    yield "the first row", found[1][:5] + found[1][6:] == [
        "1", "=same ", "hunter.r", "1.900", "2000", "1940 to 2060", "110", "66", "11", "33", ""]
    # it wins 6 against each of 10, and 2 against the first
    yield "the second row", found[2][:5] + found[2][6:] == [
        "2", "▲up 1", made.SCRIPT + "Ada <Lovelace>", "1.791", "250", "190 to 310", "110", "62", "11", "37", ""]
    yield "a robot that fell", [*found[3][:3], found[3][4]] == ["3", "▼down 1", made.NAMES[2], "200≈"]
    yield "a new robot", found[12][1:3] + found[12][4:7:2] == ["new", "-m1Ada <Lovelace>", "−250≈", "−310 to −190"]
    yield "names", [row[2].removesuffix("Ada <Lovelace>") for row in found[3:]] == [
        made.NAMES[2], "  two  blanks .r", "caf\ufffd.r", *made.NAMES[5:]]
    drawn = [[it.name for it in row.all() if it.name in ("circle", "path")] for row in page.all("tr")]
    yield "an outlier is clipped", drawn == [[], ["path"], *[["circle"]] * 11]
    yield "how many", "12 robots · 660 matches" in page.text()


def the_map(folder: str) -> Results:
    """The cells of the map are shares, and lead to the pairs."""
    page = read(os.path.join(folder, "map.html"))
    found = rows(page.one("table"))
    wanted = [[*["30"] * one, "", *["70"] * (ROBOTS - 1 - one)] for one in range(ROBOTS)]
    yield "shares", [row[1:] for row in found[1:]] == wanted
    cells = [it for it in page.all("td") if [*it.all("a")]]
    yield "colours", {(it.text(), *it.classes()) for it in cells} == {("70", "h14"), ("30", "h6")}
    first = cells[0].one("a").attributes
    yield "a cell leads to its pair", first["href"] == "pair.html#_3cscript_3ealert_281_29_3c_2fscript_3e.r/hunter.r"
    yield "a cell in words", first["title"] == f"hunter.r against {made.SCRIPT}: 70.0\u00a0%"


def a_pairs_data(folder: str) -> Results:
    """A robot's data: its source, its pairs from its side, and in full those whose other robot's file comes later."""
    one, other = data(folder, "data/_2e_2e.js"), data(folder, "data/hunter.r.js")
    yield "a robot's source", (other["file"], other["name"], other["source"]) == (
        HUNTER_FILE, "hunter.r", made.SOURCE.decode() + "/* 0 */\n")
    yield "a pair's score, by both", one["pairs"]["hunter.r"][:3] == [[2, 1, 7, 1], [0.108, 0.602], ["not decided"]] and (
        other["pairs"]["_2e_2e"] == [[6, 1, 3, 1], [0.398, 0.892], ["not decided"]])
    yield "a pair by seat, by one", one["pairs"]["hunter.r"][3] == [
        [1, 2, 1, 1, 3, 1, "8", 1, 3, "9", 7, 2], [2, 1, 1, 0, 4, 0, f"{2**64 - 1}", 1, 5]]
    seed = 2**64
    yield "its matches", one["pairs"]["hunter.r"][4] == [
        [5, [1, 98, 0, 100], 6, str(seed - 6), 90], [2, [1, 5, 0, 100], 1, str(seed - 1), 15], [8, [0, 12, 1, 100], 7, str(seed - 7), 105]]
    every = data(folder, "robots.js")
    yield "what all have in common", {**every, "robots": ""} == {"limit": 500_000, "profile": 1, "page": made.PAGE, "robots": ""}
    yield "the robots in the order of the table", every["robots"][:2] == [
        ["hunter.r", "hunter.r"], ["_3cscript_3ealert_281_29_3c_2fscript_3e.r", made.SCRIPT]]


def hash_of(path: str) -> str:
    with open(path, "rb") as file:
        return hashlib.file_digest(file, "sha256").hexdigest()


def a_robot(folder: str) -> Results:
    """The page of a robot."""
    page = read(os.path.join(folder, "robots", "hunter.r.html"))
    sections = {it.one("h2").text(): it for it in page.all("section")}
    yield "its parts", [*sections] == ["Rating over time", "Opponents", "Shots and damage", "Versions", "Source"]
    yield "its source", [it.text() for it in sections["Source"].all("span") if "line" in it.classes()] == [
        *made.SOURCE.decode().splitlines(), "/* 0 */"]
    tables = {it.one("caption").text(): rows(it) for it in page.all("table")}
    versions = tables["Versions, the last one first"]
    yield "its versions", [row[0] for row in versions[1:]] == ["2026-11-10", "2026-10-01"]
    found = [hash_of(os.path.join(folder, "robots", it.attributes["href"]))[:16] for it in sections["Versions"].all("a")]
    yield f"each version's link leads to its source {found}", found == [row[1] for row in versions[1:]]
    yield "all opponents", [it.attributes["data-opponents"] for it in page.all("div") if "data-opponents" in it.attributes] == ["hunter.r"]
    best = tables["Its best opponents"]
    yield "its best opponents", len(best) == 6
    yield "its best opponent", best[1][1:6] == ["70.0\u00a0%", "39.8\u00a0% to 89.2\u00a0%", "6", "1", "3"]
    yield "its rating over time", [row[:3] for row in tables["Rating by day"][1:]] == [
        ["2026-11-22", "1", "2000"], ["2026-11-15", "1", "250"], ["2026-11-08", "1", "250"], ["2026-11-01", "1", "250"]]
    chart = sections["Rating over time"].one("svg")
    changes = [it for it in chart.all("line") if "change" in it.classes()]
    yield "the chart", (len([*chart.all("circle")]), len(changes)) == (4, 1)
    label = "Rating from 2026-11-01 to 2026-11-22: from 250 to 2000"
    yield "the chart in words", chart.attributes["aria-label"] == label
    yield from another_robot(folder)


def another_robot(folder: str) -> Results:
    """The page of a robot with a bad name, and of one whose source is no UTF-8."""
    other = read(os.path.join(folder, "robots", "_3cscript_3ealert_281_29_3c_2fscript_3e.r.html"))
    yield "a bad name", other.one("h1").text() == made.SCRIPT and "by Ada <Lovelace>" in other.text()
    lost = [it for it in other.all("section") if it.one("h2").text() == "Last lost matches"]
    worst = next(rows(it) for it in other.all("table") if it.one("caption").text() == "Its worst opponents")
    yield "its worst opponents", [row[:2] for row in worst[1:3]] == [
        ["hunter.r", "30.0\u00a0%"], [made.NAMES[-1], "70.0\u00a0%"]]
    yield "a lost match", [it.one("h3").text() for it in lost[0].all("article")] == ["Against hunter.r"]
    latin = read(os.path.join(folder, "robots", "caf_ed_b3_a9.r.html"))
    yield "a source that is no UTF-8", "/* caf\ufffd */ main() { }" in latin.text()
    there = next(href for href in links(latin) if "/sources/" in href)
    with open(os.path.join(folder, "robots", there), "rb") as file:
        yield "its file is the same bytes", file.read() == made.LATIN


def the_settings(folder: str) -> Results:
    """The page of settings."""
    page = read(os.path.join(folder, "settings.html"))
    facts = {it.one("dt").text(): it.one("dd").text() for part in page.all("dl") for it in part.all("div")}
    yield "settings", facts == {
        "Played as": "pairs", "Matches of a group": "10", "Cycles of a match, at most": "500,000", "Seed": "7",
        "Language profile": "1", "Sample": "every pair", "Version": "crobots <1>", "SHA-256 of its file": "ab" * 32,
        "File": f"League 1.tar ({len(ARCHIVE)} bytes)", "SHA-256": hashlib.sha256(ARCHIVE).hexdigest(),
        "Hash of the publication": "cd" * 32}
    yield "how it is checked", page.one("pre").text() == "crobots-league verify 20 'the archive.tar'"
    with open(os.path.join(folder, "archive", "_4ceague_201.tar"), "rb") as file:
        yield "the archive", file.read() == ARCHIVE


def the_data(folder: str) -> Results:
    """The same as data."""
    with open(os.path.join(folder, "table.csv"), encoding="utf-8", newline="") as file:
        table = [*csv.DictReader(file)]
    yield "the table as CSV", len(table) == ROBOTS and {**table[2]} == {
        "division": "1", "rank": "3", "robot": made.NAMES[2], "name": made.NAMES[2], "author": "", "played": "110", "won": "58",
        "tied": "11", "lost": "41", "points": "1.682", "rating": "200.0", "low": "140.0", "high": "260.0",
        "close": "close"}
    with open(os.path.join(folder, "pairs.csv"), encoding="utf-8", newline="") as file:
        pairs = [*csv.DictReader(file)]
    yield "the pairs as CSV", len(pairs) == ROBOTS * (ROBOTS - 1) and {**pairs[ROBOTS - 1]} == {
        "robot": made.SCRIPT, "against": "hunter.r", "played": "10", "won": "2", "tied": "1", "lost": "7",
        "both_lost": "1", "share": "0.3", "low": "0.108", "high": "0.602", "verdict": "not decided"}
    with open(os.path.join(folder, "site.json"), encoding="utf-8") as file:
        told = json.load(file)
    yield "settings as JSON", told["settings"] == {
        "matches": 10, "cycles": 500000, "seed": 7, "profile": 1, "sizes": [2], "Sample": "every pair"}
    listed = [it["page"] for it in told["robots"] + told["pairs"]] + [it["data"] for it in told["robots"]]
    yield "places as JSON", all(os.path.isfile(os.path.join(folder, it.partition("#")[0])) for it in listed)
    row = told["table"][2]
    yield f"a row as JSON {row}", {**row, "points": round(row["points"], 3)} == {
        "division": 1, "rank": 3, "robot": made.NAMES[2], "played": 110, "won": 58, "tied": 11, "lost": 41, "points": 1.682,
        "rating": 200.0, "low": 140.0, "high": 260.0, "close": True}
    place = told["earlier"][0]["table"][made.NAMES[1]]
    yield f"an earlier row as JSON {place}", [place[it] for it in ("rank", "rating", "low", "high")] == [3, 150.0, 90.0, 210.0]
    pair = told["pairs"][0]
    yield "a pair as JSON", [pair[it] for it in ("won", "tied", "lost", "both_lost", "share", "low", "high", "verdict")] == [
        6, 1, 3, 1, 0.7, 0.398, 0.892, "not decided"]
    yield "a match as JSON", {**told["robots"][1]["lost"][0], "command": ""} == {
        "robots": ["hunter.r", made.SCRIPT], "damage": [0, 100], "match": 4001, "seed": 2**64 - 4001, "cycles": 15, "command": ""}
    yield "names as JSON", [it["name"] for it in told["robots"]] == made.NAMES


def the_other_side(folder: str, place: str) -> Results:
    """Which robot of a pair comes first makes no difference."""
    facts = made.league()
    seats = BySeat(2, 1, Score(1, 0, 4, 0), made.FIRST), BySeat(1, 2, Score(1, 1, 3, 1), made.SECOND)
    turned = tuple(Pair(it.other, it.one, Score(2, 1, 7, 1), 0.108, 0.602, seats, it.notable) for it in facts.pairs)
    other = os.path.join(place, "turned")
    publish(replace(facts, pairs=turned), other)
    same = [one for one in files(folder) if one.endswith((".html", ".js")) and one != "settings.html"]
    yield "a pair's other side", all(content(folder, it) == content(other, it) for it in same)


def content(folder: str, place: str) -> bytes:
    with open(os.path.join(folder, place), "rb") as file:
        return file.read()


def with_less(place: str) -> Results:
    """Sites of which less is known."""
    few = made.league(3, "")
    less = replace(few, day="", earlier=(), robots=tuple(Robot(it.id, it.name, it.versions) for it in few.robots))
    robots = (*less.robots, replace(made.robot(3, "gone.r"), withdrawn="2026-11-20", lost=(), versions=()))
    some: dict[str, Facts] = {
        "a tournament": less, "a robot that was withdrawn": replace(less, robots=robots),
        "equal robots": replace(less, standings=tuple(
            replace(it, rating=Rating(0.0, 0.0, 0.0)) for it in less.standings)),
        "a single robot": replace(less, robots=less.robots[:1], standings=less.standings[:1], pairs=()),
        "nothing": replace(less, robots=(), standings=(), pairs=()),
        "many robots": many(25),
    }
    for name, facts in some.items():
        folder = os.path.join(place, name)
        publish(facts, folder)
        found, wrong = dangling(folder)
        yield f"{name}: links lead somewhere", not wrong and files(folder) - found == {"site.list"}
    page = read(os.path.join(place, "a tournament", "index.html"))
    yield "no trend without an earlier table", rows(page.one("table"))[0][:2] == ["Rank", "Robot"]
    yield "no link to a page that isn't given", data(os.path.join(place, "a tournament"), "robots.js")["page"] == ""
    page = read(os.path.join(place, "a robot that was withdrawn", "index.html"))
    yield "a robot that isn't in the table", "gone.r, withdrawn on 2026-11-20" in page.text()
    page = read(os.path.join(place, "many robots", "map.html"))
    cells = [it for it in page.one("tbody").all("td")]
    yield "many robots: cells have their colours alone", len(cells) == 625 and all(
        it.classes() == (["same"] if at % 26 == 0 else ["h10"]) and len(it.attributes) == 1 and not it.children for at, it in enumerate(cells))


def trends(place: str) -> Results:
    """A trend is one since a table of the same season, and within the division."""
    facts = made.league(3)
    site = os.path.join(place, "another season")
    publish(replace(facts, season="two", earlier=tuple(replace(it, season="one") for it in facts.earlier)), site)
    yield "no trend since another season", rows(read(os.path.join(site, "index.html")).one("table"))[0][:2] == ["Rank", "Robot"]
    moved = replace(facts.earlier[-1], places={robot: replace(it, division=2) for robot, it in facts.earlier[-1].places.items()})
    site = os.path.join(place, "another division")
    publish(replace(facts, earlier=(moved,)), site)
    yield "no trend from another division", [row[1] for row in rows(read(os.path.join(site, "index.html")).one("table"))[1:]] == ["new"] * 3


def many(robots: int) -> Facts:
    """More robots than there are bad names, all equal."""
    few = made.league(2)
    rows = [replace(few.standings[0], robot=f"{at}.r", rank=1, points=Decimal(1)) for at in range(robots)]
    among = [Robot(f"{at}.r", f"{at}.r", (made.version(made.SOURCE),)) for at in range(robots)]
    pairs = [Pair(f"{one}.r", f"{other}.r", Score(5, 0, 5), 0.2, 0.8) for one in range(robots) for other in range(one)]
    return replace(few, robots=tuple(among), earlier=(), standings=tuple(rows), pairs=tuple(pairs))
