"""Tests of what a league's site shows, from databases that are made by hand: divisions, seasons, robots that left, hidden sources."""

from __future__ import annotations

import json
import os
import random
import tempfile
from dataclasses import replace
from decimal import Decimal
from typing import Iterator, Mapping, NamedTuple

from leagues import entries, facts, likeness, naming, publications, seasons
from leagues import results as fought
from leagues.entries import Entry
from leagues.rules import Rules
from leagues.schedules import Schedule
from leagues.standings import standings
from leagues.store import Store, made, opened
from results.verdicts import Verdict
from sites.facts import Facts
from sites.publishing import publish

from .reading import Element, dangling, files, read, rows

Results = Iterator[tuple[str, bool]]
HASH = "ef" * 32
RULES = Rules(matches=2, cycles=300, program="ab" * 32)
# How a match of two ends if the first one, the second one, or both survive.
WINS, LOSES, TIES = "150:0:100", "165:100:0", "300:5:5"


class Played(NamedTuple):
    """A day on which a robot plays another one in both seatings, and what the first robot does, in each."""

    day: str
    one: str
    other: str
    results: tuple[str, str]


def results() -> Results:
    """Each test with whether it passed."""
    with tempfile.TemporaryDirectory() as place:
        yield from divisions(os.path.join(place, "divisions"))
        yield from last_lost(os.path.join(place, "lost"))
        yield from left(os.path.join(place, "left"))
        yield from hidden(os.path.join(place, "hidden"))
        yield from sure(os.path.join(place, "sure"))
    yield from alike()
    yield from ids()


def begin(folder: str, robots: str, rules: Rules = RULES, author: str = "") -> None:
    """Makes a league of robots, each with a letter for its name."""
    with made(folder) as store, store.change():
        seasons.begin(store, "1", "2026-01-01", rules, {})
        for robot in robots:
            entries.add(store, robot, author, source(robot), "2026-01-01")


def source(robot: str) -> bytes:
    return f"main() {{ }} /* {robot} */".encode()


def fight(store: Store, *them: Played) -> None:
    """Keeps results."""
    season = seasons.season(store)
    schedule = Schedule(seasons.field(store, season))
    names = [it.robot for it in schedule.field.robots]
    for it in them:
        pair = tuple(sorted(map(names.index, (it.one, it.other))))
        said = dict(zip((WINS, LOSES, TIES), (LOSES, WINS, TIES)))
        for (seats, seed), result in zip(schedule.seatings(pair), it.results):
            mine = result if names[seats[0]] == it.one else said[result]
            fought.keep(store, season.rules, schedule.seated(seats, seed), 1, mine, it.day)


def shown(store: Store, day: str, copied: Mapping[str, str] = {}) -> Facts:
    """What the site shows of the last season."""
    season = seasons.season(store)
    schedule, found = Schedule(seasons.field(store, season)), fought.Results(store, season.rules)
    return facts.facts_of_league(store, schedule, found, standings(schedule, found), facts.Words("A league", day, "", "", "", {}, {**copied}, HASH))


def keep_table(store: Store, day: str, final: bool = False) -> None:
    """Publishes the table of a day, and ends the season if it is its last one."""
    season = seasons.season(store)
    schedule = Schedule(seasons.field(store, season))
    table = standings(schedule, fought.Results(store, season.rules))
    if final:
        seasons.end(store, season, day, 0)
    publications.publish(store, season, day, table, 0, final)


def two_seasons(folder: str) -> Facts:
    """A season in which a to e come in this order, with two tables; and one with two divisions and a table before the last one."""
    begin(folder, "abcde")
    with opened(folder) as store, store.change():
        every = [(one, other) for at, one in enumerate("abcde") for other in "abcde"[at + 1:]]
        fight(store, *(Played("2026-01-02", one, other, (WINS, WINS)) for one, other in every))
        keep_table(store, "2026-01-10")
        keep_table(store, "2026-01-31", True)
        rules = replace(RULES, seed=2, divisions=2)
        seasons.begin(store, "two", "2026-02-01", rules, {"a": 1, "b": 1, "c": 2, "d": 2, "e": 2})
        # d is first in its division with 3 and 1.5 points in its pairs, and has more than b, which loses all
        fight(store, Played("2026-02-02", "a", "b", (WINS, WINS)), Played("2026-02-02", "d", "c", (WINS, WINS)))
        keep_table(store, "2026-02-10")
        fight(store, Played("2026-02-11", "d", "e", (WINS, LOSES)), Played("2026-02-11", "e", "c", (WINS, TIES)))
        # the table of the day itself is none of those before, as publishing has it
        keep_table(store, "2026-02-20")
        return shown(store, "2026-02-20")


def divisions(folder: str) -> Results:
    """Ranks are those of the division, each has a table of its own, seasons are told apart, and a past one has a page."""
    it = two_seasons(folder)
    found = [(row.division, row.rank, row.robot, row.points) for row in it.standings]
    wanted = [(1, 1, "a", "3"), (1, 2, "b", "0"), (2, 1, "d", "2.25"), (2, 2, "e", "1.75"), (2, 3, "c", "0.25")]
    yield f"divisions and ranks {found}", found == [(division, rank, robot, Decimal(points)) for division, rank, robot, points in wanted]
    yield "the number of divisions, and the season", (it.divisions, it.season) == (2, "two")
    before = [(table.day, table.season, sorted((place.division, place.rank, robot) for robot, place in table.places.items())) for table in it.earlier]
    one = [(1, at, robot) for at, robot in enumerate("abcde", 1)]
    # e has played nothing yet, and so it has no rating and no place; c has as many points as it, 0
    yield f"the tables before {before}", before == [
        ("2026-01-10", "1", one), ("2026-01-31", "1", one), ("2026-02-10", "two", [(1, 1, "a"), (1, 2, "b"), (2, 1, "d"), (2, 2, "c")])]
    site = folder + "-site"
    publish(it, site)
    yield from the_tables(site)
    yield from the_seasons(site)
    found_files, wrong = dangling(site)
    yield f"links of a league with divisions {wrong}", not wrong and files(site) - found_files == {"site.list"}


def the_tables(site: str) -> Results:
    """The first page has a table for each division, in order, with its name; and a trend within the season and the division."""
    page = read(os.path.join(site, "index.html"))
    parts = [it for it in page.all("section") if "standings" in it.classes()]
    yield "names of divisions", [it.one("h2").text() for it in parts] == ["Division 1", "Division 2"]
    yield "captions of divisions", [it.one("caption").text() for it in parts] == ["Table of division 1", "Table of division 2"]
    cells = [[row[:3] for row in rows(it)[1:]] for it in parts]
    yield f"their rows {cells}", cells == [[["1", "=same ", "a"], ["2", "=same ", "b"]],
                                          [["1", "=same ", "d"], ["2", "new", "e"], ["3", "▼down 1", "c"]]]
    robot = read(os.path.join(site, "robots", "c.html"))
    tiles = {it.one("dt").text(): it.one("dd").text() for it in robot.one("dl").all("div")}
    yield "a robot's rank", tiles["Rank"] == "3 of 3 in division 2"
    with open(os.path.join(site, "table.csv"), encoding="utf-8") as file:
        yield "divisions as CSV", [line.split(",")[:3] for line in file.read().splitlines()[1:]] == [
            ["1", "1", "a"], ["1", "2", "b"], ["2", "1", "d"], ["2", "2", "e"], ["2", "3", "c"]]


def the_seasons(site: str) -> Results:
    """A past season has a page, to which the first page leads; a robot's page has its last place; its ratings are told apart by season."""
    page = read(os.path.join(site, "index.html"))
    past = next(it for it in page.all("section") if it.one("h2").text() == "Past seasons")
    yield "a link to a past season", [it.text() for it in past.all("li")] == ["1, 2026-01-01 to 2026-01-31"]
    season = read(os.path.join(site, "seasons", "1.html"))
    yield "a past season", season.one("h1").text() == "Season 1" and [row[:3] for row in rows(season.one("table"))[1:]] == [
        [f"{at}", robot, points] for at, (robot, points) in enumerate(zip("abcde", ("3.000", "2.250", "1.500", "0.750", "0.000")), 1)]
    robot = read(os.path.join(site, "robots", "b.html"))
    tables = {it.one("caption").text(): rows(it) for it in robot.all("table")}
    yield "a robot's past seasons", [row[:4] for row in tables["At the end of each season"]] == [
        ["Season", "Division", "Rank", "Points a match"], ["1", "-", "2", "2.250"]]
    yield "its ratings by day", [row[:3] for row in tables["Rating by day"]] == [
        ["Day", "Season", "Rank"], ["2026-02-20", "two", "2"], ["2026-02-10", "two", "2"], ["2026-01-31", "1", "2"], ["2026-01-10", "1", "2"]]
    yield from the_chart(robot)


def the_chart(robot: Element) -> Results:
    """Ratings of two seasons aren't joined: each season has its line and its band, and its name where it begins."""
    chart = next(it for it in robot.all("svg") if "time" in it.classes())
    ways = [it.attributes["points"].split(" ") for it in chart.all("polyline")]
    xs = [[float(point.split(",")[0]) for point in way] for way in ways]
    yield f"a line for each season {xs}", [len(way) for way in ways] == [2, 2] and xs[0][1] < xs[1][0]
    yield "a band for each season", [len(it.attributes["points"].split(" ")) for it in chart.all("polygon")] == [4, 4]
    begins = [it.attributes["x1"] for it in chart.all("line") if "begin" in it.classes()]
    yield "where seasons begin", [float(it) for it in begins] == [xs[0][0], xs[1][0]]
    yield "their names", [it.text() for it in chart.all("text")][-2:] == ["1", "two"]


def last_lost(folder: str) -> Results:
    """The last lost matches of a robot, by their days and then their numbers, the last one first."""
    rules = replace(RULES, matches=8)
    begin(folder, "abc", rules)
    with opened(folder) as store, store.change():
        season = seasons.season(store)
        schedule = Schedule(seasons.field(store, season))
        names = [it.robot for it in schedule.field.robots]
        days = iter(["2026-01-05", "2026-01-03", "2026-01-09", "2026-01-04"])
        wanted = []
        for other in "bc":
            pair = tuple(sorted(map(names.index, ("a", other))))
            for seats, seed in schedule.seatings(pair):
                day = next(days)
                # a wins the first of four matches and loses the others
                wins = [WINS, LOSES, LOSES, LOSES] if names[seats[0]] == "a" else [LOSES, WINS, WINS, WINS]
                fought.keep(store, rules, schedule.seated(seats, seed), 1, ",".join(wins), day)
                wanted += [(day, number, str(seed)) for number in (2, 3, 4)]
        lost = {it.id: it.lost for it in shown(store, "2026-01-20").robots}
    found = [(battle.number, str(battle.seed)) for battle in lost["a"]]
    yield f"the last lost matches {found}", found == [(number, seed) for _, number, seed in sorted(wanted, reverse=True)[:5]]
    yield "one each of the others", [len(lost[robot]) for robot in "bc"] == [2, 2]


def left(folder: str) -> Results:
    """A robot that left in a season keeps its results of it; one that left before has those of its past seasons."""
    begin(folder, "abcd")
    with opened(folder) as store, store.change():
        fight(store, *(Played("2026-01-02", one, other, (WINS, WINS)) for one, other in ("ab", "ac", "ad", "bc", "bd", "cd")))
        keep_table(store, "2026-01-31", True)
        entries.withdraw(store, "d", "2026-01-31")
        seasons.begin(store, "2", "2026-02-01", replace(RULES, seed=2), {})
        fight(store, *(Played("2026-02-02", one, other, (WINS, LOSES)) for one, other in ("ab", "ac", "bc")))
        entries.withdraw(store, "b", "2026-02-03")
        it = shown(store, "2026-02-04")
    yield "who is in the table", [row.robot for row in it.standings] == ["a", "c"]
    pairs = {frozenset((pair.one, pair.other)): pair.score for pair in it.pairs}
    yield f"the pairs {pairs}", {*pairs} == {frozenset("ab"), frozenset("ac"), frozenset("bc")} and all(score.played == 2 for score in pairs.values())
    site = folder + "-site"
    publish(it, site)
    pages = {robot: read(os.path.join(site, "robots", f"{robot}.html")) for robot in "bd"}
    parts = {robot: [part.one("h2").text() for part in page.all("section")] for robot, page in pages.items()}
    yield f"what pages of robots that left have {parts}", parts == {
        "b": ["Past seasons", "Opponents", "Last lost matches", "Versions", "Source"], "d": ["Past seasons", "Versions", "Source"]}
    opponents = next(rows(it) for it in pages["b"].all("table") if it.one("caption").text().startswith("Opponents"))
    yield "its opponents", sorted(row[0] for row in opponents[1:]) == ["a", "c"]
    yield "its last place", [rows(it)[1][:3] for it in pages["d"].all("table") if "season" in it.one("caption").text()] == [["1", "-", "4"]]
    yield f"links of robots that left {dangling(site)[1]}", not dangling(site)[1]


def hidden(folder: str) -> Results:
    """Sources that are new in a season are hidden until it ends; those of the season before are known."""
    begin(folder, "ab", replace(RULES, hidden=True), "Ann")
    with opened(folder) as store, store.change():
        fight(store, Played("2026-01-02", "a", "b", (WINS, LOSES)))
        before = sources(shown(store, "2026-01-03"))
        site = folder + "-site"
        publish(shown(store, "2026-01-03"), site)
        keep_table(store, "2026-01-31", True)
        ended = sources(shown(store, "2026-01-31"))
        seasons.begin(store, "2", "2026-02-01", replace(RULES, hidden=True, seed=2), {})
        entries.change(store, "a", source("new"), "2026-02-01")
        entries.add(store, "c", "Bob", source("c"), "2026-02-01")
        after = sources(shown(store, "2026-02-02"))
    yield f"while the season goes on {before}", before == {"a": [False], "b": [False]}
    yield f"when it has ended {ended}", ended == {"a": [True], "b": [True]}
    yield f"in the next one {after}", after == {"a": [True, False], "b": [True], "c": [False]}
    yield "no file has them", not any(it.startswith(("sources/", "archive/")) for it in files(site)) and not any(
        b"main" in content(site, it) for it in files(site) if it != "site.js" and not it.endswith(".css") and not it.endswith(".html"))
    page = read(os.path.join(site, "robots", "a.html"))
    yield "why", "Sources and the archive are shown when the season ends." in page.text() and "main()" not in page.text()
    settings = read(os.path.join(site, "settings.html"))
    yield "the hash stands there while the archive is hidden", HASH in [it.text() for it in settings.all("code")]
    yield "no command line without sources", not [*page.all("pre")] and [*page.all("article")]


def content(folder: str, place: str) -> bytes:
    with open(os.path.join(folder, place), "rb") as file:
        return file.read()


def sources(it: Facts) -> dict[str, list[bool]]:
    """Of each robot which versions are shown."""
    return {robot.id: [version.source is not None for version in robot.versions] for robot in it.robots}


def sure(folder: str) -> Results:
    """With the sequential test a pair has its verdict and its interval, from the side of either robot."""
    rules = replace(RULES, matches=40, sure=True)
    begin(folder, "abc", rules)
    with opened(folder) as store, store.change():
        season = seasons.season(store)
        schedule = Schedule(seasons.field(store, season))
        names = [it.robot for it in schedule.field.robots]
        for one, other, result, many in (("a", "b", WINS, 5), ("a", "c", WINS, 5), ("b", "c", TIES, 15)):
            pair = tuple(sorted(map(names.index, (one, other))))
            for seats, seed in schedule.seatings(pair):
                mine = result if names[seats[0]] == one or result == TIES else LOSES
                fought.keep(store, rules, schedule.seated(seats, seed), 1, ",".join([mine] * many), "2026-01-02")
        it = shown(store, "2026-01-03")
    found = {(pair.one, pair.other): pair.verdict for pair in it.pairs}
    yield f"verdicts of the test {found}", found == {
        ("a", "b"): Verdict("better", 10), ("a", "c"): Verdict("better", 10), ("b", "c"): Verdict("even", 30)}
    yield "their intervals", all(pair.low > 0.5 for pair in it.pairs[:2]) and it.pairs[2].low < 0.5 < it.pairs[2].high
    site = folder + "-site"
    publish(it, site)
    with open(os.path.join(site, "pairs.csv"), encoding="utf-8") as file:
        said = {tuple(line.split(",")[:2]): ",".join(line.split(",")[10:]) for line in file.read().splitlines()}
    yield f"as CSV {said}", said["a", "b"] == '"better, by the test after 10 matches"' and said["b", "a"] == (
        '"worse, by the test after 10 matches"') and said["c", "b"] == '"even, by the test after 30 matches"'
    with open(os.path.join(site, "site.json"), encoding="utf-8") as file:
        told = {(one["robot"], one["against"]): (one["verdict"], one["low"], one["high"]) for one in json.load(file)["pairs"]}
    yield f"as JSON {told}", told == {(pair.one, pair.other): (f"{pair.verdict.what}, by the test after {pair.verdict.matches} matches", round(pair.low, 4), round(pair.high, 4))
                                      for pair in it.pairs if pair.verdict}


def alike() -> Results:
    """Listings are alike if names alone differ; and a copy is that of another author who had it before."""
    listing = "File {0}\nExternals 1\n  0 {1}\nFunction 0 {2} vars 1 at 0\n  0 {1}\nFunction 1 main vars 0 at 3\nCode 2\n    0 FETCH {3}\n    1 CONST {4}\n"
    code = likeness.code_of(listing.format("a.r", "FRAME", "turn", "L0", 5))
    yield "other names", code == likeness.code_of(listing.format("b.r", "other", "Code", "L0", 5))
    others = [listing.format("a.r", "FRAME", "turn", "L0", 6), listing.format("a.r", "FRAME", "turn", "E0", 5),
              listing.format("a.r", "FRAME", "turn", "L0", 5).replace("vars 1", "vars 2")]
    yield "other code", code not in {likeness.code_of(it) for it in others}
    authors = {"a": "Ann", "b": "Bob", "c": "Ann", "d": "", "e": "Eve"}
    happened = [Entry(1, "", "add", "a", "x", 0), Entry(2, "", "add", "b", "y", 0), Entry(3, "", "add", "c", "x", 1),
                Entry(4, "", "add", "d", "x", 2), Entry(5, "", "add", "e", "z", 0), Entry(6, "", "change", "e", "x2", 0),
                Entry(7, "", "withdraw", "a", "x", 0), Entry(8, "", "change", "b", "x", 3), Entry(9, "", "change", "b", "y", 0)]
    # x and x2 are alike: e has it after a, c is by a's author, d's author isn't known, b had it for a while
    code_of = {"x": "1", "x2": "1", "y": "2", "z": "3"}
    yield "copies", likeness.copied(happened, authors, code_of) == {"e": "a"}
    yield "a copy for a while", likeness.copied(happened[:-1], authors, code_of) == {"e": "a", "b": "a"}
    yield "what isn't compiled is no copy", likeness.copied(happened, authors, {}) == {}


# The ids of names as people have them, in this order.
NAMES = {
    "Müller": "Muller", "Muller": "Muller-2", "O'Brien": "OBrien", "O’Brien": "OBrien-2", "Иван": "Ivan", "Tank v2 final(1)": "Tank-v2-final-1",
    "李": "robot", "..": "robot-2", "-x-": "x", "Łukasz Żółć": "Lukasz-Zolc", "Ευκλείδης": "Eykleidis", "Щукин": "Shchukin",
    "Søren Ødegård": "Soren-Odegard", "İstanbul": "Istanbul", "straße": "strasse", "a" * 60: "a" * 40, "a" * 50: "a" * 38 + "-2", "": "robot-3",
    "robot.v2": "robot.v2", "\x00\n": "robot-4", "ﬁ½": "fi1-2",
}


def ids() -> Results:
    """Each name gets an id that no other has, whatever it is."""
    taken: set[str] = set()
    for name, wanted in NAMES.items():
        found = naming.made(name, taken)
        taken.add(found)
        yield f"the id of {name!r}: {found}", found == wanted
    source_of = random.Random(8)
    for _ in range(3000):
        name = "".join(source_of.choice("aäЖώ李 -._'\u0301\U0001f600\x07ß") for _ in range(source_of.randrange(60)))
        found = naming.made(name, taken)
        if found in taken or not entries.ID.fullmatch(found):
            yield f"an id of {name!r}: {found}", False
        taken.add(found)
    yield "3,000 names", len(taken) == 3000 + len(NAMES)
