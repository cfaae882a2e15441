"""Tests of what pages are made of: names, markup, shares, notable matches, command lines, links, colours, scales."""

from __future__ import annotations

import itertools
import json
import math
import os
import random
import re
import shlex
import subprocess
import zlib
from base64 import urlsafe_b64decode
from dataclasses import replace
from decimal import Decimal
from pathlib import Path
from typing import Any, Iterator

from harness import skip
from packages import lacking
from results.scores import Score
from results.standings import Rating, Standing
from sites import robots as pages_of_robots
from sites import addresses, charts, colours, columns, commands, heat, index, links, lookups, names, notables, places, robot_data, scales, shares, sources, sums
from sites.facts import Battle, BySeat, Facts, Pair, Program, Robot, Seat, Series, Settings, Stay, Table, Version
from sites.gathering import Gathering, Losses
from sites.markup import Markup, block, escaped, tag

from . import made
from .reading import parsed, rows

HERE = os.path.dirname(os.path.abspath(__file__))
TOP = os.path.normpath(os.path.join(HERE, "..", ".."))
WEB = os.path.join(TOP, "web")
SETTINGS = Settings(100, 500_000, 1, 1)
Results = Iterator[tuple[str, bool]]

FILE_NAMES = {
    "hunter.r": "hunter.r", "a-b.r": "a-b.r", "..": "_2e_2e", ".": "_2e", "": "_", "a..b": "a._2eb",
    ".hidden": "_2ehidden", "end.": "end_2e", "CON": "_43_4f_4e", "con": "_63on", "con.r": "_63on.r",
    "console.r": "console.r", "index": "_69ndex", "com1.r": "_63om1.r", "a/b.r": "a_2fb.r", "a b": "a_20b",
    "a_b": "a_5fb", "caf\udce9": "caf_ed_b3_a9", "é": "_c3_a9",
    "<i>": "_3ci_3e", "-m1": "_2dm1", "-": "_2d", ".-": "_2e-",
}
WORDS = {
    "a.r": "a.r", "sources/a-0.r": "sources/a-0.r", "a b.r": "'a b.r'", "it's.r": "'it'\"'\"'s.r'",
    "caf\udce9.r": "$'caf\\351.r'", "a\nb's": "$'a\\012b\\047s'", "$(true)": "'$(true)'", "": "''",
}
# Intervals of Wilson, as tables of statistics have them.
INTERVALS = {(8, 0, 2): (0.4902, 0.9433), (0, 0, 10): (0.0, 0.2775), (10, 0, 0): (0.7225, 1.0),
             (50, 0, 50): (0.4038, 0.5962), (0, 10, 0): (0.2366, 0.7634)}
SOURCE = b"main(){/* a\nb */ if(x>12)cannon(y);goto a;a23456789012345678901234567890123;}\x1aif"
COLOURED = [
    '<span class="def">main</span>(){<span class="comment">/* a</span>',
    '<span class="comment">b */</span> <span class="keyword">if</span>(x&gt;<span class="number">12</span>)'
    '<span class="builtin">cannon</span>(y);<span class="error">goto</span> a;'
    '<span class="error">a23456789012345678901234567890123</span>;}<span class="comment">\ufffdif</span>',
]


def results() -> Results:
    """Each test with whether it passed."""
    yield from file_names()
    yield from markup()
    yield from scores()
    yield from chosen()
    yield from listed_opponents()
    yield from names_of_replays()
    yield from gathered()
    yield from command_lines()
    yield from battle_links()
    yield from source_lines()
    yield from colour_steps()
    yield from columns_of_tables()
    yield from axes()
    yield from trends()
    yield from days_of_changes()
    yield from addresses_of_pages()
    yield "sums of two matches", dict(sums.rows(made.SUMS.objects * 2)) == {
        "Shots fired": "20.0 a match", "Shots that hit": "5.0 a match (25.0 %)", "Damage to others": "12.0 % a match",
        "Damage by shots of others": "60.0 % a match", "Damage by its own shots": "20.0 % a match",
        "Damage by walls": "16.0 % a match", "Damage by collisions": "4.0 % a match"}
    yield from shots_by_whom()
    legend = re.findall(r'class="h(\d+)"', heat.legend())
    yield f"a legend of all colours {legend}", [*map(int, legend)] == [*range(colours.STEPS + 1)]


def shots_by_whom() -> Results:
    """What a robot lost by its own shots and by those of others, whichever robot it is."""
    lost = [10, 20, 30, 40]
    for number, own in enumerate(lost, 1):
        row = {"robot": number, "lost_by_walls": 0, "lost_by_collisions": 0, "lost_by_shots_of": lost, "took_from": [0] * 4, "fired": 0, "hit": 0}
        found = dict(sums.rows(json.dumps({"robots": [row]}) + "\n"))
        yield f"shots by whom of robot {number}", (found["Damage by its own shots"], found["Damage by shots of others"]) == (f"{own} %", f"{100 - own} %")


def file_names() -> Results:
    """Files' names are safe, and different for different robots."""
    for name, wanted in FILE_NAMES.items():
        yield f"the file of {name!r}", names.file_name(name) == wanted
    yield "an archive's name", places.archive_file("/tmp/League-2026.1.zip") == "archive/League-2026.1.zip"
    yield "an archive's bad name", places.archive_file("/tmp/../a b") == "archive/a_20b"
    source = random.Random(1)
    many = {"".join(source.choice("aA._-/ c\udce9o0n") for _ in range(source.randrange(12))) for _ in range(5000)}
    many |= {"x" * length for length in range(60, 300)} | {"A" * length for length in range(20, 100)}
    found = [names.file_name(name) for name in many]
    yield "5,000 robots have files of their own", len({it.lower() for it in found}) == len(many)
    yield "names of files are safe", all(re.fullmatch(r"(?![.-])[a-z0-9._-]{1,80}(?<![.])", it) for it in found)


def markup() -> Results:
    """Texts are escaped, and what can't be seen is shown as such."""
    wanted = '<a href="&quot;" class="x">&lt;b&gt;<i>&amp;</i></a>'
    yield "an element", tag("a", "<b>", tag("i", "&"), href='"', aria_label=None, class_="x") == wanted
    yield "an element without an end", tag("meta", charset="utf-8") == '<meta charset="utf-8">'
    yield "a text is escaped once", tag("p", tag("b", "1 > 0")) == "<p><b>1 &gt; 0</b></p>"
    yield "what can't be seen", tag("p", "a\x00\n\udce9b\tc") == "<p>a\ufffd\ufffd\ufffdb\tc</p>"
    yield "lines", block(["<", Markup("<b>")]) == "&lt;\n<b>"
    yield "a name of blanks", names.named("  ") == "(no name)"


def scores() -> Results:
    """Shares and their intervals."""
    for counts, (low, high) in INTERVALS.items():
        found = shares.interval(Score(*counts))
        yield f"the interval of {counts}", abs(found[0] - low) < 5e-5 and abs(found[1] - high) < 5e-5
    yield "the share of ties", Score(6, 1, 3, 1).share == 0.7
    yield "the other side", Score(6, 1, 3, 1).turned == Score(2, 1, 7, 1)
    even = Pair("a", "b", Score(5, 0, 5), 0.5, 0.5)
    said = [replace(even, low=low, high=high).decided.what for low, high in ((0.5, 0.9), (0.501, 0.9), (0.1, 0.5), (0.1, 0.499))]
    yield f"decided by the interval {said}", said == ["not decided", "better", "not decided", "worse"]
    yield "no match", (Score(0, 0, 0).share, shares.interval(Score(0, 0, 0))) == (0.5, (0.0, 1.0))


def chosen() -> Results:
    """The matches worth a look, of a few."""
    ended = [(0, 100, 3000), (100, 40, 2000), (60, 100, 9000), (60, 100, 6000), (100, 10, 5000), (100, 100, 100),
             (30, 30, 500_000), (60, 100, 6000)]
    source = random.Random(4)
    fought = [made.battle("a", "b", *it[:2], number) for number, it in enumerate(ended)]
    fought = [Battle(battle.seats, battle.number, battle.seed, it[2]) for battle, it in zip(fought, ended)]
    found = {it.what: it.battle.number for it in notables.notables(fought, "a", "b")}
    # the last match is like the fourth, and has a lower seed
    yield "notable matches", found == {"closest": 7, "shortest": 1, "longest": 2, "greatest upset": 4}
    yield "in any order", all(it == notables.notables(fought, "a", "b") for it in (
        notables.notables(source.sample(fought * 2, 16), "a", "b") for _ in range(20)))
    alone = [it.what for it in notables.notables(fought[:1], "a", "b")]
    yield "without an upset", alone == ["closest", "shortest", "longest"]
    yield "nothing is decided", notables.notables(fought[5:7], "a", "b") == ()
    yield "of equal matches the first", all(by_definition(it) for it in (drawn_matches(source) for _ in range(300)))


def drawn_matches(source: random.Random) -> list[Battle]:
    """Some matches of which many are equally long, and damaged alike."""
    ends = [(source.choice((0, 5, 100)), source.choice((0, 5, 100)), source.choice((15, 30)), source.randint(1, 3), number) for number in range(1, source.randint(2, 9))]
    return [Battle((Seat("a", mine), Seat("b", theirs)), number, seed, cycles) for mine, theirs, cycles, seed, number in ends]


def by_definition(fought: list[Battle]) -> bool:
    """Whether the matches that are worth a look are those: of the matches that one robot survived the one in which it was damaged most, the
    shortest, the longest, and of those that b survived the one in which it was damaged least. Of equal ones the shorter goes, then that of
    the lower seed, then that of the lower number."""
    damages = {battle: [seat.damage for seat in battle.seats] for battle in fought}
    some = sorted((it for it in fought if sum(damage == 100 for damage in damages[it]) == 1), key=lambda it: (it.cycles, it.seed, it.number))
    upsets = [it for it in some if damages[it][0] == 100]
    wanted = {}
    if some:
        most, longest = max(min(damages[it]) for it in some), max(it.cycles for it in some)
        wanted = {"closest": next(it for it in some if min(damages[it]) == most), "shortest": some[0], "longest": next(it for it in some if it.cycles == longest)}
    if upsets:
        least = min(damages[it][1] for it in upsets)
        wanted["greatest upset"] = next(it for it in upsets if damages[it][1] == least)
    return {it.what: it.battle for it in notables.notables(fought, "a", "b")} == wanted


def listed_opponents() -> Results:
    """Of up to ten opponents each stands once, the best result first; of more the five best and the five worst, each from its end."""
    source = random.Random(12)
    for count in range(1, 17):
        names_ = [f"r{at:02}" for at in range(count + 1)]
        won = dict(zip(names_[1:], source.sample(range(1, 100), count)))
        standings = tuple(Standing(name, at, Score(1), Decimal(1), Rating(0.0, -1.0, 1.0)) for at, name in enumerate(names_, 1))
        pairs = tuple(Pair(names_[0], name, Score(many, 0, 100 - many), 0.0, 1.0) for name, many in won.items())
        facts = Facts("title", SETTINGS, Program("1", "ab" * 32), tuple(Robot(name, name, ()) for name in names_), standings, pairs)
        page = parsed(pages_of_robots.opponents(lookups.Lookup(facts), facts.robots[0], ""), "opponents")
        found = {it.one("caption").text(): [row[0] for row in rows(it)[1:]] for it in page.all("table")}
        order = sorted(won, key=won.__getitem__, reverse=True)
        wanted = {"Its best opponents": order[:5], "Its worst opponents": order[:count - 6:-1]} if count > 10 else {"Opponents, the best results first": order}
        yield f"{count} opponents {found}", found == wanted


def names_of_replays() -> Results:
    """A page that plays a match has another name if anything is otherwise that it depends on, and the same one whatever else is otherwise:
    so one that is there is never shown for another match."""
    facts, fought = made.league(3), made.battle("a.r", "b.r", 0, 100, 7)
    versions = [Version("1" * 64, None), Version("2" * 64, None)]
    before = places.replay_page(facts, fought, versions)
    settings = facts.settings
    others = {
        "program": (replace(facts, program=replace(facts.program, sha256="0" * 64)), fought, versions),
        **{name: (replace(facts, settings=replace(settings, **{name: getattr(settings, name) + 1})), fought, versions) for name in ("cycles", "profile")},
        **{name: (facts, replace(fought, **{name: getattr(fought, name) + 1}), versions) for name in ("number", "seed")},
        "seats": (facts, replace(fought, seats=fought.seats[::-1]), versions), "versions": (facts, fought, versions[::-1]),
        "a robot": (facts, replace(fought, seats=(Seat("c.r", 0), fought.seats[1])), versions),
        "a source": (facts, fought, [versions[0], Version("3" * 64, None)]),
        "a robot more": (facts, replace(fought, seats=(*fought.seats, Seat("c.r", 0))), [*versions, Version("3" * 64, None)])}
    found = {what: places.replay_page(*it) for what, it in others.items()}
    for what, name in found.items():
        yield f"a replay's name with another {what}", name != before
    yield "names of replays", len({*found.values()}) == len(found)
    same = {
        "title": (replace(facts, title="another"), fought, versions), "version": (replace(facts, program=replace(facts.program, version="9")), fought, versions),
        **{name: (replace(facts, settings=replace(settings, **{name: getattr(settings, name) + 1})), fought, versions) for name in ("matches", "seed")},
        "day": (facts, fought, [replace(it, day="2026-01-01") for it in versions])}
    for what, it in same.items():
        yield f"a replay's name whatever the {what} is", places.replay_page(*it) == before


def gathered() -> Results:
    """What two robots did by their seats, and which lost matches are shown, of matches that are counted by hand."""
    it = Gathering({"a": 0, "b": 1})
    ended = [(0, 100), (100, 0), (5, 5), (100, 100), (100, 100)]
    it.add([made.battle("a", "b", *damage, number) for number, damage in enumerate(ended, 1)])
    it.add([made.battle("b", "a", 0, 100, 9)])
    pair, = it.pairs()
    alone = tuple(Series(2**64 - number, number, 1) for number in (5, 4, 3, 2, 1))
    yield f"scores by seat {pair.seats}", pair.seats == (
        BySeat(1, 2, Score(1, 1, 3, 2), alone), BySeat(2, 1, Score(0, 0, 1, 0), (Series(2**64 - 9, 9, 1),)))
    yield f"the score of both {pair.score}", pair.score == Score(1, 1, 4, 2) and abs(pair.score.share - 2.5 / 6) < 1e-9
    yield from all_matches()
    lost = Losses({"a": 0, "b": 1, "c": 2, "x": 3})
    for robot, number in (("a", 2), ("b", 4), ("c", 6), ("c", 3)):
        lost.add(made.battle(robot, "x", 0, 100, number))
    yield "lost to the lowest robots first, of each in the shortest match", [it.number for it in lost.of("x", 2)] == [3, 4]


def all_matches() -> Results:
    """Of two robots alone all matches are in series: those of a seed whose numbers follow one another are one, in whatever order they come."""
    it = Gathering({"a": 0, "b": 1, "c": 2})
    for seats, seed, numbers in (("ab", 7, (1, 2, 3)), ("ba", 8, (1, 2)), ("ab", 7, (6, 7)), ("ab", 7, (4, 5)), ("ab", 3, (4,)), ("abc", 9, (1, 2))):
        it.add([Battle(tuple(Seat(robot, 100) for robot in seats), number, seed, 15) for number in numbers])
    one = next(it.pairs())
    series = {(by.seat, by.against): by.series for by in one.seats}
    yield f"all matches {series}", series == {(1, 2): (Series(3, 4, 1), Series(7, 1, 7)), (2, 1): (Series(8, 1, 2),)}
    yield "turned", [(by.seat, by.series) for by in one.turned.seats] == [(2, series[1, 2]), (1, series[2, 1])]



def command_lines() -> Results:
    """Command lines, also as bash reads them."""
    battle = Battle((Seat("a", 0), Seat("b", 100)), 17, 2**64 - 1, 90)
    words = commands.again(SETTINGS, battle, ["-a.r", "b.r"])
    wanted = ["crobots", "-f17", "-m1", "-l500000", "-s18446744073709551615", "-p1", "./-a.r", "b.r"]
    yield "the words of a match", words == wanted
    shown = commands.showing("crobots-trace", SETTINGS, battle, ["-a.r", "b.r"], ["--robot", "2"])
    yield "the words that show it", shown == ["crobots-trace", "-k17", *wanted[3:6], "--robot", "2", *wanted[6:]]
    for word, quoted in WORDS.items():
        yield f"the word {word!r}", commands.quoted(word) == quoted
        ran = subprocess.run(["bash", "-c", f"printf %s {commands.quoted(word)}"], capture_output=True, check=False)
        yield f"the word {word!r} in bash", ran.stdout == os.fsencode(word)
    yield "a line", shlex.split(commands.line(["a b", "c"])) == ["a b", "c"]


def battle_links() -> Results:
    """Links are those that the browser's page makes and reads."""
    fought = [(number, robots) for number, robots in enumerate([
        [("a.r", b"main() { }")],
        [("\"<x>\" \u00e9.r", "/* \u00e9\u2028 */ main() { }\r\n".encode()), ("b.r", made.LATIN)],
        [(f"{at}.r", made.SOURCE * 200 * at) for at in range(1, 5)]], 1)]
    fragments = [links.fragment(SETTINGS, Battle((), number, 2**64 - number, 0), robots) for number, robots in fought]
    battles = [{
        "robots": [{"name": name, "source": source.decode("utf-8", "replace")} for name, source in robots],
        "settings": {"matches": 1, "limit": 500_000, "seed": str(2**64 - number), "first": number, "profile": 1},
    } for number, robots in fought]
    yield "what links carry", [json.loads(unpacked(it)) for it in fragments] == battles
    if why := lacking(["node"]):
        skip("links and colours of the browser's page", why)
        return
    texts = [path.read_text("utf-8") for path in sorted(Path(TOP, "robots").glob("*.r"))]
    texts.append("a.b #x \"y\" 12ab _if /*/ x */ sqrt(/* */ $ '\n/* open")
    told = asked(battles, fragments, texts)
    yield "links.js reads the links", told["read"] == battles
    yield "links.js makes the same", [json.loads(unpacked(it)) for it in told["made"]] == battles
    for text, kinds in zip(texts, told["kinds"]):
        wanted = [["" if it in (None, "operator", "variable") else it for it in line] for line in kinds]
        yield f"colours of {text[:20]!r}", kinds_of(text) == wanted


def asked(battles: list[dict[str, Any]], fragments: list[str], texts: list[str]) -> Any:
    """What the browser's page makes of them."""
    words = ["node", "--no-warnings", os.path.join(HERE, "links.mjs"), WEB]
    ran = subprocess.run(words, input=json.dumps({"battles": battles, "fragments": fragments, "sources": texts}),
                         capture_output=True, text=True, check=True)
    return json.loads(ran.stdout)


def unpacked(fragment: str) -> bytes:
    """What a link carries."""
    assert fragment.startswith("#battle=") and re.fullmatch("[A-Za-z0-9_-]+", fragment[8:])
    return zlib.decompress(urlsafe_b64decode(fragment[8:] + "=" * (-len(fragment[8:]) % 4)), wbits=-15)


def kinds_of(text: str) -> list[list[str]]:
    """The kinds of a source's letters, line by line."""
    found: list[list[str]] = [[]]
    for kind, letter in ((kind, letter) for kind, piece in sources.tokens(text.encode()) for letter in piece):
        if letter == "\n":
            found.append([])
        else:
            found[-1].append(kind)
    return found


def source_lines() -> Results:
    """Sources with colours."""
    yield "a source with colours", sources.lines(SOURCE) == COLOURED
    yield "lines that end with two bytes", sources.lines(b"a\r\nb\r\n") == ["a", "b"]
    yield "an empty source", sources.lines(b"") == []


def light(colour: str) -> float:
    """How light a colour is, by the guidelines for pages that all can read."""
    parts = [int(colour[at:at + 2], 16) / 255 for at in (1, 3, 5)]
    linear = [it / 12.92 if it <= 0.03928 else math.pow((it + 0.055) / 1.055, 2.4) for it in parts]
    return sum(it * part for it, part in zip(linear, (0.2126, 0.7152, 0.0722)))


def contrast(one: str, other: str) -> float:
    both = sorted((light(one), light(other)))
    return (both[1] + 0.05) / (both[0] + 0.05)


def colour_steps() -> Results:
    """What is written can be read, in the light and in the dark."""
    rules = re.findall(r"\.h\d+\{background:(#\w{6});color:(#\w{6})\}", colours.style())
    yield "steps of the map", len(rules) == 42 and len(set(rules)) == 42
    yield "contrast in the map", all(contrast(*rule) >= 4.5 for rule in rules)
    style = Path(TOP, "scripts", "sites", "site.css").read_text("utf-8")
    parts = re.findall(r":root \{(.*?)\}", style, re.DOTALL)
    themes = [dict(re.findall(r"--([\w-]+): (#\w{6});", part)) for part in parts]
    inks = ("ink", "soft", "accent", "won", "lost", "up", "keyword", "number", "builtin", "comment", "fault")
    for theme, (ink, ground) in itertools.product(themes, itertools.product(inks, ("ground", "panel"))):
        yield f"contrast of {ink} on {ground}", contrast(theme[ink], theme[ground]) >= 4.5
    for theme in themes:
        drawn = [(theme[part], theme["panel"]) for part in ("won", "lost", "accent")]
        yield "contrast of what is drawn", all(contrast(*it) >= 3 for it in drawn)
    yield "two themes", len(themes) == 2 and set(themes[0]) == set(themes[1])


def axes() -> Results:
    """An axis leaves outliers out, and has round numbers."""
    it = scales.scale([0.0, 10.0, 20.0, 30.0, 40.0, 5000.0], 0, 100)
    # the middle half goes from 12.5 to 37.5, so the axis may go to 37.5 + 1.5 * 25
    yield "an outlier is beyond the axis", not it.holds(5000) and it.holds(0) and it.holds(75) and not it.holds(80)
    yield "a place beyond is the end", it.at(5000) == 100 and it.at(-5000) == 0
    yield "round numbers", it.ticks() == [0, 20, 40, 60]
    yield "one value", scales.scale([7.0], 0, 10).at(7) == 5
    close = scales.scale([7.0, 7.5], 0, 10)
    yield "values that are close have room", (close.low, close.high) == (6.0, 8.5)


def columns_of_tables() -> Results:
    """Columns have names and numbers of their own, and one more stands on the page and in the data where it says, with what it says."""
    for name, them in (("robots", columns.STANDINGS), ("pairs", columns.PAIRS)):
        yield f"names of columns of {name}", len({it.name for it in them}) == len(them)
        numbers_ = sorted(it.order for it in them if it.value)
        yield f"numbers of columns of {name} {numbers_}", numbers_ == [*range(1, len(numbers_) + 1)]
        yield f"columns of {name} without a cell or a value", all(it.cell or it.value or it.help for it in them)
        yield f"titles of columns of {name}", all(bool(it.title) == bool(it.cell) for it in them)
    lookup = lookups.Lookup(made.league(3))
    last = max(it.order for it in columns.STANDINGS)
    more = [columns.Column[Standing]("half", "Half", "number", lambda _, row: f"{row.score.played / 2:g} <", last + 1,
                                     lambda _, row: row.score.played / 2), *columns.STANDINGS]
    csv = columns.written(lookup, more, lookup.facts.standings).splitlines()
    # each has played ten against each of two
    yield f"one more in the data {csv}", csv[0].endswith(",half") and all(line.endswith(",10.0") for line in csv[1:])
    page = columns.tabled(columns.View(lookup), more, "Table", lookup.facts.standings)
    yield "one more on the page", page.count('<th scope="col" class="number">Half</th><th scope="col" class="number">Rank</th>') == 1 and page.count(
        '<td class="number">10 &lt;</td>') == 3
    first = index.index(lookup)
    said = [it.help.strip() for it in columns.STANDINGS if it.help]
    yield "what is said of columns", len(said) >= 3 and all(escaped(it) in first for it in said)


def trends() -> Results:
    """How far a robot rose or fell since the last table before of the same season, in the same division: of drawn tables, which a plain
    look backwards compares."""
    draw, wrong = random.Random(11), list[str]()
    facts = made.league(4)
    for _ in range(300):
        earlier, season = [], draw.choice("ab")
        for day in range(draw.randint(0, 5)):
            there = draw.sample(facts.standings, draw.randint(0, 4))
            places_ = {it.robot: replace(it, rank=rank, division=draw.randint(1, 2)) for rank, it in enumerate(there, 1)}
            earlier.append(Table(f"2026-11-{day + 1:02}", places_, draw.choice("ab")))
        lookup = lookups.Lookup(replace(facts, season=season, earlier=tuple(earlier)))
        view = columns.View(lookup, before=lookup.before())
        last = [it.places for it in earlier if it.season == season][-1:]
        for row in facts.standings:
            was = last[0].get(row.robot) if last else None
            if was is None or was.division != row.division:
                wanted = "new"
            else:
                by = was.rank - row.rank
                wanted = "= same" if not by else f"▲ up {by}" if by > 0 else f"▼ down {-by}"
            found = " ".join(re.sub("<[^>]*>", " ", columns.trend(view, row)).split())
            wrong += [] if found == wanted else [f"{row.robot}: {found}, not {wanted}"]
    yield f"trends {wrong[:3]}", not wrong


# Which changes are drawn in a chart of the days from the 5th to the 20th: those after the first table, up to the day of the last one.
CHANGES = {"2026-03-04": False, "2026-03-05": False, "2026-03-06": True, "2026-03-19": True, "2026-03-20": True, "2026-03-21": False}


def days_of_changes() -> Results:
    """Versions that are new since the first table, also on the last one's day."""
    days = ["2026-03-05", "2026-03-12", "2026-03-20"]
    for day, is_drawn in CHANGES.items():
        yield f"a change on {day}", charts.during(days, [day]) == ([day] if is_drawn else [])
    places_ = [Standing("a", 1, Score(), Decimal(0), Rating(10.0, 0.0, 20.0))] * 3
    stays = [Stay(day, "1", place) for day, place in zip(days, places_)]
    drawn = charts.over_time(stays, [*CHANGES], "a chart")
    xs = [float(it) for it in re.findall(r'<line x1="([\d.]+)" x2="[\d.]+" y1="[\d.]+" y2="[\d.]+" class="change">', drawn)]
    # the axis goes from 54 to 746 in 15 days
    yield f"where changes are drawn {xs}", xs == [round(54 + 692 * days / 15, 1) for days in (1, 14, 15)]


# Addresses, and whether a site leads to them.
ADDRESSES = {
    "https://example.org/crobots/": True, "http://example.org:8080/a?b=c:d#e": True, "file:///srv/page.html": True, "HTTPS://example.org": True,
    "page/index.html": True, "../page.html#x:y": True, "//example.org/page": True, "/page": True, "?a:b": True, "": False,
    "javascript:alert(1)": False, "JavaScript:alert(1)": False, " javascript:alert(1)": False, "java\nscript:alert(1)": False,
    "java\tscript:alert(1)": False, "\x01javascript:alert(1)": False, "data:text/html,<script>alert(1)</script>": False,
    "vbscript:x": False, "blob:https://example.org/1": False, "mailto:a@example.org": False, "https:\\\\example.org": False,
    "http://[": False, "a:b": False, "javascript:": False, "view-source:javascript:1": False, "\x85javascript:1": False,
}


def addresses_of_pages() -> Results:
    """A site leads to pages alone, and not to what runs; where a bad address is given nevertheless, there is no link."""
    for address, is_page in ADDRESSES.items():
        yield f"the address {address!r}", addresses.is_page(address) == is_page
        facts = made.league(2, address)
        found = lookups.Lookup(facts).browser(facts.robots[1].lost[0])
        yield f"a link to {address!r}", found.startswith(address.split("#")[0] + "#battle=") if is_page else found == ""
        said = json.loads(robot_data.names(lookups.Lookup(facts)).partition(", ")[2].removesuffix(");\n"))
        yield f"the script's link to {address!r}", said["page"] == (address if is_page else "")
    letters = random.Random(9)
    for _ in range(2000):
        word = "".join(letters.choice("javscript:JAVSCRIPT\t\n\r /#?&;%3a\\\x00") for _ in range(letters.randrange(14)))
        bare = re.sub(r"[\t\n\r]", "", word).lstrip("".join(map(chr, range(33)))).lower()
        if addresses.is_page(word) and re.match(r"(?!https?:|file:)[a-z][a-z0-9+.-]*:", bare):
            yield f"the address {word!r} has another scheme", False
    yield "2,000 addresses", True
