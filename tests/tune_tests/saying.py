"""What is said of values: each form agrees with the interval that it shows, and numbers are written in one way. The matches are drawn here."""

from __future__ import annotations

import ast
import csv
import io
import json
import random
import re
from collections import Counter
from decimal import ROUND_HALF_EVEN, Decimal
from fractions import Fraction
from pathlib import Path
from typing import Iterator
from xml.etree import ElementTree

from tournaments.intervals import Mean
from tuning import figures, pictures, tables
from tuning.far import Far
from tuning.games import Starts
from tuning.marks import Number, Place, Range
from tuning.sweeps import Row, said, shown, sweep
from tuning.verdicts import CHANGES, WHOLE, levels

from tune_tests.simulated import Simulated, words

TOP = Path(__file__).resolve().parent.parent.parent
SWEEPS = 1000
NOTHING = "no difference that these matches could show"
SIGNED_ZERO = re.compile(r"(?<![\d.])[+-]0(?:\.0+)?(?![\d.])")
# What a pointer says of a dot: its change, the interval of that, and the verdict.
DOT = re.compile(r"\d+: ([+-]?[\d.]+) \(([+-]?[\d.]+) to ([+-]?[\d.]+)\), (.*)")
NUMBER = re.compile(r"[+-]?[\d.]+")
BEATEN = re.compile(r"(?:better but )?worse than near=(\d+)(?:, turn=(\d+))? by ([\d.]+) to ([\d.]+)")


def drawn(seed: int) -> tuple[Simulated, list[Row]]:
    """A sweep of one number or of two, by matches that are few or many, of values that are alike or differ much."""
    rest = random.Random(f"saying {seed}")
    weights = [rest.choice((1, 1, 3)) for _ in range(rest.randint(1, 3))]
    by_step = rest.choice((0.0, 0.02, 0.1, 0.2))
    begin = [rest.uniform(0.05, 0.5) for _ in weights]
    names = rest.choice((("near",), ("near",), ("near",), ("near", "turn")))
    most = 4 if len(names) == 1 else 2
    several = [Number(Place(1, 1), 0, 1, rest.randint(0, most), Range(0, most, None, name)) for name in names]
    way = rest.choice((1, -1))

    def chances(values: tuple[int, ...]) -> list[float]:
        return [min(max(it + way * by_step * (sum(values) - 2), 0.0), 0.95) for it in begin]

    until = rest.choice((None, "sure"))
    games = Simulated(words(seed, matches=rest.choice((4, 20, 80)), until=until, by_opponent=rest.random() < 0.3), several, chances, weights)
    return games, sweep(games, Starts(seed, "saying"), games.given.matches // 2, until == "sure")


def of_interval(low: str, high: str, verdict: str) -> bool:
    """Whether better and worse are said where the interval, as it is written, has no 0, and only there."""
    wanted = "better" if Decimal(low) > 0 else "worse" if Decimal(high) < 0 else ""
    return wanted == ("better" if verdict.split(" ")[0] == "better" else "worse" if verdict == "worse" else "")


def of_table(text: str) -> Iterator[tuple[str, str, str]]:
    """The intervals and verdicts of a table, up to the words below it."""
    lines = [re.split(" {2,}", line.strip()) for line in text.splitlines()]
    at = lines[0].index("verdict")
    for cells in lines[1:]:
        if len(cells) > at:
            yield cells[at - 3], cells[at - 2], cells[at]


def forms(games: Simulated, rows: list[Row]) -> Iterator[tuple[str, list[tuple[str, str, str]]]]:
    """The intervals and verdicts of each form of an answer."""
    yield "table", [*of_table(tables.of_sweep(games, rows, "table"))]
    comma_separated = csv.DictReader(io.StringIO(tables.of_sweep(games, rows, "csv")))
    yield "csv", [(row["low"], row["high"], row["verdict"]) for row in comma_separated if row["verdict"]]
    made = json.loads(tables.of_sweep(games, rows, "json"))["sweep"]
    yield "json", [(str(it["low"]), str(it["high"]), it["verdict"]) for it in made]
    if len(games.numbers) == 1:
        titles = [it.findtext("{*}title") or "" for it in ElementTree.fromstring(pictures.picture(games, rows)).iterfind(".//{*}circle")]
        yield "picture", [(found[2], found[3], found[4]) for title in titles if (found := DOT.fullmatch(title))]


class Saying:
    """Each method whose name does not begin with _ is a test: it answers what is wrong."""

    def __init__(self) -> None:
        self._drawn = [drawn(seed) for seed in range(SWEEPS)]

    def a_verdict_is_what_its_interval_shows(self) -> list[str]:
        """In each form, of each value."""
        wrong, count = list[str](), Counter[str]()
        for games, rows in self._drawn:
            for form, cells in forms(games, rows):
                wrong += [f"{form}: {it}" for it in cells if not of_interval(*it)]
                wrong += [] if len(cells) == len(rows) else [f"{form}: {len(cells)} verdicts of {len(rows)} values"]
            count.update(row.verdict for row in rows)
        return wrong[:5] + ([] if min(count[it] for it in ("better", "worse", NOTHING)) > 100 else [f"{count}"])

    def forms_have_one_verdict(self) -> list[str]:
        """And one interval, written alike; the words below the table list the same values."""
        wrong = []
        for games, rows in self._drawn:
            found = dict(forms(games, rows))
            data = [(Decimal(low), Decimal(high), verdict) for low, high, verdict in found.pop("json")]
            wrong += [f"{form}: {cells}, not {data}" for form, cells in found.items() if [(Decimal(low), Decimal(high), it) for low, high, it in cells] != data]
            verdicts = {shown(row.values): it for row, (_, _, it) in zip(rows, data)}
            listed = [sorted(re.findall(r"\([^)]*\)|\d+|none", line.rpartition(": ")[2])) for line in said(rows, games)]
            wanted = [sorted(it) or ["none"] for it in ([name for name, it in verdicts.items() if it.startswith("better")],
                                                        [name for name, it in verdicts.items() if it == "worse"])]
            beaten = sorted(name for name, it in verdicts.items() if BEATEN.fullmatch(it))
            wrong += [] if listed[1:-1] == wanted + ([beaten] if beaten else []) else [f"{listed}, not {wanted} and {beaten}"]
        return wrong[:5]

    def which_value_to_take(self) -> list[str]:
        """The first line names one that is better, by its interval; of several the one with the greatest change, and none that another one has
        beaten if there is one that isn't. If none is better, it says that today's is to be kept."""
        wrong, taken = [], 0
        for games, rows in self._drawn:
            told, today = next(said(rows, games)), shown(games.today)
            better = [row for row in rows if row.said == "better"] or [row for row in rows if row.said.startswith("better")]
            best = max(better, key=lambda row: row.change.value, default=None)
            taken += bool(better)
            named = ", ".join(f"{it.name}={value}" for it, value in zip(games.numbers, best.values)) if best else ""
            wanted = f"take {named}: at least {best.change.low:.3f} points a match more than today's {today}\n" if best else \
                f"keep today's {today}: no other value is surely better\n"
            wrong += [] if told == wanted else [f"{told!r}, not {wanted!r}"]
        return wrong[:5] + ([] if taken > 50 else [f"{taken} are better"])

    def what_is_dropped_is_worse(self) -> list[str]:
        """Until sure a value with fewer matches than another is said to be worse: than today's, or than one that is named, by an interval that is
        above 0 and holds the mean of the matches that both played."""
        wrong, count = [], 0
        for games, rows in self._drawn:
            most = max(row.matches for row in rows)
            cells = [it for _, _, it in dict(forms(games, rows))["csv"]]
            for row, verdict in zip(rows, cells):
                found = BEATEN.fullmatch(verdict)
                wrong += [f"{verdict} by {row.matches} of {most} matches"] if row.matches < most and "worse" not in verdict and verdict != "today's" else []
                wrong += [f"{verdict} without --until sure"] if found and not games.given.until else []
                if found:
                    count += 1
                    other = next(it for it in rows if [*map(str, it.values)] == [it for it in (found[1], found[2]) if it])
                    less = -mean_difference(games, row, other)
                    wrong += [] if 0 < float(found[3]) <= less <= float(found[4]) else [f"{verdict}, and it has {less} less"]
        return wrong[:5] + ([] if count > 100 else [f"{count} values are worse than one that isn't today's"])

    def no_zero_has_a_sign(self) -> list[str]:
        """In no form, and in no picture."""
        wrong = []
        for games, rows in self._drawn:
            texts = [tables.of_sweep(games, rows, form) for form in ("table", "csv")] + [*said(rows, games), pictures.picture(games, rows)]
            wrong += [f"{found[0]!r} in {text[max(found.start() - 40, 0):found.end() + 20]!r}" for text in texts if (found := SIGNED_ZERO.search(text))]
        return wrong[:5]

    def a_legend_of_a_picture(self) -> list[str]:
        """It has each kind of dots that is there, and no other one; so has that of a map each sign."""
        wrong, seen = [], set[str]()
        for games, rows in self._drawn[:400]:
            drawn = ElementTree.fromstring(pictures.picture(games, rows))
            dots = [(it.get("class") or "", it.find("{*}title") is None) for it in drawn.iterfind(".//{*}circle")]
            told, there = ({kind for kind, is_sign in dots if is_sign is which} for which in (True, False))
            texts = [it.text or "" for it in drawn.iterfind("{*}text")]
            signs, line = {text[-1] for text in texts if re.fullmatch(r"[+-]?\d\.\d{3} .", text)}, next((it for it in texts if re.match("[^0-9] surely", it)), "")
            wrong += [] if told == there and signs == {it[0] for it in line.split(", ") if it} else [f"{told}, not {there}; {line}, not {signs}"]
            seen |= there | signs
        return wrong[:5] + ([] if seen == {"better", "worse", "beaten", "value", "today", "+", "\N{MINUS SIGN}", "\N{MULTIPLICATION SIGN}"} else [f"only {seen}"])

    def what_a_picture_shows_stands_where_its_axes_say(self) -> list[str]:
        """Of a map each field is beside and above the numbers of its values. Of a curve each dot is as far along and as high as the numbers of
        both axes say, as a rule through two of them."""
        wrong, seen = [], set[int]()
        for games, rows in self._drawn[:400]:
            drawn, by_words = ElementTree.fromstring(pictures.picture(games, rows)), {shown(row.values): row for row in rows}
            texts = [(float(it.get("x", "0")), float(it.get("y", "0")), it.get("text-anchor"), it.text or "") for it in drawn.iterfind("{*}text")]
            below, beside = ([it for it in texts if it[2] == anchor and NUMBER.fullmatch(it[3])] for anchor in ("middle", "end"))
            below = [it for it in below if it[1] == max(y for _, y, _, _ in below)]
            for shape in drawn.iterfind(".//{*}rect" if len(games.numbers) == 2 else ".//{*}circle"):
                if (title := shape.findtext("{*}title")) is None:
                    continue
                row = by_words[title.rpartition(": ")[0] or title]
                if len(row.values) == 2:
                    x, y = (float(shape.get(at, "0")) + float(shape.get(size, "0")) / 2 for at, size in (("x", "width"), ("y", "height")))
                    got = nearest(below, 0, x), nearest(beside, 1, y - 4)
                    wanted: tuple[float, ...] = row.values
                else:
                    got = along(below, 0, float(shape.get("cx", "0"))), along(beside, 1, float(shape.get("cy", "0")) + 4)
                    wanted = row.values[0], row.change.value
                seen.add(len(row.values))
                wrong += [] if all(abs(one - other) < 0.02 for one, other in zip(got, wanted)) else [f"{title}: at {got}, and not {wanted}"]
        return wrong[:5] + ([] if seen == {1, 2} else [f"only {seen}"])

    def numbers_are_written_in_one_way(self) -> list[str]:
        """With three digits; what rounds to zero has no sign. Other values are worked out by exact decimals."""
        rest = random.Random(3)
        zeros = [0.0, -0.0, 5e-324, -5e-324, 0.0004999, -0.0004999, *(rest.uniform(-0.0005, 0.0005) for _ in range(2000))]
        wrong = [f"{it!r}: {figures.difference(it)} {figures.points(it)}" for it in zeros if (figures.difference(it), figures.points(it)) != ("0.000", "0.000")]
        for value in (*(rest.uniform(-4, 4) for _ in range(2000)), *(at / 1000 for at in range(-3000, 3001))):
            exact = Decimal(value).quantize(Decimal("0.001"), ROUND_HALF_EVEN)
            wanted = (f"{exact:+}" if exact else "0.000", f"{abs(exact)}")
            wrong += [] if (figures.difference(value), figures.points(value)) == wanted else [f"{value!r}: {figures.difference(value)}, not {wanted}"]
        return wrong[:5]

    def ends_are_moved_outward(self) -> list[str]:
        """What is written holds what was worked out, and is wider by less than two of the last digit."""
        rest, wrong = random.Random(4), []
        for _ in range(3000):
            low, high = sorted(rest.choice((rest.uniform(-3, 3), rest.randint(-3000, 3000) / 1000, rest.uniform(-0.002, 0.002))) for _ in range(2))
            told = [Decimal(it) for it in figures.interval(figures.outward(Mean(low, low, high))).split(" to ")]
            moved = (Decimal(low) - told[0], told[1] - Decimal(high))
            wrong += [] if all(Decimal("-1e-12") < it < Decimal("0.002") for it in moved) else [f"{low} {high}: {told}"]
        return wrong[:5]

    def nothing_else_writes_points(self) -> list[str]:
        """No other module of these formats a number with digits behind its point, but a whole number of a scale or a weight."""
        wrong = []
        for path in sorted((TOP / "scripts" / "tuning").glob("*.py")):
            for node in ast.walk(ast.parse(path.read_text(encoding="utf-8"))):
                specs = [it.value for it in ast.walk(node.format_spec) if isinstance(it, ast.Constant)] if isinstance(node, ast.FormattedValue) and node.format_spec else []
                if path.name != "figures.py" and any(re.search("[eEfF%]|[.]", str(spec)) for spec in specs):
                    wrong.append(f"{path.name}:{node.lineno}: {specs}")
        return wrong

    def a_legend_says_what_columns_are(self) -> list[str]:
        """It stands under a table, in one line, and names each of its columns."""
        wrong = []
        for games, rows in self._drawn[:300]:
            head = re.split(" {2,}", tables.of_sweep(games, rows, "table").partition("\n")[0].strip())
            told = tables.legend(games, rows, "sweeps")
            wrong += [f"{name!r} isn't in {told}" for name in head if not re.search(rf"[(; ,]{re.escape(name)}[:, ]", told)]
            wrong += [] if told.startswith("(") and told.endswith(")\n") and told.count("\n") == 1 else [told]
        return wrong[:5]

    def how_many_sweeps_hold(self) -> list[str]:
        """Of 100: all changes at once in 99; all changes, points and single opponents at once in 98, as both kinds may fail in others. The
        manual page has both numbers."""
        page = (TOP / "man" / "crobots-tune.6").read_text(encoding="utf-8")
        item, table = page.partition(".It Fl -by-opponent")[2].partition(".It Fl -budget")[0], page.partition(".Sh THE TABLE")[2]
        wrong = [] if f"in {WHOLE} of 100 sweeps" in item and f"in {CHANGES} of 100 sweeps" in item and f"in {CHANGES} of 100 sweeps" in table else [item]
        wide = levels(21, 3, 5, True)
        missed = [20 * 5 * (1 - wide.change) + 21 * 20 / 2 * 5 * (1 - wide.race), 2 * 21 * 4 * 5 * (1 - wide.single)]
        wrong += [] if (CHANGES, WHOLE) == (99, 98) and abs(100 - 100 * missed[0] - CHANGES) < 1e-9 and abs(100 - 100 * sum(missed) - WHOLE) < 1e-9 else [f"{missed}"]
        for games, rows in self._drawn[:300]:
            told, often = tables.legend(games, rows, "sweeps"), WHOLE if games.given.by_opponent else CHANGES
            wrong += [] if re.findall("in ([0-9]+) of 100 sweeps", told) == [str(often)] else [told]
        return wrong[:5]

    def how_far_it_is(self) -> list[str]:
        """Of 600 matches the journal has 100, and 50 were played in a minute: 450 are left, 1.2 seconds each. A search of 1,000 matches may
        take 100 seconds, and 200 follow: after 300 matches in a minute it has 40 seconds left, in place of 140, and the others take 40."""
        now, told = [0.0], list[str]()
        it = Far(0, False, "tune", told.append, lambda: None, lambda: now[0])
        it.begin("round 2 of 3", 600)
        it.keep(100)
        it.lead("near=20 with 1.500 points a match")
        now[0] = 60
        it.count(50)
        other = Far(0, False, "tune", told.append, lambda: None, lambda: now[0])
        now[0] = 100
        other.begin("search", 1000, 200, 100, True)
        other.say()
        now[0] = 120
        other.count(300)
        wanted = ["tune: 150 of 600 matches, 9:00 to go; best so far near=20 with 1.500 points a match; round 2 of 3\n",
                  "tune: 0 of at most 1200 matches; search\n", "tune: 300 of at most 1200 matches, 2:00 to go; search\n"]
        return [] if told == wanted else [f"{told}"]

    def how_far_sweeps_and_searches_are(self) -> list[str]:
        """Of all their matches, whatever the round: a sweep has as many as were played in the end, and until sure at most as many."""
        wrong = []
        for games, rows in self._drawn[:300]:
            ended, of = (int(it) for it in re.findall("[0-9]+", games.progress.counted))
            values, each = len(rows), games.given.matches * len(games.opponents)
            wrong += [] if ended == games.played == sum(row.matches for row in rows) and of <= values * each else [f"{games.progress.counted} of {games.played}"]
            wrong += [] if games.given.until or ended == of == values * each else [f"{games.progress.counted}, not {values * each}"]
            told, most = games.progress.line(0), max(row.points.value for row in rows)
            best = next(row for row in rows if [*map(str, row.values)] == re.findall("=([0-9]+)", told))
            right = f" with {figures.points(most)} points a match, today's {figures.points(row_of(rows, games.today).points.value)}; " in told
            wrong += [] if games.given.until or (best.points.value == most and right) else [told]
        return wrong[:5]


def nearest(numbers: list[tuple[float, float, str | None, str]], way: int, place: float) -> float:
    """The number of an axis that is nearest to a place along it, which is across (0) or up (1)."""
    return float(min(numbers, key=lambda it: abs(it[way] - place))[3])


def along(numbers: list[tuple[float, float, str | None, str]], way: int, place: float) -> float:
    """What a place is, by the first number and the last one of an axis."""
    first, last = numbers[0], numbers[-1]
    low, high = float(first[3]), float(last[3])
    return low + (high - low) * (place - first[way]) / (last[way] - first[way])


def row_of(rows: list[Row], values: tuple[int, ...]) -> Row:
    return next(it for it in rows if it.values == values)


def mean_difference(games: Simulated, row: Row, other: Row) -> float:
    """How many points a match more a row has than another one, of the matches that both played, each opponent by its weight."""
    whole = Fraction(0)
    for opponent in games.opponents:
        mine, theirs = (games.scores.of[str(it.values), opponent.robot.sha256] for it in (row, other))
        both = mine.keys() & theirs.keys()
        whole += opponent.weight * sum(Fraction(mine[at]) - Fraction(theirs[at]) for at in both) / len(both)
    return float(whole / sum(it.weight for it in games.opponents))
