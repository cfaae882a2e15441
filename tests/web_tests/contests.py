"""Tests of what the page says of a change of a robot and of a number's values: the intervals, starts, marks and points are those of
crobots-challenge and crobots-tune."""

from __future__ import annotations

import json
import math
import os
import random
import shutil
import subprocess
import sys
import tempfile
from typing import Any, Iterator, Sequence

import packages
from harness import PATIENCE

HERE = os.path.dirname(os.path.abspath(__file__))
TOP = os.path.normpath(os.path.join(HERE, "..", ".."))
sys.path.insert(0, os.path.join(TOP, "scripts"))
# pylint: disable=wrong-import-position
from tools.faults import Fault  # noqa: E402
from tournaments import intervals, seats  # noqa: E402
from tune_tests import marks as tables  # noqa: E402
from tuning import marks  # noqa: E402

from .battles import random_battles, samples  # noqa: E402
from .stores import modules, told  # noqa: E402

SEED = 20261129
# by how much numbers of two programs may differ that are added up in another order
NEAR = 1e-9
# Classes of numbers, their mean, and half of its interval, worked out by hand. The ten numbers have the variance 82.5 / 9 and so the
# error 0.9574; nine degrees of freedom have the quantile 2.2622 in all tables. Both classes have the variance 2 and the error 1, the
# mean of both the error 0.7071 and, by Welch and Satterthwaite, two degrees of freedom, whose quantile is 4.3027.
BY_HAND = (([[1, 1, 1]], 1.0, 0.0), ([[*range(10)]], 4.5, 2.1659), ([[0, 2], [1, 3]], 1.5, 3.0425))
# what tables of the normal distribution have
QUANTILES = {0.5: 0.0, 0.975: 1.959964, 0.025: -1.959964, 0.995: 2.575829, 0.9999: 3.719016, 0.0001: -3.719016, 0.999999: 4.753424}


def lacking(_folder: str) -> str:
    """What is lacking for these tests."""
    return packages.lacking(["node"])


def answers(jobs: Sequence[tuple[str, tuple[Any, ...]]], module: str = "") -> list[Any]:
    """What the page's modules answer by Node."""
    with modules() as place:
        words = [shutil.which("node") or "node", os.path.join(HERE, "worked.mjs"), place, *([module] if module else [])]
        text = json.dumps([{"what": what, "words": given} for what, given in jobs])
        ran = subprocess.run(words, input=text, capture_output=True, text=True, check=False, timeout=PATIENCE)
    if ran.returncode:
        raise RuntimeError(ran.stderr[-2000:])
    return list(json.loads(ran.stdout))


def is_near(got: Any, wanted: tuple[float, float, float]) -> bool:
    """Whether an interval is this one."""
    return all(abs(got[name] - value) <= NEAR * max(1, abs(value)) for name, value in zip(("value", "low", "high"), wanted))


def by_hand() -> list[str]:
    """Means, their intervals and quantiles that were worked out by hand or stand in tables."""
    got = answers([("mean", (classes, 0, 0.95)) for classes, _, _ in BY_HAND] + [("normal", (chance,)) for chance in QUANTILES])
    wrong = [f"{classes}: {it}, not {value} and {half}" for (classes, value, half), it in zip(BY_HAND, got)
             if abs(it["value"] - value) > 1e-4 or abs(it["high"] - value - half) > 2e-3 or abs(value - it["low"] - half) > 2e-3]
    return wrong + [f"{chance}: {it}" for chance, it in zip(QUANTILES, got[len(BY_HAND):]) if abs(it - QUANTILES[chance]) > 1e-6]


def drawn_classes(draw: random.Random) -> list[list[float]]:
    """Differences of matches with some opponents: many, few, all alike."""
    worth = draw.choice(((-3, 0, 3), (-3, -2, -1, 0, 1, 2, 3), (0,), (0, 0, 0, 0, 0, 0, 0, 3)))
    return [[float(draw.choice(worth)) for _ in range(draw.choice((2, 3, 4, 10, 100)))] for _ in range(draw.randint(1, 13))]


def like_python() -> list[str]:
    """Of drawn differences the intervals are those of the scripts, for a change and for a value, at each level."""
    draw = random.Random(SEED)
    several = [drawn_classes(draw) for _ in range(600)]
    levels = [draw.choice((0.95, 0.99, 1 - 0.01 / 19)) for _ in several]
    unseen = [draw.choice((0, 3)) for _ in several]
    got = answers([("mean", it) for it in zip(several, unseen, levels)])
    right = [intervals.mean(them, (), most, level) for them, most, level in zip(several, unseen, levels)]
    wanted = [(it.value, it.low, it.high) for it in right]
    wrong = [f"{numbers}: {it}, not {known}" for numbers, it, known in zip(several, got, wanted) if not is_near(it, known)][:5]
    moved = answers([("outward", (it, 3)) for it in got])
    known = [(it["value"], math.floor(max(it["low"], -3) * 1000) / 1000, math.ceil(min(it["high"], 3) * 1000) / 1000) for it in got]
    return wrong + [f"{it}, not {right}" for it, right in zip(moved, known) if not is_near(it, right)][:5]


def signed(value: float, digits: int) -> str:
    """A number as the scripts write it: with its sign, a zero with a plus."""
    return f"{round(value, digits) + 0.0:+.{digits}f}"


def difference(value: float) -> str:
    """A difference in points with three digits, and a zero without a sign."""
    return signed(value, 3) if round(value, 3) else "0.000"


def written() -> list[str]:
    """Numbers are written as the scripts write them, those in the middle of two too."""
    numbers = [at / 2**power for power in range(6) for at in range(-200, 200)] + [0.565, 1.005, 2.675, -0.001, -0.0049, 0.0004, -0.0004, -0.0, -0.005, 0.285, 299 / 300, -1e-17]
    asked = [(number, digits) for number in numbers for digits in (2, 3)]
    got = answers([("written", it) for it in asked])
    wanted = [[f"{round(abs(number), digits):.{digits}f}", signed(number, digits), difference(number)] for number, digits in asked]
    return [f"{it}: {mine}, not {right}" for it, mine, right in zip(asked, got, wanted) if mine != right][:5]


def starts() -> list[str]:
    """The seeds of both orders are those of tournaments, for each seed and each text of a robot."""
    sources = ["", "main(){}", "main(){ /* \u00e4\U0001f600 */ }", "\ufeffmain(){}\r\n", *(text.decode() for _, text in samples())]
    seeds = (0, 1, 2**63, 2**64 - 1)
    asked = [(seed, source) for seed in seeds for source in sources]
    got = answers([("seatings", (f"00{seed}", source)) for seed, source in asked])
    wrong = []
    for (seed, source), both in zip(asked, got):
        right = seatings(seed, source)
        if [(it["isFirst"], it["seed"]) for it in both] != [(it.order == (0, 1), str(it.seed)) for it in right]:
            wrong.append(f"{seed} {source[:40]!r}: {both}, not {right}")
    return wrong


def seatings(seed: int, source: str) -> list[seats.Seating]:
    """The seats and seeds of versions of a robot with an opponent."""
    with tempfile.NamedTemporaryFile(suffix=".r") as file:
        file.write(source.encode())
        file.flush()
        key = subprocess.run(["sha256sum", file.name], capture_output=True, text=True, check=True).stdout.split()[0]
    return seats.seatings(seed, ["challenger", key])


def constants(source: bytes) -> list[dict[str, int]]:
    """Where the constants of a source are, by a plain reader of its own."""
    return [{"line": it.place.line, "column": it.place.column} for it in tables.read(source) if it.kind == "constant"]


def judged(source: str) -> list[dict[str, Any]] | str:
    """What crobots-tune says of a source's marks: their numbers, or what is wrong."""
    data = source.encode()
    try:
        found = marks.numbers(data, tables.read(data), "r")
    except Fault as why:
        return str(why).removeprefix("r:").removeprefix(" ")
    return [{"line": it.place.line, "column": it.place.column, "value": it.value, "low": it.range.low, "high": it.range.high, "step": it.range.step,
             "name": it.name, "text": data[it.begin:it.end].decode()} for it in found]


def marked_sources() -> list[str]:
    """Sources of all kinds of marks, right and wrong, and some put together of pieces."""
    draw = random.Random(SEED)
    pieces = ["1", "23", "0007", "a", "a1", " ", "\n", "\t", "/**/", "/* \u00e9 */", "/* tune 0..9 */", "/* tune 1..30 step 7 name b */", "/*tune\n5..6\nname\tc*/",
              "/* tune */", "/* Tune 0..9 */", "/*tun\n5 to 6*/", "/* tune -3..9 */", "/* tune ..9 */", "/* nuTe:1\u20262 */", "/* tune 1.2 */", "/* tune it 0..9 */", "/* tune 0..9\x1cname d */", "/* tune 0..9\u00a0name e */",
              "\ufeff", ";", "=", "*", "/", "(", "\u00e4"]
    put = ["".join(draw.choice(pieces) for _ in range(draw.randint(1, 12))) for _ in range(2000)]
    return [source for source, _ in (*tables.RIGHT, *tables.WRONG)] + put


def listed(source: str, it: dict[str, Any]) -> dict[str, Any]:
    """A number as the page has it, with its digits in place of where they are."""
    return {**{name: value for name, value in it.items() if name not in ("begin", "end")}, "text": source[it["begin"]:it["end"]]}


def marked() -> list[str]:
    """Numbers with marks, their values, and what is wrong with a mark, are those of crobots-tune, also behind letters of two bytes."""
    sources = marked_sources()
    got = answers([("tunables", (source, constants(source.encode()))) for source in sources])
    wrong = []
    for source, it in zip(sources, got):
        right = judged(source)
        if isinstance(right, str):
            wrong += [] if it == {"fault": right} else [f"{source!r}: {it}, not {right!r}"]
        elif isinstance(it, dict) or [listed(source, number) for number in it] != right:
            wrong.append(f"{source!r}: {it}, not {right}")
    return wrong[:5]


def values() -> list[str]:
    """The values of a sweep, and a source with other values, are those of crobots-tune."""
    draw = random.Random(SEED)
    them = []
    for _ in range(500):
        low = draw.choice((0, 1, 100, draw.randrange(10**6)))
        high = low + draw.choice((1, 2, 19, 20, 21, 99, 1000, 2**30))
        them.append({"low": low, "high": high, "step": draw.choice((None, None, 1 + (high - low) // draw.randint(1, 30))), "value": draw.randint(low, high)})
    got = answers([("values", (it,)) for it in them])
    right = [marks.Range(it["low"] or 0, it["high"] or 0, it["step"]).values(it["value"] or 0) for it in them]
    wrong = [f"{it}: {values}, not {wanted}" for it, (count, values), wanted in zip(them, got, right)
             if values != wanted or count not in (len(values), len(values) - 1)][:3]
    source = "main(){ \u00e4 007 /* tune 0..9 */; 5 /* tune 0..9 */; }"
    made = answers([("changed", (source, constants(source.encode()), pair)) for pair in ((7, 5), (8, 5), (0, 123))])
    texts = [source, source.replace("007", "8"), source.replace("007", "0").replace("5", "123")]
    return wrong + ([] if made == texts else [f"{made}"])


HEAD = "cycle\trobot\tkind\ta\tb\tc\td\te\n"
SAME = "0\t1\tat\t1\n0\t2\tat\t2\n9\t2\tscan\t7\n4\t1\tshot\t5\n15\t1\tat\t3\n"
# two films, and the cycle in which they first differ: a row is lacking, another, in another order, of a match that ends later
FILMS = (
    (SAME, SAME, None), (SAME, SAME.replace("4\t1\tshot\t5\n", ""), 4), (SAME, SAME.replace("scan\t7", "scan\t8"), 9),
    (SAME + "30\t1\tat\t4\n30\t2\tat\t5\n", SAME + "30\t2\tat\t5\n30\t1\tat\t4\n", None),
    (SAME.replace("9\t2\tscan\t7\n4\t1\tshot\t5\n", "4\t1\tshot\t5\n9\t2\tscan\t7\n"), SAME, None),
    (SAME.replace("scan\t7", "scan\t8"), SAME.replace("shot\t5", "shot\t6"), 4), (SAME, SAME + "30\t1\tat\t4\n", 30), (SAME + "16\t1\tend\t0\n", SAME, 16),
)


def partings() -> list[str]:
    """Where films first differ, by hand."""
    got = answers([("parting", (HEAD + one, HEAD + other)) for one, other, _ in FILMS])
    return [f"{film[:2]}: {cycle}, not {film[2]}" for film, cycle in zip(FILMS, got) if cycle != film[2]]


def robot(name: str) -> str:
    """The source of a sample."""
    return dict(samples())[name].decode()


def answered(script: str, words: list[str], files: dict[str, str]) -> Any:
    """What a script answers as JSON, in a folder with some files."""
    with tempfile.TemporaryDirectory() as place:
        for name, source in files.items():
            with open(os.path.join(place, name), "w", encoding="utf-8", newline="") as file:
                file.write(source)
        ran = subprocess.run([os.path.join(TOP, "scripts", script), "--json", "-j2", *words], cwd=place, capture_output=True, text=True, check=False, timeout=PATIENCE)
    if ran.returncode:
        raise RuntimeError(ran.stderr[-2000:])
    return json.loads(ran.stdout)


# Changes of a robot: how it was, how it is now, its opponents, and the words for the match: matches, limit, seed, profile.
CHANGES = (
    ("sweeper.r", ("scan(angle, 10)", "scan(angle, 5)"), ("hunter.r", "sniper.r", "jumpy.r"), (20, 50_000, 1, 1)),
    ("hunter.r", ("main", "/* \u00e4 */ main"), ("sniper.r", "wanderer.r"), (5, 3_000, 2**64 - 1, 2)),
    ("runner.r", ("main()", "main() { while (1) cannon(rand(360), 300); } old()"), ("leader.r", "centre.r", "boxer.r", "jouster.r"), (7, 20_000, 0, 1)),
)


def rules_of(numbers: tuple[int, int, int, int]) -> tuple[list[str], dict[str, Any], int]:
    """The words of a script, the page's settings, and the matches in each seat."""
    matches, limit, seed, profile = numbers
    return [f"-m{matches}", f"-l{limit}", f"-s{seed}", f"-p{profile}"], {"limit": limit, "seed": str(seed), "profile": profile}, -(-matches // 2)


def differing(got: Any, wanted: Any, names: dict[str, str]) -> list[str]:
    """Which of some numbers differ: the page's names, and those of the script."""
    return [f"{mine}: {got[mine]}, not {wanted[theirs]}" for mine, theirs in names.items() if abs(got[mine] - wanted[theirs]) > NEAR]


def worth(got: Any, wanted: Any) -> list[str]:
    """Where what a change is worth differs."""
    return differing({**got, **got["change"]}, wanted, {"fresh": "new", "old": "old", "value": "change", "low": "low", "high": "high"})


def pairs_of(flipped: Any) -> list[tuple[Any, ...]]:
    """The matches that changed, of the page."""
    return sorted((it["opponent"]["name"], it["number"], 1 if it["isFirst"] else 2, it["seed"], *(it[version][fact] for version in ("fresh", "old") for fact in ("did", "cycles")))
                  for it in flipped)


def changes_of(changed: Any) -> list[tuple[Any, ...]]:
    """The matches that changed, of crobots-challenge."""
    return sorted((it["against"], it["match"], it["seat"], it["seed"], *(it[version][fact] for version in ("new", "old") for fact in ("did", "cycles"))) for it in changed)


def contests(crobots: str, folder: str) -> list[str]:
    """What a change is worth, against each opponent and all, and which matches it changed, is what crobots-challenge says."""
    wrong, jobs, wanted = [], [], []
    for name, (before, after), against, numbers in CHANGES:
        words, settings, each = rules_of(numbers)
        old, opponents = robot(name), [{"name": it, "source": robot(it)} for it in against]
        files = {"old.r": old, "new.r": old.replace(before, after, 1), **{it["name"]: it["source"] for it in opponents}}
        wanted.append(answered("challenge", ["--all", "--crobots", crobots, *words, "new.r", "--old", "old.r", *against], files))
        jobs.append(("contest", (settings, files["new.r"], old, opponents, each)))
    for got, right in zip(answers(jobs, f"{folder}.wasm"), wanted):
        mine, theirs = ({it[key]: it for it in them} for them, key in ((got["opponents"], "name"), (right["opponents"], "against")))
        wrong += worth(got["all"], right["all"]) + ([] if mine.keys() == theirs.keys() else [f"{mine.keys()}, not {theirs.keys()}"])
        wrong += [f"{name}: {line}" for name in theirs for line in worth(mine[name], theirs[name])]
        wrong += [] if pairs_of(got["flipped"]) == changes_of(right["changed"]) else [f"{pairs_of(got['flipped'])[:3]}, not {changes_of(right['changed'])[:3]}"]
    return wrong if any(it["changed"] for it in wanted) else ["no match changed"]


# Marks in samples, and the words for their sweeps; a mark stands behind letters of two bytes.
SWEEPS = (
    ("sweeper.r", ("> 40)", "> 40 /* tune 0..400 step 100 name near */)"), ("runner.r", "hunter.r"), (60, 20_000, 1, 1)),
    ("sweeper.r", ("angle + 20", "/* \u00e4\u00f6 */ angle + 20 /* tune 1..60 */"), ("wanderer.r", "sweeper.r", "jumpy.r"), (6, 30_000, 77, 2)),
)


def sweeps(crobots: str, folder: str) -> list[str]:
    """The points, changes, intervals and verdicts of a sweep are those of crobots-tune."""
    wrong, jobs, wanted = [], [], []
    for name, (before, after), against, numbers in SWEEPS:
        words, settings, each = rules_of(numbers)
        opponents = [{"name": it, "source": robot(it)} for it in against]
        files = {"marked.r": robot(name).replace(before, after, 1), **{it["name"]: it["source"] for it in opponents}}
        wanted.append(answered("tune", ["--sweep", "--crobots", crobots, *words, "marked.r", *against], files))
        jobs.append(("sweep", (settings, files["marked.r"], opponents, each)))
    for got, right in zip(answers(jobs, f"{folder}.wasm"), wanted):
        facts = [[(it["value"], it["matches"], it["verdict"]) for it in got["rows"]], [(it["values"][0], it["matches"], it["verdict"]) for it in right["sweep"]]]
        wrong += [] if facts[0] == facts[1] else [f"{facts[0]}, not {facts[1]}"]
        place = {name: right["numbers"][0][name] for name in ("name", "line", "column", "low", "high")}
        wrong += [] if place == {name: got["number"][name] for name in place} else [f"{got['number']}, not {place}"]
        for mine, theirs in zip(got["rows"], right["sweep"]):
            wrong += differing({**mine, **mine["change"]}, theirs, {"points": "points", "low": "low", "high": "high"})
    return wrong if any(it["verdict"] == "worse" for right in wanted for it in right["sweep"]) else [*wrong, "no value is worse"]


def constants_of(stages: str, source: bytes, profile: int) -> list[dict[str, int]] | None:
    """Where the constants of a source are, by the tokens of crobots-stages; nothing of one with a fault."""
    with tempfile.NamedTemporaryFile(suffix=".r") as file:
        file.write(source)
        file.flush()
        ran = subprocess.run([stages, "--tokens", f"-p{profile}", file.name], capture_output=True, text=True, check=False, timeout=PATIENCE)
    rows = [line.split() for line in ran.stdout.splitlines()]
    return None if ran.returncode else [{"line": int(row[0]), "column": int(row[1])} for row in rows if row[2] == "constant"]


def placed(stages: str, folder: str) -> list[str]:
    """Where the page takes constants to be is where crobots-stages has them, in samples and random sources of both profiles."""
    sources = {source for _, source in samples()} | {source for battle in random_battles(40, 29) for _, source in battle.robots}
    asked = [(source, profile) for source in sorted(sources) for profile in (1, 2)]
    wanted = [constants_of(stages, *it) for it in asked]
    got = answers([("constants", (source.decode("latin-1"), profile)) for source, profile in asked if source.isascii()], f"{folder}.wasm")
    right = [it for (source, _), it in zip(asked, wanted) if source.isascii()]
    wrong = [f"{mine}, not {it}" for mine, it in zip(got, right) if it is not None and sorted(mine, key=str) != sorted(it, key=str)]
    return wrong[:3] if sum(bool(it) for it in right) > 40 else [*wrong[:3], "few sources have constants"]


def results(crobots: str, stages: str, folder: str) -> Iterator[tuple[str, list[str]]]:
    """The tests' names, and what is wrong."""
    yield from told("contests.test.mjs", "trials")
    yield "intervals by hand", by_hand()
    yield "intervals of the scripts", like_python()
    yield "numbers as they are written", written()
    yield "starts", starts()
    yield "marks", marked()
    yield "values", values()
    yield "where films part", partings()
    yield "a change as crobots-challenge has it", contests(crobots, folder)
    yield "a sweep as crobots-tune has it", sweeps(crobots, folder)
    yield "constants as crobots-stages has them", placed(stages, folder)
