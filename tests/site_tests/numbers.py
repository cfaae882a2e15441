"""Tests of numbers as readers are shown them: all durations, all signed numbers, parts as percentages, also by the site's script."""

from __future__ import annotations

import json
import os
import random
import re
import subprocess
from decimal import ROUND_HALF_EVEN, Decimal
from fractions import Fraction
from typing import Any, Iterator

from harness import skip
from packages import lacking
from results.scores import Score
from sites import charts, numbers
from tournaments import challenges, progress

Results = Iterator[tuple[str, bool]]
TOP = os.path.normpath(os.path.join(os.path.dirname(os.path.abspath(__file__)), "..", ".."))
SCRIPT = os.path.join(TOP, "scripts", "sites", "site.js")
# Runs the site's script where there is no page, and answers what its functions make of the numbers that it is given.
NODE = """
const document = {currentScript: {getAttribute: () => "site.js"}, getElementById: () => null, querySelectorAll: () => []};
const fs = require("fs");
const site = new Function("document", fs.readFileSync(process.argv[1], "utf8") + "; return site;")(document);
const {counts, parts, scores} = JSON.parse(fs.readFileSync(0, "utf8"));
process.stdout.write(JSON.stringify({counts: counts.map(site.count), parts: parts.map(site.percent), scores: scores.map(site.share),
    turned: scores.map(site.turned)}));
"""


def results() -> Results:
    """Each test with whether it passed."""
    yield from durations()
    yield from signs()
    yield from the_script()


def durations() -> Results:
    """All durations up to ten hours, and some longer ones: minutes and seconds are below 60, and all of it adds up."""
    wrong = []
    for seconds in [*range(36_000), *random.Random(5).sample(range(36_000, 10_000_000), 2000)]:
        said = progress.duration(seconds)
        found = re.fullmatch(r"(?:([1-9]\d*):(?=\d\d:))?([1-5]?\d|0\d):([0-5]\d)", said)
        parts = [int(it or 0) for it in found.groups()] if found else [-1, 0, 0]
        if parts[0] * 3600 + parts[1] * 60 + parts[2] != seconds:
            wrong.append(f"{seconds} is {said}")
    yield f"durations {wrong[:3]}", not wrong
    yield "an hour and two minutes", [progress.duration(it) for it in (3723.4, 3599.6, 59.4, 0)] == ["1:02:03", "1:00:00", "0:59", "0:00"]


def rounded(number: Decimal, digits: int) -> str:
    """A number as it is written by hand: rounded, with its sign if anything but 0 is left."""
    return f"{number.quantize(Decimal(1).scaleb(-digits), ROUND_HALF_EVEN) + 0:f}"


def signs() -> Results:
    """All numbers from -3 to 3 in steps of 1/1000, as ratings, differences and data: what rounds to 0 has no minus."""
    wrong = []
    for thousandths in range(-3000, 3001):
        value, exact = thousandths / 1000, Decimal(thousandths / 1000)
        hundredths = rounded(exact, 2)
        wanted = [rounded(exact, 0).replace("-", "\N{MINUS SIGN}"), hundredths if hundredths[0] == "-" else f"+{hundredths}", rounded(exact, 1)]
        found = [charts.whole(value), challenges.signed(value), str(numbers.tenth(value))]
        if found != wanted:
            wrong.append(f"{value}: {found}, not {wanted}")
    yield f"signed numbers {wrong[:3]}", not wrong
    yield "nothing has no sign", {charts.whole(-0.4), str(numbers.tenth(-0.04)), challenges.signed(-0.001)} == {"0", "0.0", "+0.00"}
    yield "an interval", numbers.interval(-0.4, -1.5) == "0 to \N{MINUS SIGN}2"


def the_script() -> Results:
    """The site's script shows counts, percentages and shares as the pages do, which Python makes."""
    if why := lacking(["node"]):
        skip("numbers of the site's script", why)
        return
    source = random.Random(6)
    scores = [[source.randrange(20), source.randrange(20), lost, source.randrange(lost + 1)] for lost in source.choices(range(30), k=2000)]
    parts = [float(Fraction(at, many)) for many in (1, 3, 7, 8, 40, 400, 1000, 2000) for at in range(many + 1)]
    counts = [*range(0, 3000, 7), 10_000, 123_456, 1_234_567, 10**9]
    told = asked({"counts": counts, "parts": parts, "scores": scores})
    yield "counts", told["counts"] == [f"{it:,}" for it in counts]
    yield "percentages", told["parts"] == [numbers.percent(it) for it in parts]
    yield "shares", told["scores"] == [Score(*it).share for it in scores]
    yield "from the other side", told["turned"] == [
        [it.won, it.tied, it.lost, it.both] for it in (Score(*one).turned for one in scores)]


def asked(given: dict[str, Any]) -> Any:
    ran = subprocess.run(["node", "-e", NODE, SCRIPT], input=json.dumps(given), capture_output=True, text=True, check=True)
    return json.loads(ran.stdout)
