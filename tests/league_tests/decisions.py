"""The sequential test, by values worked out by hand and by made pairs."""

from __future__ import annotations

import csv
import functools
import io
import json
import math
import os
import random
import sqlite3
import statistics
from collections import Counter
from contextlib import closing

from leagues import sequential, stopped, verdicts
from results.scores import Score
from results.verdicts import BETTER, EVEN, OPEN, WORSE

from .base import Base, League

# The most matches of a made pair, as a league's default.
MOST = 100
PAIRS = 3000


def played(source: random.Random, chance: float, ties: float, favour: float) -> tuple[str, int]:
    """A made pair, judged as a league does: what is decided, and after how many matches.

    If it isn't a tie the first robot wins by this chance, more by the favour from one seat, less from the other.
    """
    return sequential.decision([look(source, chance, ties, favour) for _ in range(MOST // sequential.LOOK)])


def look(source: random.Random, chance: float, ties: float, favour: float) -> Score:
    """A made pair's matches from one look to the next."""
    won = even = lost = 0
    for seat in (favour, -favour) * (sequential.LOOK // 2):
        drawn = source.random()
        is_won = ties <= drawn < ties + (1 - ties) * (chance + seat)
        won, even, lost = won + is_won, even + (drawn < ties), lost + (drawn >= ties and not is_won)
    return Score(won, even, lost)


class Decisions(Base):
    """When a pair is decided."""

    def sequential_test_by_hand(self) -> list[str]:
        wrong = []
        # ten wins: 2**10 * 10! / 11! = 1024 / 11; nine and one: 2**10 * 9! / 11! = 1024 / 110
        for count, expected in (
            (Score(10), 1024 / 11),
            (Score(9, 5, 1), 1024 / 110),
            (Score(), 1.0),
            (Score(0, 0, 10), 1024 / 11),
        ):
            if not math.isclose(math.exp(sequential.sides(count)), expected):
                wrong.append(f"the sides of {count} are {math.exp(sequential.sides(count))} and not {expected}")
        # two ties: 1.04, 1.1 and 1.22, squared each; a win: 0.84, 0.6 and 0.12; a loss: 1.24, 1.6 and 2.32
        for count, expected in (
            (Score(0, 2, 0), (1.0816 + 1.21 + 1.4884) / 3),
            (Score(1), 1.56 / 3),
            (Score(0, 0, 1), 5.16 / 3),
        ):
            if not math.isclose(math.exp(sequential.below(count)), expected):
                wrong.append(f"{count} speaks by {math.exp(sequential.below(count))} and not by {expected}")
        # decided at 40: by ten wins (93), not by nine of ten (9.3), by 18 of 20 (2**20 / 21 / 190 = 263); by 30 ties
        for parts, decided in (
            ([Score(10)], (BETTER, 10)),
            ([Score(0, 0, 10)], (WORSE, 10)),
            ([Score(9, 0, 1)], (OPEN, 10)),
            ([Score(9, 0, 1)] * 2, (BETTER, 20)),
            ([Score(0, 10)] * 9, (EVEN, 30)),
            ([Score(5, 0, 5)] * 10, (OPEN, 100)),
        ):
            if sequential.decision(parts) != decided:
                wrong.append(f"{parts} is decided as {sequential.decision(parts)} and not as {decided}")
        return wrong

    def sequential_test_by_chance(self) -> list[str]:
        """Equal robots are rarely said to differ, and such that differ to be equal, or the worse one to be better."""
        source, wrong = random.Random(5), []
        cases = [
            (chance, ties, favour)
            for chance in (0.5, 0.6, 0.7, 0.9)
            for ties, favour in ((0.0, 0.0), (0.0, 0.1), (0.6, 0.0), (0.9, 0.1))
        ]
        for chance, ties, favour in cases:
            found = Counter(played(source, chance, ties, favour)[0] for _ in range(PAIRS // len(cases)))
            mean = 0.5 + (1 - ties) * (chance - 0.5)
            is_false = (
                {BETTER, WORSE}
                if chance == 0.5
                else {WORSE, EVEN}
                if mean >= 0.5 + sequential.MARGIN - 1e-9
                else {WORSE}
            )
            share = sum(found[it] for it in is_false) / found.total()
            if share > sequential.ERROR:
                wrong.append(f"chance {chance}, ties {ties}, favour {favour}: {share:.1%} are decided falsely")
        return wrong

    def sequential_test_saves(self) -> list[str]:
        """What differs much is decided soon, what differs little is not."""
        source = random.Random(6)
        means = [sum(played(source, chance, 0.0, 0.0)[1] for _ in range(300)) / 300 for chance in (0.95, 0.75, 0.5)]
        return [] if means[0] < 16 and means[1] < 60 and means[2] > 95 else [f"after {means} matches"]

    def intervals_by_hand(self) -> list[str]:
        """Ten wins: the average of (p / m)**10 is 1 / (11 m**10), which is 40 at m = 440**-0.1. Nine and one: 1 / (110 m**9 (1 - m)) is
        39.93 at 0.41823. 30 halves: with a = 1 / (2 - 2m) and b = 1 / (2m) it is (b**31 - a**31) / (31 (b - a)), 40.7 at 0.41 and
        39.95 at 0.4103. The other side is the same, turned; nothing is known of no matches."""
        wrong = []
        for count, low, high in (
            (Score(10), 440**-0.1, 1.0),
            (Score(9, 0, 1), 0.41823, 0.9998),
            (Score(0, 30), 0.41015, 0.58985),
            (Score(), 0.0, 1.0),
        ):
            for it, wanted in ((count, (low, high)), (count.turned, (1 - high, 1 - low))):
                found = sequential.interval(it)
                if max(abs(one - other) for one, other in zip(found, wanted)) > 2e-4:
                    wrong.append(f"{it}: {found}, not {wanted}")
        return wrong

    def what_many_matches_say(self) -> list[str]:
        """Without ties the average of (p / m)**w ((1 - p) / (1 - m))**l over all chances p is w! l! / ((w + l + 1)! m**w (1 - m)**l)."""
        wrong = []
        for won, lost in ((0, 1), (3, 2), (60, 40), (500, 500), (2500, 1500), (9000, 1000), (20_000, 21_000)):
            for mean in (0.3, 0.5, 0.52, 0.7):
                wanted = (math.lgamma(won + 1) + math.lgamma(lost + 1) - math.lgamma(won + lost + 2)
                          - won * math.log(mean) - lost * math.log(1 - mean))
                found = sequential.against(Score(won, 0, lost), mean)
                wrong += [] if abs(found - wanted) < 1e-3 else [f"{won} and {lost} by {mean}: {found}, not {wanted}"]
        return wrong

    def intervals_agree_with_decisions(self) -> list[str]:
        """Of all counts of up to 24 matches a half is outside of the interval just if a side is decided; the share is inside of it."""
        wrong = []
        for played in range(1, 25):
            for won in range(played + 1):
                for lost in range(0, played - won + 1, 3):
                    it = Score(won, played - won - lost, lost)
                    low, high = sequential.interval(it)
                    side = BETTER if low >= 0.5 else WORSE if high <= 0.5 else OPEN
                    decided = sequential.looked(it)
                    share = (it.won + it.even / 2) / played
                    if side != (decided if decided != EVEN else OPEN) or not low <= share <= high:
                        wrong.append(f"{it}: {low} to {high}, {decided}")
        return wrong

    def intervals_hold_whenever_one_looks(self) -> list[str]:
        """Of pairs that are looked at after each ten of 200 matches at most one of twenty has an interval that ever leaves out its mean."""
        source, wrong = random.Random(7), []
        for chance, ties, favour in ((0.5, 0.0, 0.3), (0.75, 0.0, 0.0), (0.95, 0.3, 0.0), (0.6, 0.6, 0.1)):
            mean, failed = 0.5 + (1 - ties) * (chance - 0.5), 0
            for _ in range(60):
                so_far, is_held = Score(), True
                for _ in range(20):
                    so_far = so_far.plus(look(source, chance, ties, favour))
                    low, high = sequential.interval(so_far)
                    is_held = is_held and low <= mean <= high
                failed += not is_held
            wrong += [] if failed <= 0.05 * 60 else [f"chance {chance}, ties {ties}, favour {favour}: {failed} of 60"]
        return wrong

    def shares_of_stopped_pairs_by_hand(self) -> list[str]:
        """18 wins of 20: the first look had eight or nine, since ten would have stopped. Of 45 ways with eight and 100 with nine the mean
        chance is (45 * 0.8 + 100 * 0.9) / 145, and of two wins (45 * 56 / 90 + 100 * 72 / 90) / 145. Half of the first look being
        ties, half of what is above a half counts, and the variance has (p - 1/2)**2 / 4 / 9 more. The third moment of a mean of n is
        its variance times (1 - 2p) / n, so that of one who mostly won is below 0."""
        chance, both = 126 / 145, 108 / 145
        own = chance**2 - both
        cases = (
            (Score(10), Score(10), 1.0, 0.0, 0.0),
            (Score(18, 0, 2), Score(9, 0, 1), chance, own, own * (1 - 252 / 145) / 20),
            (Score(2, 0, 18), Score(1, 0, 9), 1 - chance, own, own * (252 / 145 - 1) / 20),
            (Score(0, 30), Score(0, 10), 0.5, 0.0, 0.0),
            (Score(6, 0, 4), Score(6, 0, 4), 0.6, 0.6**2 - 30 / 90, (0.6**2 - 30 / 90) * -0.2 / 10),
            (Score(3, 5, 2), Score(3, 5, 2), 0.55, 0.25 * (0.36 - 0.3) + 0.01 * 0.25 / 9, 0.125 * (0.36 - 0.3) * -0.2 / 5),
        )
        wrong = []
        for count, first, *wanted in cases:
            it = stopped.share(count, first)
            found = [it.value, it.variance, it.third]
            if not all(math.isclose(one, other, abs_tol=1e-12) for one, other in zip(found, wanted)):
                wrong.append(f"{count}: {found}, not {wanted}")
        return wrong

    def shares_of_stopped_pairs_have_no_bias(self) -> list[str]:
        """Their mean over many pairs is the true one, where that of the shares of all matches isn't, and the variances' mean is right."""
        source, wrong = random.Random(8), []
        for chance, ties in ((0.75, 0.0), (0.9, 0.2)):
            found, plain = [], []
            for _ in range(3000):
                parts: list[Score] = []
                while len(parts) < 10 and sequential.decision(parts)[0] == OPEN:
                    parts.append(look(source, chance, ties, 0.0))
                every = functools.reduce(Score.plus, parts)
                found.append(stopped.share(every, parts[0]))
                plain.append((every.won + every.even / 2) / every.played)
            mean = 0.5 + (1 - ties) * (chance - 0.5)
            values = [it.value for it in found]
            spread = statistics.variance(values)
            is_fine = abs(statistics.fmean(values) - mean) < 4 * (spread / 3000) ** 0.5 < statistics.fmean(plain) - mean
            if not is_fine or not 0.9 < statistics.fmean(it.variance for it in found) / spread < 1.1:
                wrong.append(f"{mean}: {statistics.fmean(values)}, by all matches {statistics.fmean(plain)}; variance {spread}")
        return wrong

    def verdicts_in_words(self) -> list[str]:
        """Of both sides, and as fields."""
        count = Score(18, 0, 2)
        it = verdicts.Told(BETTER, count, *sequential.interval(count))
        even, open_ = (verdicts.Told(decision, Score(0, 30), 0.41, 0.59) for decision in (EVEN, OPEN))
        said = [verdicts.said(one, "a", "b") for one in (it, it.turned, even, open_)]
        wanted = ["a is better, by the test after 20 matches", "b is better, by the test after 20 matches",
                  "even, by the test after 30 matches", "not decided after 30 matches"]
        fields = verdicts.data(it.turned)
        right = (fields["verdict"], fields["tested"], round(fields["share"], 9)) == ("worse", 20, 0.1)
        right = right and math.isclose(fields["high"], 1 - it.low) and math.isclose(fields["low"], 1 - it.high)
        return [] if said == wanted and right else [f"{said} {fields}"]

    def verdicts_of_all_pairs(self) -> list[str]:
        """a loses ten to b and to c, whose matches are 30 ties: in each form, and in status; a league without the test has none. Ten to
        none is at least 440**-0.1 of a share, 30 ties are 41 to 59 % of it."""
        it = League(self, "told", "--until=sure", "-l100", robots=("a.r", "b.r", "c.r"))
        before = it.run("table", "--csv", "--pairs")
        it.run("play", "-j1")
        rows = ["robot,against,tested,won,even,lost,share,low,high,verdict", "a,b,10,0,0,10,0.0000,0.0000,0.4560,worse",
                "a,c,10,0,0,10,0.0000,0.0000,0.4560,worse", "b,c,30,0,30,0,0.5000,0.4103,0.5897,even"]
        wrong = [] if it.run("table", "--csv", "--pairs").splitlines() == rows else [it.run("table", "--csv", "--pairs")]
        words = it.run("table", "--pairs").splitlines()
        ends = ["b is better, by the test after 10 matches", "c is better, by the test after 10 matches", "even, by the test after 30 matches"]
        wrong += [] if [line.endswith(end) for line, end in zip(words[1:], ends, strict=True)] == [True] * 3 else [f"{words}"]
        status = "verdicts: of 3 pairs 2 better, 1 even, 0 not decided\n"
        wrong += [] if status in it.run("status") else [it.run("status")]
        pairs = json.loads(it.run("table", "--json"))["pairs"]
        wrong += [] if [one["verdict"] for one in pairs] == ["worse", "worse", "even"] and pairs[2]["tested"] == 30 else [f"{pairs}"]
        wrong += [] if before.count(",0,0,0,0,0.5000,0.0000,1.0000,not decided\n") == 3 else [before]
        plain = League(self, "plain", "-m2", "-l100", robots=("a.r", "b.r"))
        ran = self.ran("table", plain.folder, "--pairs")
        said = "league: --pairs shows what the sequential test says, and this season has none\n"
        return wrong + ([] if (ran.returncode, ran.stderr) == (2, said) and "pairs" not in json.loads(plain.run("table", "--json")) else [f"{ran}"])

    def old_tables_keep_their_numbers(self) -> list[str]:
        """A table of the first scale is shown as it was, close by its intervals; one of this scale says which rows are close."""
        it = League(self, "older", "-m10", "-l100", robots=("a.r", "b.r", "c.r"))
        it.run("play", "-j1")
        it.run("season", "end", "--day=2026-03-02")
        now = it.run("table")
        wrong = [] if [row["close"] for row in csv.DictReader(io.StringIO(it.run("table", "--csv")))] == ["", "close", ""] else [now]
        with closing(sqlite3.connect(os.path.join(self._folder, it.folder, "league.db"))) as database, database:
            database.execute("UPDATE publication SET scale = 1, hash = ''")
            database.execute("UPDATE standing SET close = NULL, rating = 10 * rank, low = 10 * rank - 8, high = 10 * rank + 3")
        rows = [*csv.DictReader(io.StringIO(it.run("table", "--csv")))]
        shown = [(row["rating"], row["low"], row["high"], row["close"]) for row in rows]
        return wrong + ([] if shown == [("10", "2", "13", ""), ("10", "2", "13", "close"), ("30", "22", "33", "")] else [f"{shown}"])
