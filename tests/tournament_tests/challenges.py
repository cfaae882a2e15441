"""Challenges: differences, their intervals, and the matches that were lost or changed."""

from __future__ import annotations

import json
import re
import statistics

from tournaments import intervals

from .base import COUNTER, SHOOTER, Base, seed_of, sha256, write


def changed_match(number: int, said: str, seed: int, files: str) -> str:
    """What is said of a match that b.r did better than a.r, which is lost after 90 cycles: the files have a place for both."""
    options = f"-l100 -s{seed} -p1"
    seat = said.partition(" in seat ")[2][0]
    old, new = files.format("b.r"), files.format("a.r")
    return (f"changed match: 1 against {said}, a.r lost it in 90 cycles\n"
            f"crobots -f1 -m1 {options} {old}\ncrobots -f1 -m1 {options} {new}\n"
            f"crobots-compare -k1 {options} --robot {seat} --old b.r {new}\n"
            f"crobots-replay -k1 {options} {new} > changed{number}.html\n")


class Challenges(Base):
    def a_change_for_the_better(self) -> list[str]:
        """a.r loses all and b.r ties all: a point a match, in every match the same."""
        shown = """\
against   new   old  change    low   high
c.r      1.00  0.00   +1.00  +1.00  +1.00
y.r      1.00  0.00   +1.00  +1.00  +1.00
all      1.00  0.00   +1.00  +1.00  +1.00
b.r in place of a.r: +1.00 points a match, 95 % interval +1.00 to +1.00, by 6 matches against each of 2
gained on: c.r, y.r
lost on: none
b.r against a.r: won 6, tied 0, lost 0 of 6 matches
b.r lost no match
"""
        return self._answers(self._run("-m6", "-l100", "b.r", "--old", "a.r", "c.r", "two/y.r", script="challenge"), shown)

    def a_change_for_the_worse(self) -> list[str]:
        """Against another that shoots itself both die and the older one wins, which is worse than a tie that was lost."""
        shown = """\
against   new   old  change    low   high
c.r      0.00  1.00   -1.00  -1.00  -1.00
x.r      0.00  3.00   -3.00  -3.00  -3.00
all      0.00  2.00   -2.00  -2.00  -2.00
a.r in place of b.r: -2.00 points a match, 95 % interval -2.00 to -2.00, by 2 matches against each of 2
gained on: none
lost on: x.r, c.r
a.r against b.r: won 0, tied 0, lost 2 of 2 matches
"""
        seed = seed_of(7, "challenger", sha256(SHOOTER))
        worst = ("worst lost match: 1 against x.r in seat 1, in 90 cycles; b.r won it\n"
                 f"crobots-tracks -k1 -l100 -s{seed} -p1 a.r one/x.r > match.svg\n")
        changed = "4 of 4 matches changed\n" + "".join([
            changed_match(1, "x.r in seat 1; b.r won it in 90 cycles", seed, "{} one/x.r"),
            changed_match(2, "x.r in seat 2; b.r won it in 90 cycles", seed_of(7, sha256(SHOOTER), "challenger"), "one/x.r {}"),
            changed_match(3, "c.r in seat 1; b.r tied it in 100 cycles", seed_of(7, "challenger", sha256(COUNTER)), "{} c.r"),
            changed_match(4, "c.r in seat 2; b.r tied it in 100 cycles", seed_of(7, sha256(COUNTER), "challenger"), "c.r {}"),
        ])
        words = ("-m2", "-l100", "-s7", "a.r", "--old", "b.r", "a.r", "c.r", "one/x.r")
        return (self._answers(self._run(*words, script="challenge"), shown + worst)
                + self._answers(self._run(*words, "--all", script="challenge"), shown + worst + changed))

    def matches_that_did_not_change(self) -> list[str]:
        """None do if both versions stand still. If nothing has points those that one version alone won have changed all the same,
        and not those that one tied and the other lost."""
        same = self._run("-m2", "-l100", "--all", "b.r", "--old", "c.r", "one/x.r", script="challenge").stdout
        words = ("-m2", "-l100", "--all", "--points", "0,0", "a.r", "--old", "b.r", "c.r", "one/x.r")
        told = self._run(*words, script="challenge").stdout
        rows = re.findall(r"^changed match: (.*); ", told, re.MULTILINE)
        wrong = [] if same.endswith("\n0 of 2 matches changed\n") else [same]
        return wrong + ([] if rows == ["1 against x.r in seat 1", "1 against x.r in seat 2"] and "\n2 of 4 matches changed\n" in told else [told])

    def all_that_changed(self) -> list[str]:
        """With --all the command lines of each match that changed play it as the row says. All others were worth the same: so the
        differences of points add up to the change of all matches."""
        told = self._run("-m20", "-l20000", "--all", "0/centre.r", "--old", "0/sweeper.r", "0/hunter.r", "0/sniper.r", script="challenge").stdout
        rows = re.findall(r"^changed match: .* in seat ([12]); sweeper.r (\w+) it in (\d+) cycles, centre.r (\w+) it in (\d+) cycles\n"
                          r"crobots (.*)\ncrobots (.*)\n", told, re.MULTILINE)
        wrong = [] if f"\n{len(rows)} of 40 matches changed\n" in told and len(rows) == told.count("changed match:") > 3 else [told]
        for seat, old, old_cycles, new, new_cycles, old_words, new_words in rows:
            for robot, did, cycles, words in (("sweeper.r", old, old_cycles, old_words), ("centre.r", new, new_cycles, new_words)):
                report = self._sh(f"$PROGRAM {words}").stdout
                result = " ".join(f"{how} {int(did == how)}" for how in ("won", "tied", "lost"))
                fine = f": cycles = {cycles}\n" in report and f"  {seat}) {result} {robot}\n" in report
                wrong += [] if fine else [f"{did} in {cycles} cycles: {words}: {report}"]
        worth = {"won": 3, "tied": 1, "lost": 0}
        gain = sum(worth[new] - worth[old] for _, old, _, new, _, _, _ in rows) / 40
        change = float(next(line.split()[3] for line in told.splitlines() if line.startswith("all ")))
        return wrong + ([] if abs(gain - change) <= 0.0051 else [f"{gain}, not {change}"])

    def as_data(self) -> list[str]:
        """The numbers of the table, as comma-separated values and as JSON; with --all the matches that changed, by JSON alone."""
        words = ("-m2", "-l100", "-s7", "a.r", "--old", "b.r", "c.r", "one/x.r")
        rows = "against,new,old,change,low,high\nc.r,0.0,1.0,-1.0,-1.0,-1.0\nx.r,0.0,3.0,-3.0,-3.0,-3.0\nall,0.0,2.0,-2.0,-2.0,-2.0\n"
        wrong = self._answers(self._run(*words, "--csv", script="challenge"), rows)
        said = json.loads(self._run(*words, "--json", script="challenge").stdout)
        every = json.loads(self._run(*words, "--json", "--all", script="challenge").stdout)
        one, two = ({"new": 0, "old": old, "change": -old, "low": -old, "high": -old} for old in (1, 3))
        wanted = {"new": "a.r", "old": "b.r", "matches": 2, "opponents": [{"against": "c.r", **one}, {"against": "x.r", **two}],
                  "all": {"new": 0, "old": 2, "change": -2, "low": -2, "high": -2}, "each_other": {"won": 0, "tied": 0, "lost": 2}}
        wrong += [] if said == wanted else [f"{said}"]
        first = {"against": "x.r", "match": 1, "seat": 1, "new": {"did": "lost", "cycles": 90}, "old": {"did": "won", "cycles": 90},
                 "seed": str(seed_of(7, "challenger", sha256(SHOOTER)))}
        if every.pop("changed")[0] != first or every != said:
            wrong.append(f"{every}, not {first}")
        refused = self._run(*words, "--csv", "--all", script="challenge")
        return wrong + self._answers(refused, "", "challenge: --all lists matches in words or with --json, so it takes no --csv\n", 2)

    def only_sure_gains_are_named(self) -> list[str]:
        """An opponent whose own interval has 0 in it is in neither list."""
        told = self._run("-m20", "-l5000", "1/sweeper.r", "--old", "0/sweeper.r", *self._forty[3:9], script="challenge").stdout
        rows = [line.split() for line in told.splitlines()[1:7]]
        named = re.findall(r"(?:gained|lost) on: (.*)", told)
        lists = [[] if it == "none" else it.split(", ") for it in named]
        sure = [[row[0] for row in rows if float(row[4]) > 0], [row[0] for row in rows if float(row[5]) < 0]]
        return [] if [sorted(it) for it in lists] == [sorted(it) for it in sure] and sum(map(len, sure)) < 6 == len(rows) else [told]

    def intervals_worked_out_by_hand(self) -> list[str]:
        """Differences 2, -1 and 0: mean 1/3, squares (25 + 16 + 1) / 9, so a deviation of 1.527525; Student's quantile of two
        degrees is 4.303, and 4.303 / 3 ** 0.5 of it 3.7947. Two opponents, the other with 0, 0 and 3: mean 1, deviation
        1.732051; so variances of the means 0.777778 and 1, degrees (1.777778 ** 2) / (0.302469 + 0.5) = 3.938462, of which
        the quantile lies between those of three and four, 3.182 and 2.776: 2.793, and half of 1.333333 of it 1.862."""
        one, both = intervals.mean([[2, -1, 0]]), intervals.mean([[2, -1, 0], [0, 0, 3]])
        cases = ((one.value, 1 / 3, 1e-9), (one.high - one.value, 3.7947, 1e-3), (both.value, 2 / 3, 1e-9), (both.value - both.low, 1.862, 0.02))
        return [f"{found}, not {wanted}" for found, wanted, near in cases if abs(found - wanted) > near]

    def students_quantiles(self) -> list[str]:
        """Those of a table of Student's distribution, for intervals of 95, 99 and 99.9 %; between one, two and three degrees those of the
        fewer ones."""
        table = {0.95: {1: 12.706, 1.9: 12.706, 2: 4.303, 2.9: 4.303, 3: 3.182, 4: 2.776, 5: 2.571, 7: 2.365, 10: 2.228, 20: 2.086, 30: 2.042,
                        100: 1.984, 1e9: 1.960},
                 0.99: {1: 63.657, 2: 9.925, 3: 5.841, 5: 4.032, 10: 3.169, 30: 2.750, 1e9: 2.576},
                 0.999: {1: 636.62, 2: 31.599, 5: 6.869, 10: 4.587, 30: 3.646, 100: 3.391}}
        found = {(level, freedom): (wanted, intervals.quantile(freedom, level)) for level, row in table.items() for freedom, wanted in row.items()}
        return [f"{key}: {got}, not {wanted}" for key, (wanted, got) in found.items() if abs(got - wanted) > 0.01 * wanted]

    def intervals_are_as_wide_as_over_seeds(self) -> list[str]:
        """The deviation of the change over eight seeds, and that by the intervals: within a factor of two, where it was six."""
        changes, widths = [], []
        for seed in range(1, 9):
            told = self._run("-m10", "-l5000", f"-s{seed}", "1/sweeper.r", "--old", "0/sweeper.r", *self._forty[11:20], script="challenge")
            row = next(line for line in told.stdout.splitlines() if line.startswith("all "))
            change, low, high = row.split()[3:]
            changes.append(float(change))
            widths.append((float(high) - float(low)) / 2 / 1.96)
        ratio = statistics.stdev(changes) / statistics.fmean(widths)
        return [] if 0.4 < ratio < 2 else [f"{ratio} {changes} {widths}"]

    def a_challenge_goes_on_from_a_journal(self) -> list[str]:
        """Also from that of a tournament: what both versions did against each other there is found."""
        write(self._at("new.r"), f"/* new */ {COUNTER}")
        self._run("-m6", "-l100", "--piece", "6", "--journal", "challenged", "new.r", "a.r")
        before = len(self._lines("challenged"))
        words = ("-m6", "-l100", "--journal", "challenged", "new.r", "--old", "a.r", "c.r", "two/y.r")
        first = self._run(*words, script="challenge")
        lines = self._lines("challenged")
        wrong = self._answers(self._run(*words, script="challenge"), first.stdout)
        added = [line for line in lines[before:] if "files=new.r,a.r" in line or "files=a.r,new.r" in line]
        return wrong + ([] if self._lines("challenged") == lines and len(lines) > before + 3 and not added and before == 2 else [f"{before} {added}"])
