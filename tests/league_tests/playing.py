"""What is played, by which rules."""

from __future__ import annotations

import json
from collections import Counter

from .base import DAY, Base, League, read

# a's wins, ties and losses in four robots' pairs of four matches: it loses all; b, c and d tie among each other.
TABLE = """\
rank  robot  played  won  tied  lost  points
   1  b          12    4     8     0   1.667
   1  c          12    4     8     0   1.667
   1  d          12    4     8     0   1.667
   4  a          12    0     0    12   0.000
"""


def unrated(table: str) -> str:
    """A table without its ratings."""
    end = table.index("points") + len("points")
    return "".join(line[:end] + "\n" for line in table.splitlines())


class Playing(Base):
    """Tables, modes, and nothing twice."""

    def plays_a_table(self) -> list[str]:
        it = League(self, "table", "-m3", robots=("a.r", "b.r", "c.r", "d.r"))
        said = it.run("play", "-j1", DAY)
        table = it.run("table")
        wrong = [] if unrated(table) == TABLE and not said else [f"the table is\n{table}"]
        if it.table()[3] | {"rating": "", "low": "", "high": ""} != dict(
            zip(
                "division rank robot played won tied lost points rating low high close".split(),
                "1 4 a 12 0 0 12 0.000    ".split(" "),
            )
        ):
            wrong.append(f"as comma-separated values: {it.table()[3]}")
        found = json.loads(it.run("table", "--json"))
        if [(row["robot"], row["rank"], row["lost"]) for row in found["table"]] != [
            ("b", 1, 0),
            ("c", 1, 0),
            ("d", 1, 0),
            ("a", 4, 12),
        ]:
            wrong.append(f"as JSON: {found['table']}")
        days = it.rows("SELECT DISTINCT day FROM battle")
        return wrong + ([] if days == [("2026-03-01",)] else [f"played on {days}"])

    def one_that_has_not_played(self) -> list[str]:
        """Nothing is known of its strength, so its rating isn't shown, in no form; it has its place by its points."""
        it = League(self, "waiting", "-m4", robots=("a.r", "b.r", "r50.r"))
        it.run("play", "-j1")
        it.run("rules", "--anchor=b=1000")
        it.run("add", "d.r")
        row = it.table()[-1]
        wrong = [] if [row[name] for name in ("robot", "played", "rating", "low", "high", "close")] == ["d", "0", *[""] * 4] else [f"{row}"]
        found = json.loads(it.run("table", "--json"))["table"][-1]
        wrong += [] if (found["robot"], found["rating"], found["low"], found["high"]) == ("d", None, None, None) else [f"{found}"]
        it.run("publish", self.at("waiting-site"), DAY, "--replays=0", "--sums=0")
        said = read(self.at("waiting-site/index.html")).partition("Robots that are not in the table")
        return wrong + ([] if ">d<" in said[2] and ">d<" not in said[0] else ["the site has it in its table"])

    def plays_only_what_is_new(self) -> list[str]:
        program = f"--crobots={self._counting}"
        it = League(self, "new", "-m4", program, robots=("a.r", "b.r", "r5.r"))
        self._series()
        wrong = []
        # pairs of three, two seatings each; with a fourth robot three pairs more; with other bytes of one its three pairs
        steps: list[tuple[tuple[str, ...], int]] = [
            ((), 6),
            ((), 0),
            (("add", "r10.r"), 6),
            (("change", "a", "r15.r"), 6),
            (("change", "a", "a.r"), 0),
            (("withdraw", "b"), 0),
            (("change", "b", "b.r"), 0),
            (("rules", "-m8"), 12),
            (("rules", "-m4"), 0),
        ]
        for words, series in steps:
            if words:
                it.run(*words)
            it.run("play", "-j1", "--piece=4", program)
            if len(found := self._series()) != series or it.missing():
                wrong.append(f"after {words} {len(found)} series were played, and not {series}")
        return wrong

    def samples_stay(self) -> list[str]:
        """A robot that is added to a sample takes places of groups, and of the others none is played."""
        program = f"--crobots={self._counting}"
        it = League(
            self,
            "sample",
            "-m3",
            "--mode=threes",
            "--sample=12",
            program,
            robots=("a.r", "b.r", "r5.r", "r10.r", "r15.r", "r20.r"),
        )
        it.run("play", "-j1", program)
        old = {frozenset(line.split()[-3:]) for line in self._series()}
        it.run("add", "r25.r")
        it.run("play", "-j1", program)
        new = {frozenset(line.split()[-3:]) for line in self._series()}
        sha256 = it.rows("SELECT sha256 FROM entry WHERE robot = 'r25'")[0][0]
        strange = [group for group in new if not any(path.endswith(sha256) for path in group)]
        return (
            []
            if len(old) == 12 and 0 < len(new) < 12 and not strange
            else [f"{len(old)}, {len(new)} groups, {strange} are of others"]
        )

    def modes(self) -> list[str]:
        """How many matches each mode has: groups times matches, rounded up to the seatings."""
        robots = ("a.r", "b.r", "c.r", "d.r", "r50.r")
        wrong = []
        for mode, matches in (
            ("pairs", 10 * 4),
            ("threes", 10 * 6),
            ("fours", 5 * 4),
            ("sizes:1,0,2", 10 * 4 + 5 * 4),
            ("gauntlet:b", 4 * 4),
        ):
            it = League(self, f"mode-{mode}", "-m4", f"--mode={mode}", robots=robots)
            planned = it.missing()
            it.run("play", "-j1")
            if planned != matches or len(it.battles()) != matches or it.missing():
                wrong.append(f"{mode}: {planned} were missing, {len(it.battles())} were played")
        # a and b: b beats a once in pairs and both tie at most; weights 1 and 2 of 3 points
        it = League(self, "weights", "-m4", "--mode=sizes:1,0,2", robots=("a.r", "b.r", "c.r", "d.r"))
        it.run("play", "-j1")
        # b: in pairs it won 4 and tied 8 of 12, (12 + 8) / 12; in fours it tied with c and d: 1; so 5 / 3 + 2
        if (points := [row["points"] for row in it.table()]) != ["3.667"] * 3 + ["0.000"]:
            wrong.append(f"points by sizes are {points}")
        return wrong

    def ladder(self) -> list[str]:
        it = League(self, "ladder", "-m4", "--mode=ladder")
        for robot in ("a.r", "b.r", "r95.r", "c.r"):
            it.run("add", robot)
        it.run("play", "-j1")
        order = [row["robot"] for row in it.table()]
        # b passes a; r95 dies in nearly all matches, so it ties with a at best; c ties with b, so it stays below
        wrong = (
            [] if order.index("b") == 0 and order.index("c") == 1 and it.missing() == 0 else [f"the ladder is {order}"]
        )
        before = len(it.battles())
        it.run("add", "r0.r")
        it.run("play", "-j1")
        if [row["robot"] for row in it.table()][:3] != ["b", "c", "r0"] or len(it.battles()) - before > 4 * 3:
            wrong.append(f"then it is {[row['robot'] for row in it.table()]}, {len(it.battles())} matches")
        return wrong

    def until_sure(self) -> list[str]:
        """a is beaten in ten matches each; b and c are even after 30 ties; the rest isn't played, here and on a farm."""
        rules = ("-m100", "--until=sure")
        it = League(self, "sure", *rules, robots=("a.r", "b.r", "c.r"))
        it.run("play", "-j1")
        wrong = (
            []
            if len(it.battles()) == 10 + 10 + 30 and it.missing() == 0
            else [f"{len(it.battles())} matches were played"]
        )
        # b won ten against a and tied 30 with c: 3 and 1 points a match, and each group counts alike
        if (points := [row["points"] for row in it.table()]) != ["2.000", "2.000", "0.000"]:
            wrong.append(f"the points are {points}")
        other = League(self, "sure-farm", *rules, robots=("a.r", "b.r", "c.r"))
        rounds = 0
        while plan := other.run("play", "--plan"):
            rounds += 1
            other.run("take", input=self._farmed(plan), stdin=None)
        if other.battles() != it.battles() or rounds != 3:
            wrong.append(f"by {rounds} plans other matches are played")
        close = League(self, "sure-close", *rules, robots=("r0.r", "r25.r", "r30.r"))
        close.run("play", "-j1")
        by_pair = Counter(frozenset(row[0].split(",")) for row in close.battles())
        # r25 and r30 differ by less than what 100 matches show
        wrong += [] if sorted(by_pair.values())[-1] == 100 and close.missing() == 0 else [f"{by_pair}"]
        return wrong
