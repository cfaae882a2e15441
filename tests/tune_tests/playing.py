"""The script `tune` with robots whose points are known beforehand: one that shoots itself loses, and else both live to the limit,
which is a tie. It draws a number, so in a part of its matches it loses that is known."""

from __future__ import annotations

import csv
import io
import json
import os
import random
import re
import resource
import shlex
import shutil
import signal
import statistics
import subprocess
import tempfile
import time
import xml.etree.ElementTree
from collections import Counter
from pathlib import Path
from typing import Any, Sequence
from urllib.parse import quote

from harness import skip
from packages import lacking

TOP = Path(__file__).resolve().parent.parent.parent
STILL = "main(){while(1);}"
# It loses in so many of a thousand matches.
DRAWS = "main(){if (rand(1000) < 400 /* tune 0..1000 step 100 name lost */) while(1) cannon(0,0); while(1);}"
# It loses the oftener the further its numbers are from 600 and 200.
TWO = """distance(a, b) int a, b; { if (a < b) return b - a; return a - b; }
main() {
  if (rand(1000) < distance(%s /* tune 0..1000 name one */, 600) / 2 + distance(%s /* tune 0..1000 name two */, 200) / 2)
    while (1) cannon(0, 0);
  while (1);
}
"""
BARE = re.sub(r" /\*.*?\*/", "", DRAWS)
UNUSED = "main(){int a; a = 5 /* tune 0..20 name unused */; if (rand(1000) < 300) while(1) cannon(0,0); while(1);}"
# By 9 it shoots itself, later than dies.r does; else it stands still.
SWITCH = """main() {
  int n;
  if (5 /* tune 1..9 step 4 name switch */ > 6) {
    while (n < 8) n = n + 1;
    while (1) cannon(0, 0);
  }
  while (1);
}
"""
FILES = {"switch.r": SWITCH, "switched.r": SWITCH.replace("5 /*", "9 /*"), "dies.r": "main(){while(1) cannon(0,0);}", "still.r": STILL,
         "other.r": STILL + "/* other */", "draws.r": DRAWS, "two.r": TWO % (100, 900), "best.r": TWO % (600, 200),
         "unused.r": UNUSED, "bad.r": "main(){\nbreak; }", "plain.r": "main(){int a; a = 7;}", "field/a.r": STILL + "/* a */",
         "field/b.r": "main(){while(1) cannon(0,0);}", "field/notes.txt": "no robot"}
WORDS = ("-l400", "--quiet")
# The texts of a picture that are beyond its edges, and pairs that overlap by more than a pixel.
SEEN = """(() => {
    const edges = document.documentElement.getBoundingClientRect();
    const them = [...document.querySelectorAll("text")].map(it => ({said: it.textContent, at: it.getBoundingClientRect()}));
    const isBeyond = ({at}) => at.left < edges.left || at.top < edges.top || at.right > edges.right || at.bottom > edges.bottom;
    const overlap = (one, other) => Math.min(one.at.right, other.at.right) - Math.max(one.at.left, other.at.left) > 1
        && Math.min(one.at.bottom, other.at.bottom) - Math.max(one.at.top, other.at.top) > 1;
    const pairs = them.flatMap((one, at) => them.slice(at + 1).filter(other => overlap(one, other)).map(other => `${one.said} / ${other.said}`));
    return [them.filter(isBeyond).map(({said}) => said), pairs];
})()"""
# So many seconds a script may take where a machine has much else to do.
PATIENCE = 3000
SAID = "tune: the tuned robot is judged against the robots that it was tuned against; --judge names others\n"
NOBODY = "there is no robot to play against; give files, folders with robots, --level N or --league LEAGUE"
Ran = subprocess.CompletedProcess[str]


def overlaps(browser: Any, path: Path) -> list[str]:
    """What of a picture's texts is beyond its edges, or lies over others."""
    browser.load(str(path))
    beyond, overlapping = browser.value(SEEN)
    return [f"{beyond} beyond, {overlapping} overlap"] if beyond or overlapping else []


def itself(robot: str, *files: str) -> str:
    """What is said of files that are the robot itself."""
    return f"tune: left out: {', '.join(files)} ({robot} itself, or a copy with other numbers or comments)\n"


def named(robot: str, *files: str) -> str:
    """What is said of files that are copies of the robot, and are played."""
    return f"tune: played, as the words name it: {', '.join(files)} (a copy of {robot} with other numbers or comments)\n"


class Playing:
    """Each method whose name does not begin with _ is a test: it answers what is wrong."""

    def __init__(self, know: str, crobots: str) -> None:
        self._programs = ["--know", know, "--crobots", crobots]
        self._crobots = crobots
        self._kept = tempfile.TemporaryDirectory()
        self._folder = Path(self._kept.name)
        for name, text in FILES.items():
            (self._folder / name).parent.mkdir(exist_ok=True)
            (self._folder / name).write_text(text, encoding="utf-8")

    def _words(self, *words: str) -> list[str]:
        return [str(TOP / "scripts" / "tune"), *self._programs[:2 if "--crobots" in words else 4], *WORDS, *words]

    def _run(self, *words: str, **how: Any) -> Ran:
        given: dict[str, Any] = {"capture_output": True, "text": True, "timeout": PATIENCE} | how
        return subprocess.run(self._words(*words), cwd=self._folder, check=False, **given)

    def _refused(self, said: str, *words: str, status: int = 2) -> list[str]:
        ran = self._run(*words)
        return [] if (ran.stdout, ran.stderr, ran.returncode) == ("", said, status) else [f"{words}: {ran!r:.500}"]

    def _rows(self, *words: str) -> list[dict[str, str]]:
        ran = self._run("--sweep", "--csv", *words)
        assert not ran.returncode and not ran.stderr, f"{ran!r:.500}"
        return [*csv.DictReader(io.StringIO(ran.stdout))]

    def a_sweep_of_known_chances(self) -> list[str]:
        """A value of v loses v of 1000 matches, and a tie is a point. The same starts draw the same number, so each value loses what
        a lesser one loses: a change is that of a part of the matches that is known, within four times its spread."""
        rows = self._rows("-m400", "draws.r", "still.r", "other.r")
        wrong = []
        for row in rows:
            lost = int(row["lost"]) / 1000
            for name, wanted in (("points", 1 - lost), ("change", 0.4 - lost)):
                part = abs(wanted) * (1 - abs(wanted)) / 800
                wrong += [f"{name}: {row}"] if abs(float(row[name]) - wanted) > 4 * part**0.5 + 0.0006 else []
        held = sum(float(row["low"]) <= 0.4 - int(row["lost"]) / 1000 <= float(row["high"]) for row in rows)
        wrong += [] if held >= 7 else [f"{held} of 11 intervals hold"]
        verdicts = [row["verdict"] for row in rows]
        return wrong if verdicts == ["better"] * 4 + ["today's"] + ["worse"] * 6 else [*wrong, f"{verdicts}"]

    def a_source_of_60000_bytes(self) -> list[str]:
        """Tokens are asked for of as long a source as an editor shows."""
        (self._folder / "long.r").write_text(DRAWS.replace("main", "/* long */\n" * 5_454 + "main"), encoding="ascii")
        rows = self._rows("-m2", "long.r", "still.r")
        return [] if [row["lost"] for row in rows] == [f"{value}" for value in range(0, 1001, 100)] else [f"{rows}"]

    def a_row_is_what_challenge_says(self) -> list[str]:
        """With the same words: another program of this repository works the change out."""
        (self._folder / "lost700.r").write_text(DRAWS.replace("400 /*", "700 /*"), encoding="utf-8")
        row = next(row for row in self._rows("-m60", "-s9", "draws.r", "still.r", "other.r") if row["lost"] == "700")
        words = [TOP / "scripts" / "challenge", "--crobots", self._crobots, "-m60", "-s9", "-l400", "--quiet", "lost700.r", "--old", "draws.r", "still.r", "other.r"]
        told = subprocess.run(words, cwd=self._folder, capture_output=True, text=True, check=True).stdout
        new, _, change, *_ = map(float, next(line for line in told.splitlines() if line.startswith("all ")).split()[1:])
        right = abs(float(row["points"]) - new) <= 0.0055 and abs(float(row["change"]) - change) <= 0.0055
        return [] if right else [f"{row}, not {told}"]

    def a_number_that_changes_nothing(self) -> list[str]:
        """It plays alike by each value, though its matches end by chance: so each difference is 0, and an interval is that of two matches of 80
        that weren't seen, by Student's quantile of 80 degrees of freedom: of 95 % 1.990 * 3 / 80 * the root of 2 = 0.1055, and of 20 values at
        once, of a chance of 0.0005, 3.6288 in place of 1.990: 0.1925. Ends are moved outward to what is written."""
        rows = self._rows("-m40", "unused.r", "still.r", "other.r")
        nothing = ("0.000", "-0.193", "+0.193", "-0.106", "+0.106", "no difference that these matches could show")
        got = [tuple(row[name] for name in ("change", "low", "high", "low95", "high95", "verdict")) for row in rows]
        return [] if got == [nothing] * 5 + [(*["0.000"] * 5, "today's")] + [nothing] * 15 else [f"{got}"]

    def until_sure_spends_matches_where_it_matters(self) -> list[str]:
        """Today's value and the best one get most matches, the worst one few. Each value that has fewer is called worse, by an interval that
        has no 0; so is one that is better than today's, and worse than the best one."""
        rows = {row["lost"]: row for row in self._rows("-m320", "--until", "sure", "draws.r", "still.r", "other.r")}
        counts = {value: int(row["matches"]) for value, row in rows.items()}
        wrong = [] if counts["0"] == counts["400"] == max(counts.values()) >= 160 and counts["1000"] <= 80 and rows["0"]["verdict"] == "better" else [f"{rows}"]
        for value, row in rows.items():
            said = f"{'better but ' if float(row['low']) > 0 else ''}worse than lost="
            right = row["verdict"] == "worse" if float(row["high"]) < 0 else row["verdict"].startswith(said)
            wrong += [] if right or counts[value] == counts["400"] else [f"{value}: {row}"]
        return wrong

    def forms_have_the_same(self) -> list[str]:
        """The table, its comma-separated values and JSON, by the same matches."""
        words = ("-m20", "draws.r", "still.r")
        rows, table = self._rows(*words), self._run("--sweep", *words).stdout.splitlines()
        made = json.loads(self._run("--sweep", "--json", *words).stdout)
        wrong = [] if [[*map(str, it["values"]), f"{it['points']:.3f}", it["verdict"]] for it in made["sweep"]] == \
            [[row["lost"], row["points"], row["verdict"]] for row in rows] else [f"{made}"]
        wrong += [] if made["numbers"] == [{"name": "lost", "line": 1, "column": 25, "low": 0, "high": 1000, "today": 400}] else [f"{made['numbers']}"]
        shown = [re.split(" {2,}", line.strip()) for line in table[: len(rows) + 1]]
        beside = [[value for name, value in row.items() if name not in ("against", "low95", "high95")] for row in rows]
        heads = ["lost", "points a match", "change from 400", "at least", "at most", "matches", "verdict"]
        wrong += [] if shown == [heads, *beside] else [f"{shown}"]
        begins = ("keep today's 400: ", "surely better than today's 400: ", "surely worse than today's 400: ", "against still.r", "(lost: ")
        below = table[len(rows) + 1:]
        return wrong if len(below) == len(begins) and all(map(str.startswith, below, begins)) else [*wrong, f"{below}"]

    def what_each_opponent_is_worth(self) -> list[str]:
        """Of 20 matches each: 5 ties with still.r and wins against dies.r, 9 loses and wins. Nothing differs among the matches of an
        opponent, so an interval is that of two matches that weren't seen: 3 points more and less of 20, by Student's quantile of 20
        degrees of freedom. Points and changes of 3 values with each and with both are 18, so their chance is 0.01 / 18: 4.1010 * 3 / 20 * the
        root of 2 = 0.86995. Of both, with weights 1 and 3, there are 1 / ((1/16 + 9/16) / 20) = 32 counted matches: for points 3.8350 * 3 / 32
        * the root of 2 = 0.50844, and for the two changes, by 0.01 / 2, 3.0150 in its place: 0.39972. No points are below 0 or above 3; ends
        are moved outward to what is written."""
        rows = self._rows("-m20", "--by-opponent", "--weight", "dies.r=3", "switch.r", "still.r", "dies.r")
        got = [[row[name] for name in ("switch", "against", "points", "from", "to", "change", "low", "high", "matches", "verdict")] for row in rows]
        still, dies, both = ["1.000", "0.130", "1.870"], ["3.000", "2.130", "3.000"], ["2.500", "1.991", "3.000"]
        same, nothing = ["0.000", "-0.870", "+0.870"], "no difference that these matches could show"
        none = ["0.000"] * 3
        wanted = [
            ["1", "dies.r", *dies, *same, "20", ""], ["1", "still.r", *still, *same, "20", ""], ["1", "all", *both, "0.000", "-0.400", "+0.400", "40", nothing],
            ["5", "dies.r", *dies, *none, "20", ""], ["5", "still.r", *still, *none, "20", ""], ["5", "all", *both, *none, "40", "today's"],
            ["9", "dies.r", *dies, *same, "20", ""], ["9", "still.r", "0.000", "0.000", "0.870", "-1.000", "-1.870", "-0.130", "20", ""],
            ["9", "all", "2.250", "1.741", "2.759", "-0.250", "-0.650", "+0.150", "40", nothing],
        ]
        wrong = [f"{one}, not {other}" for one, other in zip(got, wanted) if one != other] + ([] if len(got) == 9 else [f"{len(got)} rows"])
        made = json.loads(self._run("--sweep", "--json", "-m20", "--weight", "dies.r=3", "switch.r", "still.r", "dies.r").stdout)["sweep"]
        return wrong if [it["points"] for it in made] == [2.5, 2.5, 2.25] else [*wrong, f"{made}"]

    def against_whom(self) -> list[str]:
        """Each form of an answer says it, and a weight if there are several. Of two files with equal bytes there is one, with both weights."""
        shutil.copy(self._folder / "still.r", self._folder / "twin.r")
        words = ("-m2", "--weight", "dies.r=0.5", "switch.r", "twin.r", "still.r", "dies.r")
        names = [f"dies.r (weight 0.5), {name} (weight 2)" for name in ("still.r", "twin.r")]
        picture = self._folder / "whom.svg"
        table = self._run("--sweep", "-o", "whom.svg", *words).stdout
        title, line = (xml.etree.ElementTree.parse(picture).findtext("{*}title"), "against {}\n")
        name = next((it for it in names if line.format(it) in table), "")
        wrong = [] if name and title == f"switch.r: what switch is worth; against {name}" else [table, f"{title}"]
        wrong += [] if f">against {name}</text>" in picture.read_text(encoding="utf-8") else ["the picture shows no opponents"]
        wrong += [] if {row["against"] for row in self._rows(*words)} == {name} else ["comma-separated values"]
        made = json.loads(self._run("--sweep", "--json", *words).stdout)
        wrong += [] if made["against"] == [{"robot": "dies.r", "weight": 0.5}, {"robot": name.split(", ")[1].split()[0], "weight": 2.0}] else [f"{made['against']}"]
        told = self._run("-m2", "--budget", "100", *words[1:]).stdout
        return wrong if f"by 2 fresh matches against each of {name}\n" in told or "came back to today's values" in told else [*wrong, told]

    def what_tuning_says_by_opponent(self) -> list[str]:
        """9 is today's value, and loses to still.r: any below is worth a point more against it. The comma-separated values have the
        numbers as columns, and of both versions the rows that a sweep has; JSON has the same numbers of the tuned one. Intervals are those of
        two matches that weren't seen: of 20 degrees of freedom and a chance of 0.01 / 12 3.9276 * 3 / 20 * the root of 2 = 0.83317, of 40 and
        0.01 2.7045 * 3 / 40 * the root of 2 = 0.28686."""
        words = ("-m20", "--budget", "500", "--by-opponent", "switched.r", "still.r", "dies.r")
        rows = [*csv.DictReader(io.StringIO(self._run("--csv", *words).stdout))]
        got = [[row[name] for name in ("against", "points", "change", "low", "verdict")] for row in rows]
        wanted = [["dies.r", "3.000", "0.000", "0.000", ""], ["still.r", "0.000", "0.000", "0.000", ""], ["all", "1.500", "0.000", "0.000", "today's"],
                  ["dies.r", "3.000", "0.000", "-0.834", ""], ["still.r", "1.000", "+1.000", "+0.166", ""], ["all", "2.000", "+0.500", "+0.213", "better"]]
        wrong = [] if got == wanted else [f"{got}"]
        made = json.loads(self._run("--json", *words).stdout)["by_opponent"]
        told = [(it["robot"], it["points"], it["change"], it["low"]) for it in made]
        wrong += [] if told == [("dies.r", 3, 0, -0.834), ("still.r", 1, 1, 0.166)] else [f"{made}"]
        lines = self._run(*words).stdout.splitlines()
        is_told = lines[9].startswith("(switch: ") and "99 % interval +0.213 to +0.787," in lines[10] and lines[11] == "surely better"
        return wrong if [line.split()[1:3] for line in lines[3:9]] == [row[:2] for row in wanted] and is_told else [*wrong, f"{lines}"]

    def pictures_are_drawings(self) -> list[str]:
        """Well-formed; a dot for each value with its row, and for two numbers a field for each pair. Axes have titles, and what is drawn has a
        legend: a dot of each kind beside those of the values."""
        wrong = []
        self._run("--sweep", "-m4", "-o", "curve.svg", "draws.r", "still.r")
        self._run("--sweep", "-m2", "-o", "map.svg", "two.r", "still.r")
        band = ["change", "where all changes are at once, in 99 of 100 sweeps", "today's 400"]
        names = {"curve.svg": ["value of lost", "points a match, more than with today's 400", *band],
                 "map.svg": ["value of one", "value of two", "points a match more than with today's (100, 900), which is framed: blue is more, red is less"]}
        for name, shape, count, signs in (("curve.svg", "circle", 11, 2), ("map.svg", "rect", 49, 0)):
            drawn = xml.etree.ElementTree.parse(self._folder / name)
            titles = [it.findtext("{*}title") or "" for it in drawn.iterfind(f".//{{*}}{shape}")]
            wrong += [] if titles.count("") == signs and len(titles) == count + signs else [f"{name}: {titles}"]
            wrong += [] if len({title.split(":")[0] for title in titles if title}) == count else [f"{name}: {titles}"]
            wrong += [] if sum("today's" in title for title in titles) == 1 else [f"{name}: {titles}"]
            texts = [it.text for it in drawn.iterfind("{*}text")]
            wrong += [f"{name}: '{it}' isn't in it" for it in names[name] if texts.count(it) != 1]
        return wrong

    def tuning_finds_what_is_better(self) -> list[str]:
        """The numbers are 500 and 700 from the best ones, so it loses in 60 of 100 and could lose in none."""
        (self._folder / "tuned.r").unlink(missing_ok=True)
        ran = self._run("-m200", "--budget", "30000", "--json", "-o", "tuned.r", "two.r", "still.r", "other.r")
        if ran.returncode or ran.stderr != SAID:
            return [f"{ran!r:.500}"]
        made = json.loads(ran.stdout)
        one, two = (it["tuned"] for it in made["numbers"])
        wrong = [] if abs(one - 600) + abs(two - 200) < 150 and made["better"] and made["change"] > 0.5 else [ran.stdout]
        return wrong if (self._folder / "tuned.r").read_text(encoding="utf-8") == TWO % (one, two) else [*wrong, "other bytes"]

    def a_file_that_is_there(self) -> list[str]:
        """What is written in its place has its mode; a new one can be read by all. A link stays, and what it leads to is written."""
        kept = self._folder / "kept.r"
        kept.write_text("old", encoding="ascii")
        kept.chmod(0o750)
        (self._folder / "link.r").symlink_to("kept.r")
        wrong = []
        for name, mode in (("kept.r", 0o750), ("link.r", 0o750), ("fresh.r", 0o644)):
            self._run("-m20", "--budget", "500", "-o", name, "switched.r", "still.r")
            path = self._folder / name
            right = path.stat().st_mode & 0o777 == mode and b"/* tune 1..9" in path.read_bytes() and path.is_symlink() == (name == "link.r")
            wrong += [] if right else [f"{name}: {path.stat().st_mode:o} {path.read_bytes()!r}"]
        return wrong

    def how_many_matches_a_trial_has(self) -> list[str]:
        """Those of --round, half of them in each seat: most series are those of the evolution."""
        wrong = []
        for matches in (12, 18):
            self._run("-j1", "-m2", "--budget", "4000", "--round", str(matches), "--journal", f"round{matches}", "two.r", "still.r")
            counts = re.findall(r" count=(\d+) ", (self._folder / f"round{matches}").read_text(encoding="ascii"))
            wrong += [] if statistics.mode(counts) == str(matches // 2) else [f"{matches}: {counts[-20:]}"]
        return wrong

    def nothing_is_better_of_what_is_best(self) -> list[str]:
        """Neither a robot at its best, nor one whose number does nothing: no file is written."""
        wrong = []
        for name in ("best.r", "unused.r"):
            ran = self._run("-m60", "--budget", "4000", "-o", "no.r", name, "still.r")
            wrong += [] if "nothing is surely better\n" in ran.stdout and ran.stdout.endswith("no.r isn't written\n") else [f"{ran!r:.500}"]
        return [*wrong, "no.r is written"] if (self._folder / "no.r").exists() else wrong

    def killed_and_resumed(self) -> list[str]:
        """At thirty moments, five of each journal: a search ends as one that wasn't stopped. So does a sweep, also until sure."""
        wrong, rest = [], random.Random(3)
        for words in (("-m40", "--budget", "3000", "two.r", "still.r"), ("--sweep", "-m100", "draws.r", "still.r", "other.r"),
                      ("--sweep", "--until", "sure", "-m100", "draws.r", "still.r", "other.r")):
            begun = time.monotonic()
            wanted = self._run(*words).stdout
            taken = time.monotonic() - begun
            for number in range(2):
                journal = f"killed{number}{len(words)}"
                for _ in range(5):
                    self._killed(rest.uniform(0.1, taken / 2), *words, "--journal", journal)
                ran = self._run(*words, "--journal", journal)
                wrong += [] if ran.stdout == wanted else [f"{words} {number}: {ran!r:.500}, not {wanted:.300}"]
        return wrong

    def _killed(self, after: float, *words: str) -> None:
        """Runs the script, and kills it and all that it started after some seconds."""
        with subprocess.Popen(self._words(*words), cwd=self._folder, start_new_session=True, stdout=subprocess.PIPE,
                              stderr=subprocess.DEVNULL) as child:
            time.sleep(after)
            os.killpg(child.pid, signal.SIGKILL)

    def a_plan_is_played_elsewhere(self) -> list[str]:
        """Its lines write records, by sh, xargs and parallel; with these as a journal the sweep plays nothing, and says the same."""
        words, wrong = ("--sweep", "-m20", "draws.r", "still.r", "other.r"), list[str]()
        plan = self._run(*words, "--plan", "variants").stdout
        (self._folder / "plan").write_text(plan, encoding="utf-8")
        wanted = self._run(*words).stdout
        ways = {"sh plan", "xargs -P 4 -d '\\n' -n 1 sh -c < plan", "parallel -j 4 < plan"}
        if why := lacking(["parallel"]):
            skip("sweeps by parallel", why)
            ways.remove("parallel -j 4 < plan")
        for way in ways:
            played = self._sh(f"{way} > played").stderr or (self._folder / "played").read_text(encoding="ascii")
            got = self._run(*words, "--journal", "played").stdout
            wrong += [] if (self._folder / "played").read_text(encoding="ascii") == played else [f"{way}: something was played again, {played:.300}"]
            wrong += [] if got == wanted else [f"{way}: {got}"]
        return wrong if plan.count("\n") >= 44 else [*wrong, plan[:500]]

    def opponents_of_all_kinds(self) -> list[str]:
        """A folder, weights, a league. Against b.r, which shoots itself too, draws.r ties or wins."""
        league = [str(TOP / "scripts" / "league")]
        for words in (["init", "league", "-l400", "--crobots", self._crobots], ["add", "league", "field/a.r", "field/b.r", "--crobots", self._crobots],
                      ["play", "league", "--quiet", "--crobots", self._crobots]):
            subprocess.run([*league, *words], cwd=self._folder, check=True, capture_output=True)
        rows = {words: self._rows("-m20", *words)[0]["points"] for words in (
            ("draws.r", "field"), ("draws.r", "field/a.r", "field/b.r"), ("draws.r", "--league", "league"), ("draws.r", "--league", "league=1"),
            ("draws.r", "field/a.r"), ("draws.r", "field", "--weight", "field/b.r=0"), ("draws.r", "field", "--weight", "field=2"))}
        both, alone = rows["draws.r", "field"], rows["draws.r", "field/a.r"]
        wanted = [both, both, both, alone, alone, alone, both]
        return [] if [*rows.values()] == wanted and both != alone else [f"{rows}"]

    def samples_of_a_level(self) -> list[str]:
        """Those that the table of the ladder has there, each with the level's weight, unless it has one of its own."""
        def whom(*words: str) -> dict[str, float]:
            return {it["robot"]: it["weight"] for it in json.loads(self._run("--sweep", "--json", "-m2", *words).stdout)["against"]}
        got = [whom("--level", "5", "draws.r"), whom("--level", "4=0.5", "--level", "5=3", "draws.r", "still.r"),
               whom("--level", "4", "--weight", f"{TOP / 'robots' / 'boxer.r'}=2", "draws.r")]
        wanted: list[dict[str, float]] = [{"jouster.r": 1.0}, {"boxer.r": 0.5, "shuttle.r": 0.5, "jouster.r": 3.0, "still.r": 1.0},
                                          {"boxer.r": 2.0, "shuttle.r": 1.0}]
        wrong = [f"{one}, not {other}" for one, other in zip(got, wanted) if one != other]
        wrong += self._refused("tune: no sample is of level 6; there are 1, 2, 3, 4, 5\n", "--level", "6", "draws.r")
        return wrong + self._refused("tune: argument --level: '4=' isn't N or N=WEIGHT\n", "--level", "4=", "draws.r")

    def a_judgement_is_what_challenge_says(self) -> list[str]:
        """Of the robot that was written, with the same words: another program of this repository plays the same fresh matches."""
        words = ("-m60", "-s9", "two.r", "still.r", "other.r")
        made = json.loads(self._run("--json", "--budget", "6000", "-o", "made.r", *words).stdout)
        told = subprocess.run([TOP / "scripts" / "challenge", "--json", "--crobots", self._crobots, "-m60", "-s9", *WORDS, "made.r", "--old", "two.r",
                               "still.r", "other.r"], cwd=self._folder, capture_output=True, text=True, check=True).stdout
        both = json.loads(told)["all"]
        right = [round(made[name], 9) for name in ("points", "before", "change")] == [round(both[name], 9) for name in ("new", "old", "change")]
        return [] if right and made["better"] else [f"{made}, not {both}"]

    def a_judgement_has_a_part_of_the_budget(self) -> list[str]:
        """A tenth of 12,000 matches is 600 for each of both versions, and 300 against each of two robots; of 600 it's 15, so there are 100.
        What is given is kept."""
        wrong = []
        for words, matches in ((("--budget", "12000"), 300), (("--budget", "600"), 100), (("--budget", "12000", "-m50"), 50)):
            told = self._run(*words, "two.r", "still.r", "other.r").stdout
            wrong += [] if f"by {matches} fresh matches against each of other.r, still.r\n" in told else [told]
        return wrong

    def its_own_versions(self) -> list[str]:
        """They join the opponents of the search alone: the judgement is against the others. If it meets nobody that the search hasn't met,
        whatever the files are called, it says so. The robot itself is never met."""
        ran = self._run("-m20", "--budget", "3000", "--against-itself", "two.r", "still.r")
        judged = self._run("-m20", "--budget", "3000", "--judge", "other.r", "--judge", "field", "two.r", "still.r")
        right = ran.stderr == "" and "fresh matches against each of still.r\n" in ran.stdout and judged.stderr == "" and "against each of a.r, b.r, other.r\n" in judged.stdout
        wrong = [] if right else [f"{ran!r:.400} {judged!r:.400}"]
        shutil.copy(self._folder / "still.r", self._folder / "same.r")
        for words, said in ((("--judge", "same.r"), SAID), (("--judge", "same.r", "--judge", "other.r"), ""), (("--judge", "same.r", "--judge", "two.r"), itself("two.r", "two.r") + SAID)):
            told = self._run("-m2", "--budget", "100", *words, "two.r", "still.r").stderr
            wrong += [] if told == said else [f"{words}: {told}"]
        return wrong + self._refused(f"{itself('two.r', 'two.r')}tune: {NOBODY}\n", "--judge", "two.r", "two.r", "still.r")

    def the_robot_itself(self) -> list[str]:
        """It is never met: neither as a file of the same bytes, nor in a folder as a copy with other numbers, whether these are marked or given,
        or without marks. A line says so. Such a copy that is named is met, which a line says, and so is one in a folder that differs elsewhere."""
        folder = self._folder / "mixed"
        folder.mkdir()
        for name, text in (("same.r", DRAWS), ("old.r", DRAWS.replace("400 /*", "77 /*")), ("bare.r", BARE), ("other.r", DRAWS.replace("1000)", "999)")), ("still.r", STILL)):
            (folder / name).write_text(text, encoding="utf-8")
        (self._folder / "older.r").write_text(DRAWS.replace("400 /*", "399 /*"), encoding="utf-8")
        (self._folder / "unmarked.r").write_text(BARE, encoding="utf-8")
        wrong, both = [], [f"{it['robot']}: {it['weight']:g}" for it in ({"robot": "other.r", "weight": 1}, {"robot": "still.r", "weight": 1})]
        cases = [
            (("draws.r", "mixed"), itself("draws.r", "mixed/bare.r", "mixed/old.r", "mixed/same.r"), both),
            (("draws.r", "draws.r", "still.r"), itself("draws.r", "draws.r"), both[1:]),
            (("draws.r", "older.r", "still.r"), named("draws.r", "older.r"), ["older.r: 1", "still.r: 1"]),
            (("draws.r", "older.r", "unmarked.r", "still.r"), named("draws.r", "older.r", "unmarked.r"), ["older.r: 1", "still.r: 1", "unmarked.r: 1"]),
            (("--number", "1:25=0..1000/500", "unmarked.r", "mixed"), itself("unmarked.r", "mixed/bare.r", "mixed/old.r", "mixed/same.r"), both),
        ]
        for words, said, met in cases:
            ran = self._run("--sweep", "--json", "-m2", *words)
            got = [f"{it['robot']}: {it['weight']:g}" for it in json.loads(ran.stdout or '{"against": []}')["against"]]
            wrong += [] if (got, ran.stderr) == (met, said) else [f"{words}: {got}, {ran.stderr}"]
        return wrong

    def a_sample_that_is_marked(self) -> list[str]:
        """The one without marks isn't among those of its level."""
        sample = (TOP / "robots" / "boxer.r").read_text(encoding="utf-8")
        at = re.search(r"[0-9]+(?=\))", sample)
        assert at
        (self._folder / "boxed.r").write_text(f"{sample[:at.end()]} /* tune {at[0]}..{int(at[0]) + 1} */{sample[at.end():]}", encoding="utf-8")
        ran = self._run("--sweep", "--json", "-m2", "--level", "4", "boxed.r")
        met = [it["robot"] for it in json.loads(ran.stdout or '{"against": []}')["against"]]
        return [] if met == ["shuttle.r"] and "boxer.r (boxed.r itself, or a copy" in ran.stderr else [f"{ran!r:.500}"]

    def a_robot_that_is_edited_meanwhile(self) -> list[str]:
        """What is played, and written, is what was read first: here the first match edits the robot."""
        shutil.copy(self._folder / "two.r", self._folder / "edited.r")
        edits = self._folder / "edits"
        edits.write_text(f"""#!/bin/sh\ncase $1 in -c) ;; *) echo "main(){{}}" > edited.r;; esac\nexec {self._crobots} "$@"\n""", encoding="ascii")
        edits.chmod(0o755)
        ran = self._run("--crobots", str(edits), "-m60", "--budget", "12000", "-o", "edited.out.r", "edited.r", "still.r")
        if not ran.stdout.endswith("edited.out.r is written\n") or (self._folder / "edited.r").read_text(encoding="ascii") != "main(){}\n":
            return [f"{ran!r:.500}"]
        written = (self._folder / "edited.out.r").read_text(encoding="utf-8")
        return [] if re.sub(r"\d+ /\*", "N /*", written) == TWO % ("N", "N") else [written]

    def wrong_words(self) -> list[str]:
        wrong = self._refused(f"tune: {NOBODY}\n", "draws.r")
        wrong += self._refused(f"{itself('draws.r', 'draws.r')}tune: {NOBODY}\n", "draws.r", "draws.r")
        wrong += self._refused("tune: plain.r has no marked number; a mark is a comment as /* tune 100..900 */ behind it, or --number gives one by its place: 1:19 is 7\n",
                               "--sweep", "plain.r", "still.r")
        wrong += self._refused("tune: plain.r:1:1: no number stands there; on that line 1:19 is 7\n", "--sweep", "--number", "1:1=0..9", "plain.r", "still.r")
        wrong += self._refused("tune: two.r has no number x; it has one, two\n", "--only", "x", "two.r", "still.r")
        wrong += self._refused("tune: --until goes with --sweep\n", "--until", "sure", "two.r", "still.r")
        wrong += self._refused("tune: --budget goes without --sweep\n", "--sweep", "--budget", "9", "two.r", "still.r")
        wrong += self._refused("tune: --weight names gone.r, which isn't played against\n", "--weight", "gone.r=2", "two.r", "still.r")
        (self._folder / "field/c").mkdir()
        wrong += self._refused("tune: field/c has no robots, whose names end with '.r'\n", "two.r", "field/c")
        wrong += self._refused("bad.r:2: reserved word\n", "--sweep", "draws.r", "bad.r", status=1)
        (self._folder / "spoiled").mkdir()
        shutil.copy(self._folder / "bad.r", self._folder / "spoiled")
        for words in (("draws.r", "still.r", "spoiled"), ("draws.r", "still.r", "./spoiled/bad.r"), ("spoiled/bad.r", "still.r")):
            wrong += self._refused(f"{'./' * ('./' in words[-1])}spoiled/bad.r:2: reserved word\n", "--sweep", *words, status=1)
        wrong += self._refused("tune: cannot read gone.r: No such file or directory\n", "--sweep", "gone.r", "still.r", status=3)
        wrong += self._refused("tune: argument --number: 'x' isn't LINE:COLUMN=LOW..HIGH, which /STEP and ,NAME may follow\n", "--number", "x", "a", "b")
        return wrong + self._refused("tune: argument --number: --number 1:1: '9' is no range as 100..900\n", "--number", "1:1=9", "a", "b")

    def outputs_that_can_t_be_written(self) -> list[str]:
        """What a full disk leaves unwritten is told all the same, on standard output."""
        said, wrong = "tune: cannot write /dev/full: No space left on device\n", list[str]()
        for words in (("--sweep", "-m2", "draws.r", "still.r"), ("--sweep", "--json", "-m2", "draws.r", "still.r"), ("-m20", "--budget", "500", "switched.r", "still.r"),
                      ("-m20", "--json", "--budget", "500", "switched.r", "still.r")):
            told, ran = self._run(*words), self._run("-o", "/dev/full", *words)
            wanted = told.stdout.removesuffix("with -o FILE the robot is written with these numbers\n")
            wrong += [] if (ran.stdout, ran.stderr, ran.returncode) == (wanted, told.stderr + said, 3) and wanted else [f"{words}: {ran!r:.500}"]
        play = shlex.join(self._words("--sweep", "-m2", "-o", "kept.svg", "draws.r", "still.r"))
        ran = self._sh(f"{play} > /dev/full")
        right = (ran.stderr, ran.returncode) == ("tune: cannot write: No space left on device\n", 3) and (self._folder / "kept.svg").exists()
        return wrong if right else [*wrong, f"{ran!r:.500}"]

    def outputs_that_are_refused_before_anything_is_played(self) -> list[str]:
        """By a program that isn't there nothing can be played, so what is refused is refused before."""
        (self._folder / "notes").write_text("notes", encoding="ascii")
        gone, folder, in_file = "No such file or directory", "Is a directory", "Not a directory"
        wrong, robots = list[str](), ("draws.r", "still.r")
        for path, why in (("gone/s.svg", gone), ("field", folder), ("notes/s.svg", in_file), ("/proc/s.svg", gone)):
            wrong += self._refused(f"tune: cannot write {path}: {why}\n", "--sweep", "--crobots", "none", "-o", path, *robots, status=3)
        for path, why in (("gone/s.r", gone), ("field", folder), ("notes/s.r", in_file)):
            wrong += self._refused(f"tune: cannot write {path}: {why}\n", "--crobots", "none", "-o", path, *robots, status=3)
        for words in (("--sweep",), ()):
            wrong += self._refused(f"tune: cannot write gone/j: {gone}\n", *words, "-m2", "--journal", "gone/j", *robots, status=3)
        return wrong

    def outputs_that_are_something_else(self) -> list[str]:
        """A robot isn't replaced by a picture, nor a picture by a robot, nor any other file by one of these. What is empty, or one of its own
        kind, is."""
        sweep, robots = ("--sweep", "-m2"), ("draws.r", "still.r")
        (self._folder / "own.svg").write_text("<?xml version='1.0'?>\n<svg/>", encoding="ascii")
        for name, text in (("words.svg", "words"), ("page.html", "<html></html>"), ("words", "words"), ("kept", ""), ("empty.svg", "")):
            (self._folder / name).write_text(text, encoding="ascii")
        wrong = list[str]()
        for path, why in (("new.r", "with --sweep a picture is written, as SVG, and this is the name of a robot"), ("words.svg", "this file is no SVG, so the picture isn't written over it"),
                          ("page.html", "this file is no SVG, so the picture isn't written over it"), ("still.r", "this file is read, so it is not written")):
            wrong += self._refused(f"tune: -o {path}: {why}\n", *sweep, "-o", path, *robots)
        for path, why in (("new.svg", "without --sweep a robot is written, and this is the name of a picture"),
                          ("words", "this file's name doesn't end with '.r', so the robot isn't written over it")):
            wrong += self._refused(f"tune: -o {path}: {why}\n", "-o", path, *robots)
        for path in ("own.svg", "empty.svg", "kept"):
            ran = self._run(*sweep, "-o", path, *robots)
            wrong += [] if (ran.stderr, ran.returncode) == ("", 0) and b"<svg" in (self._folder / path).read_bytes()[:200] else [f"{path}: {ran!r:.400}"]
        wrong += self._refused("tune: -o ./both: this file is the journal\n", *sweep, "--journal", "both", "-o", "./both", *robots)
        texts = [(self._folder / name).read_text(encoding="ascii") for name in ("words", "words.svg", "page.html", "still.r")]
        return wrong if texts == ["words", "words", "<html></html>", STILL] else [*wrong, f"{texts}"]

    def matches_that_the_limit_ended(self) -> list[str]:
        """A line says how many they were, if they are more than a half: of two values one loses all its matches, and of three one does."""
        wrong, said = [], "{} of {} matches were tied: with a limit above 400 cycles (-l) they may say more\n"
        (self._folder / "half.r").write_text(DRAWS.replace("400 /* tune 0..1000 step 100", "0 /* tune 0..1000 step 1000"), encoding="utf-8")
        (self._folder / "third.r").write_text(SWITCH, encoding="utf-8")
        for words, line in ((("--sweep", "half.r", "still.r"), ""), (("--sweep", "third.r", "still.r"), said.format(40, 60)),
                            (("--budget", "500", "switched.r", "still.r", "dies.r"), "")):
            told = self._run("-m20", *words).stdout
            wrong += [] if (line in told if line else "the limit of" not in told) else [f"{words}: {told}"]
        return wrong

    def standard_output_that_can_t_be_written(self) -> list[str]:
        """Closed, it is refused before anything is played; full, a line says so; a pipe that nobody reads ends it as others."""
        full, wrong = "tune: cannot write: No space left on device\n", list[str]()
        for words in (("--sweep", "-m2"), ("--sweep", "-m2", "--json"), ("--sweep", "-m2", "--plan", "planned"), ("-m2", "--budget", "40", "--judge", "other.r")):
            play = shlex.join([*self._words(*words, "draws.r", "still.r")])
            for command, faults in ((f"{play} >&-", "tune: cannot write: standard output is closed\n"), (f"{play} > /dev/full", full)):
                ran = self._sh(command)
                wrong += [] if (ran.stdout, ran.stderr, ran.returncode) == ("", faults, 3) else [f"{command}: {ran!r:.500}"]
            reading, writing = os.pipe()
            os.close(reading)
            ran = self._run(*words, "draws.r", "still.r", capture_output=False, stdout=writing, stderr=subprocess.PIPE)
            os.close(writing)
            wrong += [] if (ran.stderr, ran.returncode) == ("", -signal.SIGPIPE) else [f"{words}: {ran!r:.500}"]
        return wrong

    def what_is_told_ends_nothing(self) -> list[str]:
        """Standard error closed, full, or a pipe that nobody reads; nothing that is said gets into the journal."""
        wrong = []
        for words in (("--sweep", "-m6"), ("-m6", "--budget", "200")):
            wanted = self._run(*words, "draws.r", "still.r").stdout
            loud = shlex.join([it for it in self._words(*words, "--journal", "told", "draws.r", "still.r") if it != "--quiet"])
            for way in ("2>&-", "2> /dev/full", "2> >(exec 0<&-; sleep 1)", "2>&- <&-"):
                (self._folder / "told").unlink(missing_ok=True)
                ran = self._sh(f"{loud} {way}; echo status $?")
                kept = (self._folder / "told").read_text(encoding="ascii").splitlines()
                right = ran.stdout == f"{wanted}status 0\n" and kept and all(line.startswith("series 2 ") for line in kept)
                wrong += [] if right else [f"{words} {way}: {ran!r:.500}"]
        return wrong

    def a_journal_on_a_full_disk(self) -> list[str]:
        """One line says why it ended; what is in the journal is whole, and from there it goes on to the same answer."""
        wrong = []
        limit = lambda: resource.setrlimit(resource.RLIMIT_FSIZE, (9000, 9000))  # noqa: E731
        for number, words in enumerate((("--sweep", "-m20", "draws.r", "still.r", "other.r"), ("-m20", "--budget", "600", "two.r", "still.r"))):
            journal = self._folder / f"full{number}"
            ran = self._run(*words, "--journal", journal.name, preexec_fn=limit)
            kept = journal.read_text(encoding="ascii")
            right = (ran.stdout, ran.stderr.removeprefix(SAID), ran.returncode) == ("", f"tune: cannot write {journal.name}: File too large\n", 3)
            wrong += [] if right and kept.endswith("\n") and 5 < kept.count("\n") else [f"{words}: {ran!r:.400}, {len(kept)} bytes"]
            wrong += self._gone_on(journal, kept, (*words, "--journal", journal.name), words)
        return wrong

    def a_signal_that_stops_it(self) -> list[str]:
        """It says how far it was, and which command goes on from there. That one gives the answer that there is without a stop, and plays nothing
        again. Here the eighth series sends the signal."""
        wrong, stops = [], self._folder / "stops"
        stops.write_text(f"""#!/bin/sh\ncase $1 in -c) ;; *) echo >> calls; [ $(wc -l < calls) -ne 8 ] || kill -INT $PPID;; esac\nexec {self._crobots} "$@"\n""",
                         encoding="ascii")
        stops.chmod(0o755)
        for words in (("-m20", "--budget", "600", "--round", "20", "two.r", "still.r"), ("--sweep", "-m20", "draws.r", "still.r")):
            (self._folder / "calls").unlink(missing_ok=True)
            journal = self._folder / f"stopped {len(words)}"
            resumed = ("--crobots", str(stops), "-j1", *words, "--journal", journal.name)
            ran = self._run(*resumed)
            kept = journal.read_text(encoding="ascii")
            said = re.fullmatch(rf"tune: stopped after (\d+) of (?:at most )?(\d+) matches; {journal.name} has what was played, and this goes on from there: (.*)\n",
                                ran.stderr.removeprefix(SAID))
            played = sum(map(int, re.findall(r" count=(\d+) ", kept)))
            is_right = said and (int(said[1]), said[3]) == (played, shlex.join(self._words(*resumed))) and int(said[2]) == (640 if words[0] == "-m20" else 220)
            wrong += [] if (ran.stdout, ran.returncode, kept.count("\n")) == ("", 130, 7) and is_right else [f"{words}: {ran!r:.600}"]
            wrong += self._gone_on(journal, kept, resumed, words) if not said or self._sh(said[3]).stdout == self._run(*words).stdout else ["the command that is said"]
            (self._folder / "calls").unlink()
            ran = self._run("--crobots", str(stops), "-j1", *words)
            wrong += [] if "; nothing of it is kept; with --journal FILE the same command goes on where it was stopped\n" in ran.stderr else [f"{ran!r:.600}"]
        return wrong

    def what_a_journal_is_for(self) -> list[str]:
        """It says so before anything is played, as a kill leaves no time to say so, and when it goes on. Quiet, it says nothing."""
        words = [it for it in self._words("--sweep", "-m2", "--journal", "for", "draws.r", "still.r") if it != "--quiet"]
        told = [subprocess.run(words, cwd=self._folder, capture_output=True, text=True, check=True).stderr for _ in range(2)]
        wanted = ["tune: for keeps what is played: if this is stopped or killed, the same command goes on from there\n",
                  "tune: for has what was played before, and this goes on from there\n"]
        quiet = self._run("--sweep", "-m2", "--journal", "for", "draws.r", "still.r").stderr
        return [] if told == wanted and quiet == "" else [f"{told} {quiet}"]

    def a_number_that_has_a_name_on_the_command_line(self) -> list[str]:
        """It is used in the table, the picture and the journal. Without one the place stands there."""
        (self._folder / "bare.r").write_text(BARE, encoding="utf-8")
        wrong = []
        for word, name in (("1:25=0..1000/500,lost", "lost"), ("1:25=0..1000/500", "1:25")):
            (self._folder / "names").unlink(missing_ok=True)
            table = self._run("--sweep", "-m2", "--number", word, "--journal", "names", "-o", "names.svg", "bare.r", "still.r").stdout
            journal, picture = ((self._folder / it).read_text(encoding="utf-8") for it in ("names", "names.svg"))
            is_there = table.startswith(f"{name}  points a match") or table.startswith(f"{name}  points")
            files = {*re.findall(r"files=(?:still\.r,)?bare\.r(\S+?)(?:,still\.r)? ", journal)}
            wrong += [] if is_there and f">value of {name}</text>" in picture else [table]
            wrong += [] if files == {quote(f"[{name}={value}]") for value in (0, 400, 500, 1000)} else [f"{files}"]
        return wrong

    def _gone_on(self, journal: Path, kept: str, resumed: Sequence[str], words: Sequence[str]) -> list[str]:
        """Whether a journal that has this leads to the answer that there is without one, and no match is played twice."""
        wrong = [] if self._run(*resumed).stdout == self._run(*words).stdout else [f"{words}: another answer"]
        grown = journal.read_text(encoding="ascii")
        heads = re.findall(r" seed=(\d+) first=(\d+) count=(\d+) sha256=(\S+) ", grown)
        counts = Counter((seed, robots, int(first) + at) for seed, first, count, robots in heads for at in range(int(count)))
        is_whole = grown.startswith(kept) and len(heads) == grown.count("\n") > kept.count("\n")
        return wrong + ([] if is_whole and max(counts.values()) == 1 else [f"{words}: {counts.most_common(2)}, or the journal is another"])

    def _sh(self, command: str) -> Ran:
        """What a command of a shell comes to."""
        return subprocess.run(["bash", "-c", command], cwd=self._folder, stdin=subprocess.DEVNULL, capture_output=True, text=True, check=False, timeout=PATIENCE)

    def a_curve_as_it_is_seen(self) -> list[str]:
        """In a browser no text of a picture is beyond its edges, and none overlaps another one: also by great numbers and long names, and in a map."""
        if why := lacking(["chromium"]):
            skip("a curve in a browser", why)
            return []
        from browsers import tries
        long = f"name {'n' * 31}"
        (self._folder / "long.r").write_text(DRAWS.replace("400 /* tune 0..1000 step 100 name lost */", f"400 /* tune 0..2147483647 {long} */"), encoding="utf-8")
        (self._folder / "map.r").write_text((TWO % (600, 2147483647)).replace("0..1000 name two", f"0..2147483647 {long}"), encoding="utf-8")
        cases = (("-m4", "draws.r", "still.r"), ("-m320", "--until", "sure", "draws.r", "still.r"), ("-m20", "--until", "sure", "long.r", "still.r", "other.r"),
                 ("-m2", "two.r", "still.r"), ("-m80", "--until", "sure", "map.r", "still.r"), ("-m80", "switch.r", "still.r"))
        wrong = []
        with tries() as browsers:
            for words in cases:
                self._run("--sweep", "-o", "seen.svg", *words)
                wrong += [f"{words}: {why}" for why in browsers.wrong(f"tune: {words}", lambda browser: overlaps(browser, self._folder / "seen.svg"))]
        return wrong
