"""Cutting, plans, merging, and records that are refused."""

from __future__ import annotations

import hashlib
import itertools
import os
import random
import re
import shutil
import subprocess
from collections import Counter
from urllib.parse import quote

from harness import skip
from packages import lacking
from tournaments import merging, plans, records
from tournaments.robots import Robot
from tournaments.settings import Settings

from .base import COUNTER, FORMS, ROBOTS, TABLE, Base, read, write


class Merges(Base):
    def however_it_is_cut_each_form_is_the_same(self) -> list[str]:
        among = [os.path.join(ROBOTS, name) for name in ("sweeper.r", "runner.r", "hunter.r")]
        wrong = []
        for form in FORMS:
            ways = [["-j1"], ["-j4", "--piece", "1"], ["-j2", "--piece", "5"]]
            tables = {self._run("-m6", "-l20000", "-s7", *form, *way, *among).stdout for way in ways}
            if len(tables) != 1 or "hunter.r" not in tables.pop():
                wrong.append(f"{form}: {len(tables)} tables")
        return wrong

    def a_plan_under_xargs_and_parallel(self) -> list[str]:
        """In every form what is merged is what is played at once; eight lines at a time write into one pipe."""
        words = ("-m6", "-l20000", "-s7", "--size", "3", *self._forty[:6])
        self._plan("threes", "--piece", "1", *words)
        wrong = [] if read(self._at("threes")).count("\n") == 20 * 6 else ["the plan"]
        self._sh("xargs -P 8 -d '\\n' -n 1 sh -c < threes > by_xargs")
        if shutil.which("parallel"):
            self._sh("parallel -j 8 < threes > by_parallel")
        else:
            skip("plans by parallel", lacking(["parallel"]))
            shutil.copy(self._at("by_xargs"), self._at("by_parallel"))
        for form in FORMS:
            alone = self._run(*form, *words).stdout
            for by in ("by_xargs", "by_parallel"):
                wrong += self._answers(self._run("--merge", *form, by), alone)
        return wrong

    def each_line_of_a_plan_is_one_write(self) -> list[str]:
        """A plan's series are cut so that a record fits into one write, and records of that length don't mix."""
        among = [self._at(f"{'d' * 100}{at}/{'e' * 200}.r") for at in range(3)]
        for path in among:
            write(path, COUNTER)
        self._plan("long", "-m500", "-l15", "--piece", "500", *among)
        ran = self._sh("xargs -P 8 -d '\\n' -n 1 sh -c < long | tee records | tournament --merge --csv")
        longest = max(map(len, read(self._at("records")).splitlines(True)))
        right = ran.returncode == 0 and 2500 < longest <= 4096 and ran.stdout.count(",1000,0,1000,0,1.000,") == 3
        return [] if right else [f"{longest} {ran}"]

    def the_longest_records_are_one_write(self) -> list[str]:
        """Of drawn settings and names: with as many matches as a plan's series has, a record of the longest names and numbers, whose matches
        all go on to the limit and in which all die, has at most 4,096 bytes; with one match more it has so many, or more."""
        draw, wrong = random.Random(41), []
        for _ in range(400):
            sizes = tuple(sorted(draw.sample((2, 3, 4), draw.randint(1, 3))))
            it = Settings(draw.choice((1, 6, 1_000_000)), draw.choice((1, 9, 10, 500_000, 10**9)), draw.choice((0, 2**64 - 1)), 1, "f" * 64, draw.randint(4, 30), sizes)
            robots = [Robot("/".join(draw.choice(("a", "\u00e4 ", "x" * 40)) for _ in range(draw.randint(1, 5))), f"{at:064x}") for at in range(it.robots)]
            most = plans.one_write(it, robots)
            among = sorted(robots, key=lambda robot: -len(quote(robot.path)))[:sizes[-1]]
            series = records.Series((*range(it.robots - len(among), it.robots),), 2**64 - 1, it.matches, it.matches)
            result = f"{it.cycles}{':100' * len(among)}"
            longest = [len(records.Record(it, series, (*among,), ",".join([result] * matches)).line()) for matches in (most, most + 1)]
            wrong += [] if longest[0] <= 4096 <= longest[1] else [f"{it}: {longest}"]
        return wrong[:5]

    def _pieces(self) -> None:
        """Plays a tournament of three robots in six pieces, out.1 to out.6 as a Slurm array would."""
        self._plan("plan", "-m10", "-l100", "--piece", "5", "a.r", "b.r", "c.r")
        self._sh("n=0; while read -r line; do n=$((n + 1)); sh -c \"$line\" > out.$n; done < plan")

    def _who(self, line: int) -> str:
        """The robots of a line of the plan, in the order of their seats."""
        files = re.search(r" files=([^']*)'", read(self._at("plan")).splitlines()[line - 1])
        return files[1].replace(",", ", ") if files else ""

    def wrong_sets(self) -> list[str]:
        self._pieces()
        for name, word in {"other": "-s2", "limit": "-l99", "profile": "-p2"}.items():
            self._plan(name, "-m10", *([] if name == "limit" else ["-l100"]), word, "--piece", "5", "a.r", "b.r", "c.r")
        self._program_of("another", f'exec {self._program} "$@"')
        self._plan("program", "-m10", "-l100", "--crobots", "./another", "--piece", "5", "a.r", "b.r", "c.r")
        self._sh("for it in other limit profile program; do sed -n 6p $it | sh > out.$it; done; head -c -1 out.6 > out.cut")
        hashes = [hashlib.sha256(open(it, "rb").read()).hexdigest()[:16] for it in (self._program, self._at("another"))]
        one, two, four, five = (self._who(line) for line in (1, 2, 4, 5))
        other = "line 1 of out.{} is of another tournament: {}"
        cases = {
            "out.[246]": (f"15 matches are missing, the first is match 1 of {one}", "lines 1, 3, 5 of plan are missing"),
            "out.[13456] out.1": (
                f"5 matches are missing, the first is match 1 of {two}; 5 matches are there twice or more, the first is match 1 of {one}",
                "line 2 of plan is missing; line 1 of plan is there twice or more"),
            "out.[1-6] out.4": (f"5 matches are there twice or more, the first is match 1 of {four}", "line 4 of plan is there twice or more"),
            "out.[1-4]": (f"10 matches are missing, the first is match 1 of {five}", "lines 5-6 of plan are missing"),
            "out.[1-5] out.other": (other.format("other", "seed 1 and 2"),) * 2,
            "out.[1-5] out.limit": (other.format("limit", "limit 100 and 99"),) * 2,
            "out.[1-5] out.profile": (other.format("profile", "profile 1 and 2"),) * 2,
            "out.[1-5] out.program": (other.format("program", f"program {hashes[0]} and {hashes[1]}"),) * 2,
            "out.[1-5] out.cut": ("line 1 of out.cut is cut short, or is no record of a series",) * 2,
        }
        wrong = self._unrated(self._sh("tournament --merge out.[1-6]"), TABLE)
        wrong += self._unrated(self._sh("tournament --merge --against plan out.[1-6]"), TABLE)
        for files, (alone, against) in cases.items():
            wrong += self._answers(self._sh(f"tournament --merge {files}"), "", f"tournament: {alone}\n", 2)
            wrong += self._answers(self._sh(f"tournament --merge --against plan {files}"), "", f"tournament: {against}\n", 2)
        return wrong

    def each_match_that_is_missing(self) -> list[str]:
        """Of records of one match each, one is left out, or two, or one is there twice: each is seen, the last ones too."""
        self._plan("ones", "-m6", "-l100", "--piece", "1", "a.r", "b.r")
        self._sh("sh ones > ones.records")
        lines, wrong = self._lines("ones.records"), list[str]()
        for left_out in (*itertools.combinations(range(6), 1), *itertools.combinations(range(6), 2)):
            write(self._at("some"), "".join(line for at, line in enumerate(lines) if at not in left_out))
            ran = self._sh("tournament --merge some")
            said = "1 match is missing: match" if len(left_out) == 1 else "2 matches are missing, the first is match"
            number = re.search(r" first=(\d+) ", lines[left_out[0]])
            fine = number and f"{said} {number[1]} of " in ran.stderr and (ran.stdout, ran.returncode) == ("", 2)
            wrong += [] if fine else [f"without {left_out}: {ran}"]
        for line in lines:
            write(self._at("some"), "".join([*lines, line]))
            ran = self._sh("tournament --merge some")
            wrong += [] if ran.returncode == 2 and "1 match is there twice or more" in ran.stderr else [f"{line} twice: {ran}"]
        return wrong if len(lines) == 6 else [f"{lines}"]

    def gaps_match_by_match(self) -> list[str]:
        """Of runs of matches that are drawn by chance: what is missing and what is there more than once, by counting each match."""
        source, wrong = random.Random(9), list[str]()
        for _ in range(3000):
            most = source.randrange(1, 7)
            ends = [sorted(source.choices(range(1, most + 1), k=2)) for _ in range(source.randrange(4))]
            runs = [(first, last) for first, last in ends]
            times = Counter(number for first, last in runs for number in range(first, last + 1))
            missing, twice = ([number for first, last in found for number in range(first, last + 1)] for found in merging.gaps(runs, most))
            if missing != [it for it in range(1, most + 1) if not times[it]] or Counter(twice) != Counter(
                    {number: many - 1 for number, many in times.items() if many > 1}):
                wrong.append(f"{runs} of {most}: {missing} {twice}")
        return wrong

    def lines_of_a_plan(self) -> list[str]:
        """Of drawn plans, some lines of which stand several times, and of drawn series that were played, some of which are in no line: each
        line is named whose series wasn't played, and the first line of each that was played more often than it stands there."""
        draw, wrong = random.Random(43), list[str]()
        plan = plans.Plan(Settings(3, 9, 1, 1, "f" * 64, 3, (2,)), [Robot(f"{at}.r", f"{at:064x}") for at in range(3)], 1)
        every, lines = [it.series for it in plan.planned()], [*plans.lines(plan, "crobots")]
        for _ in range(500):
            chosen, played = (draw.choices(range(len(every)), k=draw.randint(least, 9)) for least in (1, 0))
            stands, times, merger = Counter(chosen), Counter(played), merging.Merger()
            merger.series = [every[at] for at in played]
            write(self._at("drawn"), "".join(lines[at] for at in chosen))
            said = merging.against(self._at("drawn"), merger)
            wanted = ([number for number, at in enumerate(chosen, 1) if not times[at]],
                      sorted(chosen.index(at) + 1 for at in stands if times[at] > stands[at]), len(times.keys() - stands.keys()))
            strange = re.search(r"(\d+) series are in no line", said)
            found = *(named(said, what) for what in ("missing", "there twice or more")), int(strange[1]) if strange else 0
            wrong += [] if found == wanted else [f"lines {chosen}, played {played}: {said!r}, not {wanted}"]
        return wrong[:5]

    def records_that_cannot_be(self) -> list[str]:
        """What is changed in a record is seen by its checksum; and with a right one, what no match can have."""
        self._pieces()
        line = read(self._at("out.1")).rstrip("\n")
        body, _, _ = line.partition(" sum=")
        shown = body.partition(" results=")[2].split(",")[0]
        changed = "was changed: its checksum is another"
        impossible = "has a result that can't be: {} of match 1"
        cases = {
            line.replace("=90:", "=75:", 1): changed, line[:-1] + ("0" if line[-1] != "0" else "1"): changed,
            line.replace(" seats=", "  seats="): "is cut short, or is no record of a series",
            "series m=10" + line[8 + len("2 m=10"):]: "is a record of an older format",
        }
        for result in ("105:100:0", "90:101:0", "90:0:0", "89:100:0", "0:100:0", "90:100", "90:100:0:0", "90:150:100"):
            cases[summed(body.replace(shown, result, 1))] = impossible.format(result)
        for result in ("100:0:0", "100:100:0", "90:100:100", "15:0:100"):
            cases[summed(body.replace(shown, result, 1))] = ""
        cases[summed(body.replace(" count=5", " count=4"))] = "has 5 results of 4 matches"
        unfit = "is no record of a series: its fields don't fit each other"
        for old, new in ((" first=1 ", " first=2 "), (" seats=1,2 ", " seats=1,4 "), (" seats=1,2 ", " seats=2,2 "), (" sizes=2 ", " sizes=3 ")):
            cases[summed(body.replace(old, new))] = unfit
        wrong = []
        for text, why in cases.items():
            try:
                said = "" if records.played(f"{text}\n") else "nothing"
            except records.NoRecord as no:
                said = f"{no}"
            wrong += [] if said == why else [f"{text} {why!r} {said!r}"]
        write(self._at("strange"), f"{summed(body.replace(shown, '90:101:0', 1))}\n")
        told = self._sh("tournament --merge strange out.[2-6]")
        wrong += self._answers(told, "", f"tournament: line 1 of strange {impossible.format('90:101:0')}\n", 2)
        return wrong if len(cases) == 21 else [f"{len(cases)}"]

    def a_record_with_the_seed_of_another_group(self) -> list[str]:
        self._pieces()
        seeds = [text.split(" seed=")[1].split()[0] for text in map(read, map(self._at, ("out.1", "out.3")))]
        body = read(self._at("out.1")).partition(" sum=")[0].replace(seeds[0], seeds[1])
        write(self._at("strange"), summed(body) + "\n")
        ran = self._sh("tournament --merge strange out.[2-6]")
        return self._answers(ran, "", "tournament: 1 seatings are not of this tournament\n", 2)

    def plans_of_another_tournament(self) -> list[str]:
        """The records are whole, and each series of the plan is there: but it is that of other matches or robots."""
        self._pieces()
        shutil.copy(self._at("b.r"), self._at("swapped.r"))
        wrong = []
        for word, robot, why in (
            ("-s2", "c.r", "is of another tournament: seed 1 and 2"), ("-p2", "c.r", "is of another tournament: profile 1 and 2"),
            ("-s1", "swapped.r", "is of other robots: c.r has the name swapped.r there"),
        ):
            self._plan("strange", "-m10", "-l100", word, "--piece", "5", "a.r", "b.r", robot)
            ran = self._sh("tournament --merge --against strange out.[1-6]")
            wrong += [] if re.fullmatch(f"tournament: line [1-6] of strange {why}\n", ran.stderr) and not ran.stdout else [f"{ran}"]
        return wrong

    def a_robot_or_program_that_changed_since_the_plan(self) -> list[str]:
        shutil.copy(self._at("b.r"), self._at("moved.r"))
        self._program_of("replaced", f'exec {self._program} "$@"')
        self._plan("stale", "-m1", "-l100", "a.r", "moved.r")
        self._plan("older", "-m1", "-l100", "--crobots", "./replaced", "a.r", "moved.r")
        self._program_of("replaced", f'exec {self._program}  "$@"')
        wrong = self._answers(self._sh("sh older"), "", "series: the program is not the one of the plan\n" * 2, 1)
        shutil.copy(self._at("a.r"), self._at("moved.r"))
        return wrong + self._answers(self._sh("sh stale"), "", "series: a robot is not the one of the plan\n" * 2, 1)

    def a_series_that_fails_writes_nothing(self) -> list[str]:
        self._plan("broken", "-m2", "-l100", "a.r", "b.r")
        ran = self._sh("sed 's/ -m1 / -m0 /' broken | sh; ls -d ${TMPDIR:-/tmp}/tmp.* 2> left | wc -l > count")
        return [] if (ran.returncode, ran.stdout) == (0, "") and ran.stderr.count("usage") == 2 else [f"{ran}"]

    def a_large_plan_takes_no_more_memory(self) -> list[str]:
        """4,845 groups of four take within 4 MB what 210 take; each has four lines."""
        used = []
        for count in (10, 20):
            words = self._words("-m4", "--plan", "--size", "4", *self._forty[:count])
            with subprocess.Popen(words, cwd=self._folder, stdout=subprocess.PIPE) as child:
                assert child.stdout
                lines = sum(1 for _ in child.stdout)
                used.append((lines, os.wait4(child.pid, 0)[2].ru_maxrss))
                child.returncode = 0
        right = used[0][0] == 4 * 210 and used[1][0] == 4 * 4845 and used[1][1] < used[0][1] + 4096
        return [] if right else [f"{used}"]


def summed(body: str) -> str:
    """A record with its checksum, worked out here once more."""
    return f"{body} sum={hashlib.sha256(body.encode()).hexdigest()[:16]}"


def named(said: str, what: str) -> list[int]:
    """The lines of a plan of which this is said, as 'lines 1-3, 7 of plan are missing'."""
    found = re.search(rf"lines? ([\d, -]+) of \S+ (?:is|are) {what}", said)
    ends = [piece.split("-") for piece in found[1].split(", ")] if found else []
    return [number for it in ends for number in range(int(it[0]), int(it[-1]) + 1)]
