"""Plans and their records."""

from __future__ import annotations

import itertools
import os
import re
import shutil
import subprocess
import time
from typing import Any

from harness import skip
from packages import lacking
from tournaments.records import checksum

from .base import DAY, Base, League, write


def _summed(line: str) -> str:
    """A record with the checksum of what it says."""
    text = line.partition(" sum=")[0]
    return f"{text} sum={checksum(text)}\n"


def _wrong_records(line: str) -> list[tuple[str, str]]:
    """What a record may have wrong, each with what is said of it."""
    other = "0" * 64
    seed, hashes = (re.search(rf" {name}=(\w+)", line) for name in ("seed", "sha256"))
    assert seed and hashes
    return [
        ("cut short", line[:200]),
        ("its checksum is another", line.replace(" first=1", " first=2")),
        ("no record", "hello\n"),
        ("another limit", _summed(line.replace(" l=300", " l=300000"))),
        ("another program", _summed(re.sub(r"program=\w+", f"program={other}", line))),
        ("another profile", _summed(line.replace(" p=1 ", " p=2 "))),
        ("never had", _summed(line.replace(hashes[1], other))),
        ("a seed that these robots don't have", _summed(line.replace(seed[1], "7"))),
    ]


class Farms(Base):
    """What other machines play."""

    def farm(self) -> list[str]:
        """Lines of some series each, whose records are taken once; wrong records are refused by line."""
        robots = ("a.r", "b.r", "r5.r", "r10.r")
        home = League(self, "home", "-m6", robots=robots)
        home.run("play", "-j2")
        it = League(self, "farm", "-m6", robots=robots)
        plan = it.run("play", "--plan", "--chunk=5", "--piece=2")
        # 6 pairs of 2 seatings of 3 matches: 2 series each, so 24 series
        wrong = (
            []
            if [line.split(" ")[-1] for line in plan.splitlines()] == ["5", "5", "5", "5", "4"]
            else [f"the chunks are of another size: {plan}"]
        )
        records = self._farmed(plan)
        lines = records.splitlines(keepends=True)
        write(self.at("some"), "".join(lines[:10]))
        write(self.at("all"), records)
        for file, said in (
            ("some", "15 matches are new, 0 were there\n"),
            ("all", "21 matches are new, 15 were there\n"),
            ("all", "0 matches are new, 36 were there\n"),
        ):
            if (told := it.run("take", file, DAY)) != said:
                wrong.append(f"taking {file}: {told}")
        if it.battles() != home.battles() or it.run("play", "--plan"):
            wrong.append("other matches than at home")
        return wrong + self._refused_records(it, lines)

    def plans_are_short(self) -> list[str]:
        """At any chunk a line is short and names nothing of this machine, and all lines come to the same, by sh, xargs and parallel, from
        any folder, also beside a newer plan; a name with blanks and quotes makes no difference."""
        robots = ("a.r", "b.r", "r5.r", "r10.r", "r15.r")
        home = League(self, "plans-home", "-m4", robots=robots)
        home.run("play", "-j2")
        wanted, wrong = home.battles(), []
        ways = {"sh": "sh plan", "xargs": "xargs -P 4 -d '\\n' -n 1 sh -c < plan", "parallel": "parallel -j 4 < plan"}
        if why := lacking(["parallel"]):
            skip("plans of leagues by parallel", why)
            del ways["parallel"]
        for at, (chunk, (way, command)) in enumerate(itertools.product((1, 7, 100, 10_000), ways.items())):
            name = f"a 'league' {at}"
            it = League(self, name, "-m4", robots=robots)
            plan = self.ran("play", name, "--plan", f"--chunk={chunk}", "--piece=1").stdout
            if max(map(len, plan.splitlines())) > 80 or self._folder in plan or len(plan.splitlines()) != -(-40 // chunk):
                wrong.append(f"a plan with {chunk} series a line: {plan:.300}")
            write(self.at("plan"), plan)
            # a newer plan doesn't change the older one
            self.ran("play", name, "--plan", "--piece=2")
            records = self._shell(command)
            if (told := it.run("take", input=records, stdin=None)) != "40 matches are new, 0 were there\n" or it.battles() != wanted:
                wrong.append(f"{way}, {chunk} series a line: {told}")
        return wrong + self._elsewhere(wanted, robots)

    def _elsewhere(self, wanted: list[tuple[Any, ...]], robots: tuple[str, ...]) -> list[str]:
        """The folder of plans and that of sources are all that another machine needs, beside a program with the same bytes."""
        it = League(self, "here", "-m4", f"--crobots={self._counting}", robots=robots)
        plan = self.ran("play", "here", "--plan", "--chunk=9", f"--crobots={self._counting}").stdout
        wrong = []
        os.makedirs(self.at("there/here"))
        for part in ("plans", "sources"):
            shutil.move(self.at(f"here/{part}"), self.at(f"there/here/{part}"))
        away = self.at("counting-away")
        os.rename(self._counting, away)
        try:
            write(self.at("there/plan"), plan)
            if (ran := self._shell("cd there; sh plan 2>&1; echo $?")).count("the program is not the one of the plan") != 20 or ran[-2:] != "1\n":
                wrong.append(f"with another program on the path: {ran:.300}")
            records = self._shell(f"cd there; CROBOTS={away} sh plan")
        finally:
            os.rename(away, self._counting)
        it.run("take", f"--crobots={self._counting}", input=records, stdin=None)
        found = [row[2:] for row in it.battles()]
        return wrong + ([] if found == [row[2:] for row in wanted] else [f"elsewhere {len(found)} other matches were played"])

    def more_than_is_asked_for(self) -> list[str]:
        """True records of a league with more matches of a pair, which begin with those that are asked for, are refused as a whole."""
        more, less = (League(self, name, rules, robots=("a.r", "r50.r")) for name, rules in (("more", "-m20"), ("less", "-m6")))
        write(self.at("more-records"), self._farmed(more.run("play", "--plan", "--piece=10")))
        ran = less.ran("take", "more-records")
        is_refused = ran.returncode == 2 and ran.stderr.count("has matches that this season doesn't ask for") == 2
        return [] if is_refused and not less.battles() else [f"status {ran.returncode}, {ran.stderr}, {len(less.battles())} matches"]

    def old_plans_are_removed(self) -> list[str]:
        """A plan is kept for a month after it was made."""
        it = League(self, "old", "-m2", robots=("a.r", "b.r"))
        it.run("play", "--plan")
        first = {*os.listdir(self.at("old/plans"))} - {"run", "series"}
        now = time.time()
        for name, days in ((min(first), 29), ("older", 31)):
            write(self.at(f"old/plans/{name}"), "")
            os.utime(self.at(f"old/plans/{name}"), (now - days * 86400,) * 2)
        it.run("add", "r5.r")
        it.run("play", "--plan")
        found = {*os.listdir(self.at("old/plans"))} - {"run", "series"}
        return [] if first < found and len(found) == 2 else [f"of {first} and one that is older {found} are left"]

    def _shell(self, command: str) -> str:
        """What a command of a shell writes, in the folder of the tests."""
        return subprocess.run(["sh", "-c", command], cwd=self._folder, env=self._environment, stdin=subprocess.DEVNULL,
                              stdout=subprocess.PIPE, text=True, check=False).stdout

    def _refused_records(self, it: League, lines: list[str]) -> list[str]:
        """Records that are wrong are refused by line, what is right beside them is kept, and what is there stays."""
        return self._mixed_records(lines) + self._false_results(it, lines)

    def _mixed_records(self, lines: list[str]) -> list[str]:
        """Each record that is wrong is named by its line, with why; the one that is right is kept."""
        cases, wrong = _wrong_records(lines[0]), []
        fresh = League(self, "fresh", "-m6", robots=("a.r", "b.r", "r5.r", "r10.r"))
        write(self.at("mixed"), "".join(line if line.endswith("\n") else line + "\n" for _, line in cases) + lines[1])
        ran = fresh.ran("take", "mixed")
        told = ran.stderr.splitlines()
        if ran.returncode != 2 or len(told) != 9 or len(fresh.battles()) == 0:
            wrong.append(f"mixed records: status {ran.returncode}, {ran.stderr}")
        for number, ((why, _), line) in enumerate(zip(cases, told), 1):
            if f"line {number} of mixed" not in line or (
                why not in line and not (why == "no record" and "cut short" in line)
            ):
                wrong.append(f"{why}: {line}")
        return wrong

    def _false_results(self, it: League, lines: list[str]) -> list[str]:
        """A result that the match doesn't have is found by playing it, or since another one is kept; nothing of it is."""
        before, wrong = it.battles(), []
        lost = next(line for line in lines if re.search(r"results=90:", line))
        write(self.at("false"), _summed(re.sub(r"results=90:(\d+):(\d+)", r"results=90:\2:\1", lost)))
        ran = it.ran("take", "false")
        if ran.returncode != 2 or "was not played as it says: match" not in ran.stderr or it.battles() != before:
            wrong.append(f"a false result: {ran.returncode}, {ran.stderr}")
        ran = it.ran("take", "--unchecked", "false")
        if ran.returncode != 2 or "with another result" not in ran.stderr or it.battles() != before:
            wrong.append(f"a false result that isn't checked: {ran.returncode}, {ran.stderr}")
        return wrong
