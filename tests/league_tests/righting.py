"""What was entered or taken wrongly is put right, and stays in the history."""

from __future__ import annotations

import os
import random
import re
import sqlite3
import subprocess
from contextlib import closing

from tournaments.records import checksum

from .base import Base, League, write


def forged(line: str) -> str:
    """A record whose first match ended otherwise, with a right checksum."""
    text = line.partition(" sum=")[0]
    if "results=90:" in text:
        text = re.sub(r"results=90:(\d+):(\d+)", r"results=90:\2:\1", text)
    else:
        text = re.sub(r"results=\d+:\d+:\d+", "results=300:7:0", text)
    return f"{text} sum={checksum(text)}\n"


class Righting(Base):
    """Workers, days and entries."""

    def false_records(self) -> list[str]:
        """A false record isn't taken if it is played again; one that was is taken back by its worker, and the true one
        is taken."""
        robots = ("a.r", "b.r", "r5.r")
        home = League(self, "true", "-m10", robots=robots)
        home.run("play", "-j2")
        it = League(self, "false", "-m10", robots=robots)
        lines = self._farmed(it.run("play", "--plan")).splitlines(keepends=True)
        write(self.at("lie"), forged(lines[0]))
        write(self.at("lies"), "".join(map(forged, lines)))
        write(self.at("truth"), "".join(lines))
        write(self.at("mixed"), "".join([forged(lines[0]), *lines[1:]]))
        wrong = []
        for words, said in (("lie", "line 1 of lie was not played as it says: match 1 is"),
                            ("lies", "lies is not taken from there on"), ("--check lies", "was not played as it says")):
            ran = it.ran("take", *words.split())
            if ran.returncode != 2 or said not in ran.stderr or it.battles():
                wrong.append(f"take {words}: status {ran.returncode}, {ran.stderr}, {len(it.battles())} matches")
        if (said := it.run("take", "--unchecked", "--worker=mallory", "lie")) != "5 matches are new, 0 were there\n":
            wrong.append(f"unchecked: {said}")
        ran = it.ran("take", "--check", "truth")
        if ran.returncode != 2 or "with another result than the league" not in ran.stderr:
            wrong.append(f"the true one beside the false one: {ran.stderr}")
        wrong += self._dropped(it, "5 matches are taken back", "--worker=mallory")
        if (said := it.run("take", "truth")) != "5 matches are new, 25 were there\n" or it.battles() != home.battles():
            wrong.append(f"the true one: {said}")
        if it.rows("SELECT name, count(*) FROM battle JOIN worker ON worker.number = worker GROUP BY 1") != [("truth", 30)]:
            wrong.append("the matches have other workers")
        other = League(self, "mixed-league", "-m10", robots=robots)
        ran = other.ran("take", "--check", "mixed")
        if ran.returncode != 2 or "25 matches are new" not in ran.stdout or ran.stderr.count("line ") != 1:
            wrong.append(f"a false one among true ones: {ran.stdout}{ran.stderr}")
        said = it.run("history")
        return wrong + ([] if "5 matches were taken back, of worker mallory: a doubt" in said else [f"the history: {said}"])

    def _dropped(self, it: League, said: str, *words: str) -> list[str]:
        ran = it.ran("drop", *words, "--why=a doubt")
        return [] if ran.returncode == 0 and said in ran.stdout else [f"drop {words}: {ran.stdout}{ran.stderr}"]

    def what_is_taken_back_is_played_again(self) -> list[str]:
        """By day and by robot, with all that was played because of it; not of a season that ended."""
        it = League(self, "back", "-m10", robots=("a.r", "b.r", "c.r"))
        it.run("play", "-j2", "--day=2026-03-01")
        before, wrong = it.battles(), []
        # a meets b and c, in ten matches each
        wrong += self._dropped(it, "20 matches are taken back", "--robot=a", "--day=2026-03-02")
        wrong += self._dropped(it, "10 matches are taken back", "--played=2026-03-01", "--day=2026-03-02")
        if it.missing() != 30 or it.run("play", "-j2", "--quiet", "--day=2026-03-02") or it.battles() != before:
            wrong.append("other matches are played again")
        for words in (["--robot=x"], ["--played=2026-03-01"], ["--worker=x"], []):
            if (ran := it.ran("drop", *words, "--why=x")).returncode != 2 or it.battles() != before:
                wrong.append(f"drop {words}: {ran.stdout}{ran.stderr}")
        it.run("season", "end", "--day=2026-03-03")
        it.run("season", "begin", "two", "--day=2026-03-03")
        if it.ran("drop", "--robot=a", "--why=x").returncode != 2:
            wrong.append("matches of a season that ended are taken back")
        sure = League(self, "back-sure", "-m100", "--until=sure", robots=("b.r", "c.r"))
        sure.run("play", "-j2", "--day=2026-03-01")
        # b and c are even after 30 matches, 15 of each seating; matches 6 and 10 are the first one and the last one of the second look
        for number in (6, 10):
            with closing(sqlite3.connect(os.path.join(sure.folder, "league.db"))) as database, database:
                database.execute("UPDATE battle SET day = '2026-03-05' WHERE number = ? AND seating = 1", (number,))
            wrong += self._dropped(sure, "20 matches are taken back", "--played=2026-03-05")
            sure.run("play", "-j2", "--day=2026-03-01")
            wrong += [] if len(sure.battles()) == 30 else [f"then {len(sure.battles())} matches are there"]
        return wrong

    def wrong_days(self) -> list[str]:
        """A day in the future is refused unless it is meant; what was entered last is taken back or gets its right day."""
        it, future = League(self, "days", robots=("a.r", "b.r")), "--day=2062-11-02"
        wrong = []
        for words in (("add", "c.r", future), ("change", "a", "c.r", future), ("withdraw", "a", future), ("play", future),
                      ("take", future), ("season", "end", "--unfinished", future), ("publish", "days-site", future),
                      ("correct", "entry", "--to=2062-11-02", "--why=x")):
            if (ran := it.ran(*words)).returncode != 2 or "is in the future" not in ran.stderr or len(it.rows("SELECT * FROM entry")) != 2:
                wrong.append(f"{words}: status {ran.returncode}, {ran.stderr}")
        it.run("add", "c.r", "r5.r", future, "--future")
        if it.ran("add", "r50.r", "--day=2026-03-02").returncode != 2:
            wrong.append("entries of any order")
        if (ran := it.ran("correct", "entry", "--to=2026-02-01", "--last=2", "--why=x")).returncode != 2:
            wrong.append(f"before the entry before: {ran.stdout}")
        it.run("correct", "entry", "--to=2026-03-02", "--last=2", "--why=a typing error")
        it.run("add", "r50.r", "--day=2026-03-02")
        it.run("correct", "entry", "--undo", "--why=not his")
        if (ran := it.ran("add", "r50.r", "--author=Bob", "--day=2026-03-03")).returncode != 2:
            wrong.append(f"an id of another author: {ran.stdout}")
        if it.missing() != 6 * 100:
            wrong.append(f"{it.missing()} matches of four robots are missing")
        it.run("add", "r50.r", "--day=2026-03-03")
        it.run("season", "end", "--unfinished", future, "--future")
        if it.ran("season", "begin", "two", "--day=2026-03-04").returncode != 2:
            wrong.append("a season begins before the last one ended")
        if (ran := it.ran("correct", "end", "--to=2026-03-02", "--why=x")).returncode != 2:
            wrong.append(f"a season ends before its last entry: {ran.stdout}")
        it.run("correct", "end", "--to=2026-03-04", "--why=a typing error")
        if (ran := it.ran("correct", "entry", "--undo", "--why=x")).returncode != 2:
            wrong.append(f"an entry of a season that ended is taken back: {ran.stdout}")
        it.run("season", "begin", "two", "--day=2026-03-05")
        it.run("correct", "begin", "--to=2026-03-04", "--why=a day too late")
        listed = it.run("season")
        if [line.split()[1:3] for line in listed.splitlines()[1:]] != [["2026-03-01", "2026-03-04"], ["2026-03-04", "goes"]]:
            wrong.append(f"the seasons are {listed}")
        said = it.run("history")
        return wrong + [f"the history lacks {it}" for it in ("entry 4 is of 2026-03-02: a typing error",
                        "entry 5 was taken back: not his", "end 1 is of 2026-03-04: a typing error") if it not in said]

    def a_day_is_that_of_the_clock_here(self) -> list[str]:
        """Without --day each command writes down the day that `date` says, also where it is yesterday or tomorrow in Greenwich: at any
        time one of these zones has another day."""
        wrong = []
        for zone in ("EAST-14", "WEST+12"):
            self._environment["TZ"] = zone
            try:
                days = {self._date()}
                name = f"clock{zone[:4]}"
                it = League(self, name)
                statuses = [it.ran(*words).returncode for words in (("add", "a.r", "b.r", "--future"), ("play", "-j1", "--quiet"), ("season", "end"), ("season", "begin", "two"))]
                # a day may end meanwhile
                days.add(self._date())
            finally:
                del self._environment["TZ"]
            found = {day for (day,) in it.rows("SELECT day FROM entry UNION SELECT day FROM battle UNION SELECT day FROM ending UNION SELECT begun FROM season WHERE number = 2")}
            if statuses != [0] * 4 or not found or not found <= days:
                wrong.append(f"{zone}: {statuses}, {sorted(found)}, and not {sorted(days)}")
        return wrong

    def _date(self) -> str:
        """The day by the program `date`."""
        return subprocess.run(["date", "+%F"], env=self._environment, capture_output=True, text=True, check=True).stdout.strip()

    def names_that_rules_have(self) -> list[str]:
        """An entry can't be taken back if the rules name its robot."""
        it = League(self, "named", robots=("a.r", "b.r"))
        it.run("rules", "--anchor=b=5")
        ran = it.ran("correct", "entry", "--undo", "--why=x")
        return [] if ran.returncode == 2 and it.missing() == 100 else [f"status {ran.returncode}, {ran.stderr}"]

    def robots_that_rules_name_stay(self) -> list[str]:
        """Whoever has the fixed rating, or plays all others, can't leave until the rules name it no more, and nobody leaves with it; others may."""
        wrong = []
        for number, (named, unnamed, robot, other) in enumerate((("--anchor=a=5", "--anchor=none", "a", "b"), ("--mode=gauntlet:b", "--mode=pairs", "b", "a"))):
            it = League(self, f"stays{number}", robots=("a.r", "b.r", "c.r"))
            it.run("rules", named)
            for words in ([robot], ["c", robot]):
                ran = it.ran("withdraw", *words)
                if ran.returncode != 2 or f"the rules name the robot {robot}, so it can't leave" not in ran.stderr:
                    wrong.append(f"{named}, withdraw {words}: {ran.returncode}, {ran.stdout}{ran.stderr}")
            if left := it.rows("SELECT robot FROM entry WHERE what = 'withdraw'"):
                wrong.append(f"{named}: {left} left")
            statuses = [it.ran(*words).returncode for words in (("withdraw", "c"), ("rules", unnamed), ("withdraw", robot), ("withdraw", other))]
            wrong += [] if statuses == [0, 0, 0, 0] else [f"{named}: {statuses}"]
        return wrong

    def what_is_no_file(self) -> list[str]:
        """A pipe that nobody writes to isn't waited for, and a file of anything is refused in one line."""
        it = League(self, "files", robots=("a.r", "b.r"))
        os.mkfifo(self.at("fifo.r"))
        with open(self.at("binary"), "wb") as file:
            file.write(random.Random(3).randbytes(200_000))
        wrong = []
        for words, said in ((("add", "fifo.r"), "fifo.r is no file"), (("take", "binary"), "binary has no records"),
                            (("add", "/dev/null"), "is no file")):
            ran = it.ran(*words)
            if ran.returncode not in (2, 3) or said not in ran.stderr or ran.stderr.count("\n") > 2:
                wrong.append(f"{words}: status {ran.returncode}, {ran.stderr[:200]}")
        if (ran := self.ran("verify", "fifo.r")).returncode != 3:
            wrong.append(f"verify fifo.r: status {ran.returncode}, {ran.stderr}")
        write(self.at("cut"), "series 2 \n" * 50)
        ran = it.ran("take", "cut")
        return wrong + ([] if ran.stderr.count("\n") == 12 else [f"50 lines are told in {ran.stderr.count(chr(10))}"])
