"""Seats, seeds, the order of the words, samples, and what is played of robots and programs that change."""

from __future__ import annotations

import itertools
import json
import math
import os
import random
import shlex
import shutil
from collections import Counter

from tools.faults import Fault
from tournaments import groups, robots
from tournaments.plans import Plan
from tournaments.records import Record
from tournaments.seats import keys
from tournaments.settings import Settings, parsed

from .base import COUNTER, FORMS, ROBOTS, SHOOTER, Base, seed_of, sha256, write

SHUFFLES = 3


class Seats(Base):
    def copies_are_equal(self) -> list[str]:
        """Of six copies of a robot that is better in one seat, in pairs, threes and fours, in any order, at most one pair of
        the 45 intervals is apart."""
        words = ["-m100", "-l5000", "--csv"]
        names = [f"copy{at}.r" for at in range(6)]
        for name in names:
            shutil.copy(os.path.join(ROBOTS, "sweeper.r"), self._at(name))
        wrong = []
        for size, seed in (("2", "1"), ("3", "2"), ("4", "3")):
            table = self._run(*words, "--size", size, f"-s{seed}", *names).stdout
            rows = [line.split(",") for line in table.splitlines()[1:]]
            apart = [(one[1], other[1]) for one, other in itertools.combinations(rows, 2) if int(one[8]) > int(other[9])]
            wrong += [f"size {size}: {apart} in\n{table}"] if len(rows) != 6 or len(apart) > 1 else []
        return wrong

    def the_order_of_the_words_is_no_matter(self) -> list[str]:
        """Also with copies, whose paths are their only difference; in each form, with a sample, and for a challenge."""
        among = ["0/sweeper.r", "0/runner.r", "0/hunter.r", "a.r", "b.r", "c.r"]
        source = random.Random(8)
        sampled: list[list[str]] = [[], ["--size", "3", "--sample", "9"]]
        cases = [("tournament", ["-m6", "-l3000", *form, *more]) for form in FORMS for more in sampled]
        cases.append(("challenge", ["-m4", "-l3000", "1/sweeper.r", "--old", "0/sniper.r"]))
        wrong = []
        for script, words in cases:
            texts = {self._run(*words, *source.sample(among, len(among)), script=script).stdout for _ in range(SHUFFLES)}
            wrong += [f"{script} {words}: {len(texts)} texts"] if len(texts) != 1 or "runner.r" not in texts.pop() else []
        return wrong

    def each_robot_has_each_seat_equally_often(self) -> list[str]:
        """Of four robots in pairs, threes and fours, with matches that are rounded up, which is said."""
        among = ("0/sweeper.r", "0/runner.r", "0/hunter.r", "0/centre.r")
        wrong = []
        said = "tournament: -m{} is rounded up to {}: each seating is played equally often\n"
        for size, given, each, rounded in ((2, 3, 4, "4 of pairs"), (3, 6, 6, ""), (4, 5, 8, "8 of fours")):
            ran = self._run(f"-m{given}", "-l15", "--size", f"{size}", "--long", *among)
            rows = [line.split(",") for line in ran.stdout.splitlines()[1:]]
            often = Counter((row[4], row[3]) for row in rows)
            in_a_seat = math.comb(3, size - 1) * each // size
            told = ran.stderr == (said.format(given, rounded) if rounded else "")
            fine = told and len(often) == 4 * size and {*often.values()} == {in_a_seat}
            wrong += [] if fine else [f"size {size}: {often} {ran.stderr}"]
        ran = self._run("-m2", "-l15", "--by-size", "1,1,1", *among)
        wrong += [] if ran.stderr == said.format(2, "3 of threes, 4 of fours") else [ran.stderr]
        return wrong

    def a_seating_is_played_by_its_seed(self) -> list[str]:
        """The matches of a table are those that `crobots` plays with the seat's seed and the files in the order of seats."""
        among = ["0/hunter.r", "0/sniper.r", "0/jumpy.r"]
        long = [line.split(",") for line in self._run("-m6", "-l9000", "-s5", "--size", "3", "--long", *among).stdout.splitlines()[1:]]
        path = {os.path.basename(it): it for it in among}
        wrong = []
        for seed, rows in itertools.groupby(long, lambda row: row[0]):
            told = [*rows]
            seats = [path[row[4]] for row in told[:3]]
            with_keys = seed_of(5, *(sha256(open(self._at(it), encoding="utf-8").read()) for it in seats))
            report = self._sh(f"{shlex.quote(self._program)} -m2 -l9000 -s{seed} {shlex.join(seats)} | grep '%' | sed 's/.*damage *//'")
            shown = [f"{row[5]}% {row[4]}" for row in told]
            wrong += [] if seed == f"{with_keys}" and report.stdout.splitlines() == shown else [f"{seats} {with_keys} {report} {told}"]
        return wrong if len(long) == 18 else [f"{len(long)}"]

    def who_else_plays_is_no_matter(self) -> list[str]:
        """The matches of two robots are the same among six."""
        two, six = ["0/sweeper.r", "0/runner.r"], self._forty[:6]
        found = []
        for among in ([*six, *two], two):
            said = json.loads(self._run("-m4", "-l3000", "--json", *dict.fromkeys(among)).stdout)
            found.append([it for it in said["matches"] if {*it["robots"]} == {"sweeper.r", "runner.r"}])
        return [] if found[0] == found[1] and len(found[1]) == 4 else [f"{found}"]

    def series_are_counted_as_they_are_planned(self) -> list[str]:
        """How many series progress says there are: of each number of matches, most of a series, size, sample, and sides."""
        among, wrong = [robots.Robot(f"{at}.r", f"{at:064x}") for at in range(5)], []
        for sizes, more in (((2,), {}), ((3,), {}), ((4,), {}), ((2, 3, 4), {}), ((3,), {"sample": 4}), ((2,), {"those": (0, 3)}), ((2, 3), {"those": (4,)})):
            for matches, most in itertools.product((1, 2, 3, 4, 5, 7, 10, 12), (1, 2, 3, 4, 7, 100)):
                plan = Plan(Settings(matches, 100, 1, 1, "0" * 64, len(among), sizes, **more), among, most)
                planned = [it.series for it in plan.planned()]
                played = Counter[tuple[int, ...]]()
                for it in planned:
                    played[it.seats] += it.matches
                is_whole = {*played.values()} <= {-(-matches // size) for size in sizes} and all(it.matches <= most for it in planned)
                wrong += [] if is_whole and plan.count() == len(planned) else [f"{sizes} {more} -m{matches}, {most}: {plan.count()}, not {len(planned)}"]
        return wrong[:5]

    # These against those.

    def these_against_those(self) -> list[str]:
        """Each of two robots meets the third alone, in each form, merged too; a threesome needs robots of both sides."""
        words = ("-m2", "-l100", "b.r", "c.r", "--those", "a.r")
        wanted = "rank,robot,played,won,tied,lost,points\n1,b.r,2,2,0,0,3.000\n1,c.r,2,2,0,0,3.000\n3,a.r,4,0,0,4,0.000\n"
        wrong = self._unrated(self._run("--csv", *words), wanted)
        self._plan("sides", *words)
        merged = self._sh("sh sides > sides.records; tournament --merge --csv sides.records; head -n 3 sides.records | tournament --merge")
        wrong += self._unrated(self._run("--merge", "--csv", "sides.records"), wanted)
        wrong += [] if merged.returncode == 2 and "1 match is missing" in merged.stderr else [f"{merged}"]
        matrix = self._run("--matrix", *words).stdout
        wrong += [] if matrix == "           1      2      3\n1 b.r      -      -  2/0/0\n2 c.r      -      -  2/0/0\n3 a.r  0/0/2  0/0/2      -\n" else [matrix]
        said = json.loads(self._run("--json", *words).stdout)["settings"]["those"]
        return wrong + ([] if said == ["a.r"] else [f"{said}"])

    def groups_of_two_sides(self) -> list[str]:
        """Of each two sides of up to seven robots: the groups are those with robots of both, as many as are counted; records know them,
        and a sample has no others."""
        wrong = []
        names = [sha256(f"{at}") for at in range(7)]
        for many, size in itertools.product(range(4, 8), (2, 3, 4)):
            for those in itertools.chain.from_iterable(itertools.combinations(range(many), side) for side in range(1, many)):
                settings = Settings(12, 9, 1, 1, "0" * 64, many, (size,), 0, those)
                wanted = [it for it in itertools.combinations(range(many), size) if {*it} & {*those} and {*it} - {*those}]
                found = [*groups.groups(settings, names)]
                some = groups.sample(1, tuple(names[:many]), size, 2, those)
                if found != wanted or groups.count(settings, size) != len(wanted) or parsed(settings.text) != settings or not {*some} <= {*wanted}:
                    wrong.append(f"{size} of {many}, {those}: {found}")
        return wrong

    def sides_that_cannot_be(self) -> list[str]:
        other = "tournament: --those takes the robots of one side, and none is left for the other; give the others before it\n"
        return (self._answers(self._run("--those", "a.r", "b.r"), "", other, 2)
                + self._answers(self._run("a.r", "b.r", "--those", "./a.r"), "", "tournament: the robot ./a.r is given twice\n", 2)
                + self._answers(self._run("--merge", "x", "--those", "a.r"), "",
                                "tournament: --merge reads the settings from the records, so it takes no --those\n", 2))

    # Samples.

    def samples(self) -> list[str]:
        """Of 3 to 9 robots as many different groups as were asked for; one robot more leaves the others' numbers as they were."""
        wrong = []
        for count, size in itertools.product(range(4, 10), (2, 3, 4)):
            every = math.comb(count, size)
            names = [sha256(f"{at}") for at in range(count)]
            for many in sorted({1, every // 2, every} - {0}):
                found = groups.sample(5, tuple(names), size, many)
                fewer = groups.sample(5, tuple(names[:-1]), size, many)
                there = [it for it in found if count - 1 not in it]
                sound = found == sorted({*found}) and all(len({*it}) == size and [*it] == sorted(it) for it in found)
                if len(found) != many or not sound or not {*there} <= {*fewer}:
                    wrong.append(f"{many} of {count} by {size}: {found} {fewer}")
        return wrong

    def a_sample_depends_on_its_seed(self) -> list[str]:
        drawn = [groups.sample(seed, tuple(map(str, range(12))), 3, 20) for seed in (1, 1, 2)]
        return [] if drawn[0] == drawn[1] != drawn[2] else [f"{drawn}"]

    def a_sample_goes_by_points_a_match(self) -> list[str]:
        """Thirty of the 84 groups of nine robots: some play more matches than others, and each row's points are its own."""
        words = ("-m3", "-l1000", "--size", "3", "--sample", "30", *self._forty[:9])
        alone = self._run("--csv", *words)
        self._plan("sampled", *words)
        wrong = self._answers(self._sh("sh sampled | tournament --merge --csv"), alone.stdout)
        rows = [line.split(",") for line in alone.stdout.splitlines()[1:]]
        played = {int(row[2]) for row in rows}
        means = [(3 * int(row[3]) + int(row[4])) / int(row[2]) for row in rows]
        fine = len(played) > 1 and means == sorted(means, reverse=True) and [row[6] for row in rows] == [f"{it:.3f}" for it in means]
        return wrong + ([] if fine and sum(int(row[2]) for row in rows) == 270 else [alone.stdout])

    def a_robot_more_replays_nothing(self) -> list[str]:
        """A sample of nine robots goes on with ten: what is in both is played once."""
        words = ("-m3", "-l100", "--size", "3", "--sample", "40", "--journal", "sample.journal", "--piece", "1")
        first = self._run(*words, *self._forty[:9])
        before = self._lines("sample.journal")
        more = self._run(*words, *self._forty[:10])
        after = self._lines("sample.journal")
        again = self._run(*words, *self._forty[:9])
        # a group of the ten that was there is in both, so it isn't played again
        seen = [line.split(" sha256=")[1].split(" files=")[0] + line.split(" seed=")[1].split(" count=")[0] for line in after]
        fine = first.stdout == again.stdout and more.returncode == 0 and len(before) == 120 < len(after) < 240
        return [] if fine and len({*seen}) == len(seen) and len(self._lines("sample.journal")) == len(after) else [f"{len(after)} {again}"]

    def a_sample_that_leaves_robots_out(self) -> list[str]:
        """Nobody knows their names when it is merged: it is refused, also of records that were made elsewhere."""
        names = sorted(sha256(f"{at}") for at in range(7))
        enough = groups.least(1, names, 3)
        wrong = []
        for many, name in ((enough - 1, "lacking"), (enough, "whole")):
            settings = Settings(3, 100, 1, 1, "0" * 64, 7, (3,), many)
            among = [robots.Robot(f"{at}.r", names[at]) for at in range(7)]
            series = [*groups.whole_series(settings, keys(names))]
            records = [Record(settings, it, tuple(among[at] for at in it.seats), "100:0:0:0") for it in series]
            write(self._at(name), "".join(record.line() for record in records))
            left = 7 - len({at for it in series for at in it.seats})
            ran = self._run("--merge", "--csv", name)
            lacking = f"tournament: only {7 - left} of 7 robots are in its groups\n"
            wrong += self._answers(ran, "", lacking, 2) if left else [] if (ran.stdout.count("\n"), ran.stderr) == (8, "") else [f"{ran}"]
        ran = self._run("--sample", "2", "--size", "3", *self._forty[:7])
        fine = ran.stderr.startswith("tournament: --sample 2 leaves ") and ran.stderr.endswith(" groups have all\n")
        count = ran.stderr.split()[-4]
        right = self._run("-m3", "-l15", "--sample", count, "--size", "3", *self._forty[:7])
        fewer = self._run("-m3", "-l15", "--sample", f"{int(count) - 1}", "--size", "3", *self._forty[:7])
        return wrong + ([] if fine and (right.returncode, fewer.returncode) == (0, 2) else [f"{ran} {right} {fewer}"])

    def too_many_groups_for_a_sample(self) -> list[str]:
        try:
            groups.sample(1, tuple(map(str, range(400))), 3, 10)
        except Fault as why:
            return [] if f"{why}" == "a sample is drawn of at most 5,000,000 groups, and 400 robots have 10,586,800 of 3" else [f"{why}"]
        return ["no fault"]

    # What changes while it is played.

    def a_robot_that_is_edited_while_it_is_played(self) -> list[str]:
        """Here by the program itself, before its first match: the table and the journal are those of what was read."""
        write(self._at("edited.r"), COUNTER)
        does = f"case $1 in -c) ;; *) printf '%s' '{SHOOTER}' > edited.r;; esac; exec {shlex.quote(self._program)} \"$@\""
        self._program_of("editing", does)
        table = self._run("-m2", "-l100", "--matrix", "a.r", "b.r").stdout.replace("b.r", "edited.r")
        ran = self._run("-m2", "-l100", "--matrix", "--crobots", "./editing", "--journal", "edited", "a.r", "edited.r")
        fine = [line.split() for line in ran.stdout.splitlines()] == [line.split() for line in table.splitlines()]
        kept = all(sha256(COUNTER) in line for line in self._lines("edited"))
        return [] if fine and kept and len(self._lines("edited")) == 2 else [f"{ran} {self._lines('edited')}"]

    def a_program_that_is_changed_while_it_is_used(self) -> list[str]:
        does = f"case $1 in -c) ;; *) echo >> changing;; esac; exec {shlex.quote(self._program)} \"$@\""
        self._program_of("changing", does)
        ran = self._run("-m2", "-l100", "--crobots", "./changing", "a.r", "b.r")
        return self._answers(ran, "", "tournament: ./changing was changed while it was used\n", 4)

    def nothing_is_left_of_the_copies(self) -> list[str]:
        """Of the private folder, whose mode is 0700: seen by the program, and gone after the end, a fault and a signal."""
        write(self._at("private/x"), "")
        look = 'for it do :; done; stat -c %a "$(dirname "$it")" >> private/modes; '
        self._program_of("looking", f"{look}exec {shlex.quote(self._program)} \"$@\"")
        self._program_of("dying", f"case $1 in -c) exit 0;; esac; {look}kill -TERM $PPID; sleep 10")
        temporary = os.environ | {"TMPDIR": self._at("private")}
        ended = [
            self._run("-m2", "-l100", "--crobots", program, *among, env=temporary).returncode
            for program, among in (("./looking", ["a.r", "b.r"]), ("./looking", ["a.r", "bad.r"]), ("./dying", ["a.r", "b.r"]))
        ]
        with open(self._at("private/modes"), encoding="ascii") as file:
            modes = {*file.read().split()}
        return [] if ended == [0, 1, 143] and modes == {"700"} and sorted(os.listdir(self._at("private"))) == ["modes", "x"] else [
            f"{ended} {modes} {os.listdir(self._at('private'))}"]
