"""What is printed: the forms, points and names; and that several forms are written at once."""

from __future__ import annotations

import hashlib
import json
import os
import shutil
import subprocess
from itertools import combinations

from tournaments import robots
from tournaments.records import Record, Series
from tournaments.settings import Settings

from .base import FILES, FORMS, PATIENCE, SHOOTER, TABLE, Base, read, seed_of, sha256, write

CSV = """\
rank,robot,played,won,tied,lost,points
1,b.r,20,10,10,0,2.000
1,c.r,20,10,10,0,2.000
3,a.r,20,0,0,20,0.000
"""
THREES = "rank,robot,played,won,tied,lost,points\n1,b.r,6,0,6,0,1.000\n1,c.r,6,0,6,0,1.000\n3,a.r,6,0,0,6,0.000\n"
COUNTED = "main(){{ int n; n = {}; while (1); }}"
MATRIX = """\
            1       2       3
1 b.r       -  0/10/0  10/0/0
2 c.r  0/10/0       -  10/0/0
3 a.r  0/0/10  0/0/10       -
"""


class Forms(Base):
    def table(self) -> list[str]:
        return self._unrated(self._run("-m10", "-l100", "a.r", "b.r", "c.r"), TABLE)

    def control_characters_of_names(self) -> list[str]:
        """Who reads a table sees question marks; what programs read has the names as they are."""
        name = "\x1b[2Ja.r"
        write(self._at(name), SHOOTER)
        words = ("-m2", "-l100", name, "b.r")
        shown = [self._run(*words, *form).stdout for form in ([], ["--matrix"])]
        shown.append(self._run("-m2", "-l100", "--all", "--old", name, "b.r", "c.r", script="challenge").stdout)
        wrong = [text for text in shown if "\x1b" in text or "?[2Ja.r" not in text]
        kept = self._run(*words, "--csv").stdout
        return wrong + ([] if f",{name}," in kept else [kept])

    def comma_separated(self) -> list[str]:
        return self._unrated(self._run("-m10", "-l100", "--csv", "a.r", "b.r", "c.r"), CSV)

    def threes(self) -> list[str]:
        return self._unrated(self._run("-m6", "-l100", "--size", "3", "--csv", "a.r", "b.r", "c.r"), THREES)

    def head_to_head(self) -> list[str]:
        return self._answers(self._run("-m10", "-l100", "--matrix", "a.r", "b.r", "c.r"), MATRIX)

    def both_die_and_both_have_lost(self) -> list[str]:
        ran = self._run("-m2", "-l100", "--matrix", "a.r", "one/x.r")
        return self._answers(ran, "           1      2\n1 a.r      -  0/0/2\n2 x.r  0/0/2      -\n")

    def _seatings(self, seed: int, *names: str) -> list[tuple[int, tuple[str, ...]]]:
        """The seatings of all pairs in their order: the first are those with the least hash; each with its seed."""
        order = sorted(names, key=lambda name: (sha256(FILES[name]), name))
        keys: dict[str, str] = {}
        for name in order:
            before = sum(key.startswith(sha256(FILES[name])) for key in keys.values())
            keys[name] = sha256(FILES[name]) + (f".{before}" if before else "")
        return [(seed_of(seed, *(keys[name] for name in seats)), seats)
                for pair in combinations(order, 2) for seats in (pair, pair[::-1])]

    def each_match_and_robot(self) -> list[str]:
        """Two matches of each seating, each with its seed and with the robots in the order of their seats."""
        wanted = "seed,match,cycles,seat,robot,damage,result\n"
        for seed, seats in self._seatings(7, "a.r", "b.r"):
            for match in (1, 2):
                for seat, name in enumerate(seats, 1):
                    wanted += f"{seed},{match},90,{seat},{name},{'100,lost' if name == 'a.r' else '0,won'}\n"
        return self._answers(self._run("-m4", "-l100", "-s7", "--long", "a.r", "b.r"), wanted)

    def everything_as_json(self) -> list[str]:
        ran = self._run("-m2", "-l100", "-s7", "--points", "2,0.5", "--json", "a.r", "b.r", "c.r")
        said = json.loads(ran.stdout)
        with open(self._program, "rb") as file:
            program = hashlib.sha256(file.read()).hexdigest()
        settings = {"matches": 2, "cycles": 100, "seed": 7, "profile": 1, "program": program, "sizes": [2], "sample": 0,
                    "points": {"won": 2, "tied": 0.5}, "weights": None}
        hashes = sorted(sha256(FILES[name]) for name in ("a.r", "b.r", "c.r"))
        matches = [(str(seed), 1, [*seats]) for seed, seats in self._seatings(7, "a.r", "b.r", "c.r")]
        first = next(it for it in said["matches"] if it["robots"] == ["a.r", "b.r"])
        pair = {"robot": "a.r", "against": "b.r", "won": 0, "tied": 0, "lost": 2}
        wanted = [settings, hashes, matches, (90, [100, 0], ["lost", "won"]), True, [("b.r", 1.25), ("c.r", 1.25), ("a.r", 0)]]
        got = [
            said["settings"], [it["sha256"] for it in said["robots"]],
            [(it["seed"], it["match"], it["robots"]) for it in said["matches"]],
            (first["cycles"], first["damage"], first["results"]), pair in said["pairs"],
            [(it["robot"], it["points"]) for it in said["table"]],
        ]
        return [f"{one}, not {other}" for one, other in zip(got, wanted) if one != other]

    def points(self) -> list[str]:
        """Ten wins and ten ties at 1 and 0.5 are 15 points in 20 matches."""
        ran = self._run("-m10", "-l100", "--points", "1,0.5", "--csv", "a.r", "b.r", "c.r")
        return self._unrated(ran, CSV.replace("0,2.000\n", "0,0.750\n"))

    def sizes_are_added_up_with_weights(self) -> list[str]:
        """b.r: 2 points a match of pairs (it beats a.r and ties with c.r), 1 of threes: 2 * 2 + 0.25 * 1."""
        words = ("-m6", "-l100", "--by-size", "2,0.25,0", "a.r", "b.r", "c.r")
        rows = ("1,b.r,18,6,12,0,2.000,1.000,4.250", "1,c.r,18,6,12,0,2.000,1.000,4.250", "3,a.r,18,0,0,18,0.000,0.000,0.000")
        head = "rank,robot,played,won,tied,lost,pairs,threes,points"
        weights = json.loads(self._run("--json", *words).stdout)["settings"]["weights"]
        wrong = [] if weights == {"pairs": 2, "threes": 0.25, "fours": 0} else [f"{weights}"]
        return wrong + self._unrated(self._run("--csv", *words), "".join(f"{row}\n" for row in (head, *rows)))

    def weights_are_those_of_the_sizes_that_are_merged(self) -> list[str]:
        words = ("-m6", "-l100", "--by-size", "2,0.25,0")
        self._plan("sized", *words, "a.r", "b.r", "c.r")
        self._sh("sh sized > by_sizes")
        fault = "tournament: the records are of size 2,3, {}\n"
        others, none = fault.format("but --by-size has weights for size 2,3,4"), fault.format("so their points need --by-size")
        return (
            self._answers(self._run("--merge", "--by-size", "2,0.25,0", "by_sizes"), self._run(*words, "a.r", "b.r", "c.r").stdout)
            + self._answers(self._run("--merge", "--by-size", "1,1,1", "by_sizes"), "", others, 2)
            + self._answers(self._run("--merge", "by_sizes"), "", none, 2)
            + self._answers(self._run("--merge", "--matrix", "--write", "csv=sized.csv", "by_sizes"), "", none, 2)
        )

    def robots_of_one_file_name(self) -> list[str]:
        """The rows go by position, and a name is the shortest distinct end of a path."""
        head = "rank,robot,played,won,tied,lost,points\n"
        wanted = head + "1,two/x.r,4,2,2,0,2.000\n1,y.r,4,2,2,0,2.000\n3,one/x.r,4,0,0,4,0.000\n"
        among = ("one/x.r", "two/x.r", "two/y.r")
        self._plan("equal", "-m2", "-l100", *among)
        merged = self._sh("xargs -P 4 -d '\\n' -n 1 sh -c < equal | tournament --merge --csv")
        return self._unrated(self._run("-m2", "-l100", "--csv", *among), wanted) + self._unrated(merged, wanted)

    def names_of_any_length_line_up(self) -> list[str]:
        name = "x" * 200 + ".r"
        shutil.copy(self._at("a.r"), self._at(name))
        lines = self._run("-m2", "-l100", "b.r", name).stdout.splitlines()
        ends = {line.index(points) + len(points) for line, points in zip(lines, ("  points", "   3.000", "   0.000"))}
        return [] if len(ends) == 1 else [f"{lines}"]

    def shortest_names(self) -> list[str]:
        cases = {
            ("x.r", "y.r"): ["x.r", "y.r"], ("a/x.r", "b/x.r"): ["a/x.r", "b/x.r"], ("x.r", "a/x.r"): ["x.r", "a/x.r"],
            ("p/a/x.r", "q/a/x.r", "p/y.r"): ["p/a/x.r", "q/a/x.r", "y.r"],
        }
        found = {paths: robots.names([*paths]) for paths in cases}
        return [f"{paths}: {found[paths]}" for paths, wanted in cases.items() if found[paths] != wanted]

    def a_name_is_written_as_its_bytes(self) -> list[str]:
        """Whatever encoding output has: of the letter that the encoding lacks, and of a byte that is no letter. In forms for readers that
        byte is shown by its code."""
        names = ["f\u00fcnf.r".encode(), b"\xff.r"]
        for name in names:
            with open(os.path.join(os.fsencode(self._folder), name), "w", encoding="ascii") as file:
                file.write(COUNTED.format(len(name)))
        wrong = []
        for form in ("table", "csv", "matrix", "long"):
            options = [] if form == "table" else [f"--{form}"]
            ran = self._in_ascii("-m2", "-l15", *options, "--write", f"{form}=bytes", *map(os.fsdecode, names))
            with open(self._at("bytes"), "rb") as file:
                shown = [name.replace(b"\xff", rb"\xff") if form in ("table", "matrix") else name for name in names]
                fine = ran.stderr == b"" and ran.stdout == file.read() and all(name in ran.stdout for name in shown)
            wrong += [] if fine else [f"{form}: {ran}"]
        gone = self._in_ascii("a.r", os.fsdecode(b"\xfegone.r"))
        return wrong + ([] if (gone.returncode, rb"\xfegone.r: No such" in gone.stderr) == (3, True) else [f"{gone}"])

    def _in_ascii(self, *words: str) -> subprocess.CompletedProcess[bytes]:
        """Runs a tournament whose output has the letters of ASCII only."""
        return subprocess.run(self._words(*words), cwd=self._folder, env=os.environ | {"PYTHONIOENCODING": "ascii"},
                              capture_output=True, check=False, timeout=PATIENCE)

    def several_forms_at_once(self) -> list[str]:
        """Beside that on standard output, each the same as alone."""
        words = ("-m4", "-l100", "a.r", "b.r", "c.r")
        forms = [form[0][2:] if form else "table" for form in FORMS]
        ran = self._run(*(word for form in forms for word in ("--write", f"{form}={form}.form")), "--csv", *words)
        wrong = self._answers(ran, self._run("--csv", *words).stdout)
        alone = [self._run(*options, *words).stdout for options in FORMS]
        return wrong + [form for form, text in zip(forms, alone) if read(self._at(f"{form}.form")) != text or not text]

    def a_file_for_a_form_that_cannot_be_written(self) -> list[str]:
        """A line says so at once if possible; a disk that is full then ends with status 3, after all others are written."""
        words = ("-m2", "-l100", "a.r", "b.r")
        table = self._run(*words).stdout
        early = self._run("--write", "csv=gone/x", *words)
        late = self._run("--write", "csv=/dev/full", "--write", "csv=late", *words)
        wrong = self._answers(early, "", "tournament: cannot write gone/x: No such file or directory\n", 3)
        wrong += self._answers(late, table, "tournament: cannot write /dev/full: No space left on device\n", 3)
        return wrong + ([] if read(self._at("late")) == self._run("--csv", *words).stdout else ["late"])

    def memory_does_not_grow_with_matches(self) -> list[str]:
        """JSON of 40,000 made matches takes within 4 MB what that of 4,000 takes."""
        used = []
        for matches in (4000, 40000):
            settings = Settings(matches, 100, 1, 1, "0" * 64, 2, (2,))
            two = [robots.Robot(name, sha256(name)) for name in sorted(("x.r", "y.r"), key=sha256)]
            records = [
                Record(settings, Series(seats, seed_of(1, *(two[at].sha256 for at in seats)), first, 100), tuple(two[at] for at in seats),
                       ",".join(["90:0:100"] * 100)).line()
                for seats in ((0, 1), (1, 0)) for first in range(1, matches // 2, 100)
            ]
            write(self._at("made"), "".join(records))
            with subprocess.Popen(self._words("--merge", "--json", "made"), cwd=self._folder,
                                  stdout=subprocess.PIPE) as child:
                assert child.stdout
                lines = sum(1 for _ in child.stdout)
                used.append((lines, os.wait4(child.pid, 0)[2].ru_maxrss))
                child.returncode = 0
        right = used[1][0] - used[0][0] == 36000 and used[1][1] < used[0][1] + 4096
        return [] if right else [f"{used}"]
