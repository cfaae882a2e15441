"""Bad input: robots with faults, files, words, and programs that are none."""

from __future__ import annotations

import re
import resource

from tournaments.reports import results

from .base import Base, seed_of, sha256, FILES


class Refusals(Base):
    def a_robot_with_a_fault(self) -> list[str]:
        """It's said with the path as it was given."""
        there = self._answers(self._run("-m10", "a.r", "./bad.r"), "", "./bad.r:2: reserved word\n", 1)
        return there + self._answers(self._run("-m10", "a.r", "bad.r"), "", "bad.r:2: reserved word\n", 1) + self._answers(
            self._run("bad.r", "--old", "a.r", "b.r", script="challenge"), "", "bad.r:2: reserved word\n", 1)

    def a_robot_for_the_second_profile(self) -> list[str]:
        table = "rank,robot,played,won,tied,lost,points\n1,b.r,2,0,2,0,1.000\n1,large.r,2,0,2,0,1.000\n"
        words = ("-m2", "-l15", "--csv", "large.r", "b.r")
        return self._unrated(self._run("-p2", *words), table) + self._answers(self._run(*words), "", "large.r:1: too much code\n", 1)

    def files_that_cannot_be_read(self) -> list[str]:
        self._plan("plan", "-m2", "-l100", "a.r", "b.r")
        self._sh("sh plan > records")
        gone = "No such file or directory"
        return (
            self._answers(self._run("a.r", "gone.r"), "", f"tournament: cannot read gone.r: {gone}\n", 3)
            + self._answers(self._run("a.r", "one"), "", "tournament: cannot read one: Is a directory\n", 3)
            + self._answers(self._run("--merge", "gone"), "", f"tournament: cannot read gone: {gone}\n", 3)
            + self._answers(self._run("--merge", "--against", "gone", "records"), "", f"tournament: cannot read gone: {gone}\n", 3)
            + self._answers(self._run("--merge", "--against", "a.r", "records"), "", "tournament: line 1 of a.r is no line of a plan\n", 3)
            + self._answers(self._run("a.r", "--old", "gone.r", "b.r", script="challenge"), "", f"challenge: cannot read gone.r: {gone}\n", 3)
        )

    def wrong_words(self) -> list[str]:
        sizes = "--by-size plays all groups of the sizes that have a weight, so it needs one, and no --size or --sample"
        cases = {
            ("-m0", "a.r", "b.r"): "argument -m: '0' is no number from 1 to 1000000",
            ("a.r",): "matches of 2 need at least 2 robots",
            ("--size", "3", "a.r", "b.r"): "matches of 3 need at least 3 robots",
            ("a.r", "./a.r"): "the robot ./a.r is given twice",
            ("a.r", "b\n.r"): "a robot's name has a line break",
            ("--merge", "a.r"): "line 1 of a.r is cut short, or is no record of a series",
            ("--merge", "/dev/null"): "there are no records to merge",
            ("--merge", "--plan"): "--merge reads what was played, so it takes no --plan and no --journal",
            ("--merge", "-m2", "-s1", "--piece", "3", "a.r"): "--merge reads the settings from the records, so it takes no -m, -s, --piece",
            ("--plan", "--journal", "j", "a.r", "b.r"): "--plan plays nothing, so it takes no --journal, no --write and no --html",
            ("--plan", "--write", "csv=c", "a.r", "b.r"): "--plan plays nothing, so it takes no --journal, no --write and no --html",
            ("--against", "plan", "a.r", "b.r"): "--against goes with --merge",
            ("--sample", "2", "--size", "3", "a.r", "b.r", "c.r"): "there are only 1 groups of 3",
            ("--sample", "1", "a.r", "b.r", "c.r"): "--sample 1 leaves 1 of 3 robots out; 2 groups have all",
            ("--by-size", "1,0,0", "--size", "2", "a.r", "b.r"): sizes,
            ("--by-size", "0,0,0", "a.r", "b.r"): sizes,
            ("--points", "3", "a.r", "b.r"): "argument --points: '3' is not 2 numbers with commas between them",
            ("--csv", "--json", "a.r", "b.r"): "argument --json: not allowed with argument --csv",
            ("--write", "xml=f", "a.r"): "argument --write: 'xml=f' is not FORM=FILE with a form of table, csv, matrix, long, json",
            ("--crobots", "./a.r", "a.r", "b.r"): "./a.r is not there, or is no program; README.md says how it is built",
            ("--cs", "a.r", "b.r"): "unrecognized arguments: --cs",
        }
        wrong = []
        for words, fault in cases.items():
            wrong += self._answers(self._run(*words), "", f"tournament: {fault}\n", 2)
        wrong += self._answers(self._run("a.r", "b.r", script="challenge"), "", "challenge: the following arguments are required: --old\n", 2)
        for words, shown in ((("a.r", "--old", "b.r", "b.r"), "a.r b.r"), (("1/sweeper.r", "--old", "a b.r", "./a b.r"), "1/sweeper.r 'a b.r'")):
            said = (f"challenge: NEW and OLD are the only robots: `crobots-tournament {shown}` plays them against each other, "
                    "and a challenge needs another one\n")
            wrong += self._answers(self._run(*words, script="challenge"), "", said, 2)
        return wrong

    def a_program_that_is_none(self) -> list[str]:
        """A program whose output isn't that of such a series, or that fails, ends the tournament in one line."""
        report = "Match 1: cycles = {}; 1) alive damage   0% a; 2) alive damage   0% b;Totals: 1 matches; 1) won 0 tied 1 lost 0 a; 2) won 0 tied 1 lost 0 b"
        lines = report.replace("; ", "\\n  ").replace(";", "\\n")
        for name, does in {
            "silent": "exit 0", "failing": 'case $1 in -c) exit 0;; esac; echo "out of luck" >&2; exit 5',
            "impossible": f"case $1 in -c) exit 0;; esac; printf '{lines.replace('%', '%%').format(90)}\\n'",
        }.items():
            self._program_of(name, does)
        seats = sorted(("a.r", "b.r"), key=lambda name: sha256(FILES[name]))
        seed = seed_of(1, *(sha256(FILES[name]) for name in seats))
        words = f"-m1 -l500000 -s{seed} -p1 -f1 -- {' '.join(seats)}"
        cases = {
            "./silent": f"./silent {words} wrote no reports and totals of that series",
            "/bin/false": "/bin/false -c -p1 -- a.r ended with status 1 and said nothing",
            "./failing": f"./failing {words} ended with status 5: out of luck",
            "./impossible": "a series of ./impossible has a result that can't be: 90:0:0 of match 1",
        }
        return [wrong for program, why in cases.items()
                for wrong in self._answers(self._run("-m2", "-j1", "--crobots", program, "a.r", "b.r"), "", f"tournament: {why}\n", 4)]

    def what_is_no_output(self) -> list[str]:
        """Of the output of three matches each line that is gone, twice or in the next one's place is seen, each end that is cut, and each other
        digit in the number of a match and in the totals."""
        text = "".join(f"Match {number}: cycles = {15 * number}\n  1) alive damage  {number}0% a.r\n  2) dead  damage 100% b.r\n" for number in (7, 8, 9))
        text += "Totals: 3 matches\n  1) won 3 tied 0 lost 0 a.r\n  2) won 0 tied 0 lost 3 b.r\n"
        lines = text.splitlines(keepends=True)
        changed = ["".join([*lines[:at], *middle, *lines[at + 2:]]) for at in range(len(lines) - 1) for one, two in [lines[at:at + 2]]
                   for middle in ([two], [one], [one, one, two], [one, two, two], [two, one])]
        changed += [text[:at] for at in range(len(text))]
        numbered = [at for at, it in enumerate(text) if it.isdigit() and (text[:at].endswith("Match ") or at > text.index("Totals"))]
        changed += [text[:at] + digit + text[at + 1:] for at in numbered for digit in "0123456789" if digit != text[at]]
        wrong = [] if results(text.encode(), 2, 7, 3) == "105:70:100,120:80:100,135:90:100" else ["the output itself"]
        return wrong + [f"{it!r}" for it in changed if results(it.encode(), 2, 7, 3) is not None]

    def more_jobs_than_files_can_be_open(self) -> list[str]:
        limit = lambda: resource.setrlimit(resource.RLIMIT_NOFILE, (20, 20))  # noqa: E731
        ran = self._run("-m2", "-j100", *self._forty, preexec_fn=limit)
        fine = re.fullmatch(r"tournament: \d+ series at a time can't be run: Too many open files\n", ran.stderr)
        return [] if fine and (ran.stdout, ran.returncode) == ("", 4) else [f"{ran}"]
