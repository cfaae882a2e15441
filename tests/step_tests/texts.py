"""What commands say: variables, calls, the field, the source, breakpoints, and command lines for this moment."""

from __future__ import annotations

import random
import re
import shlex
import subprocess
from pathlib import Path

from harness import PATIENCE

from .base import ROBOTS, TOP, Base, differ

MATCH = ["-k4", "-l6000", "--robot", "2", str(ROBOTS / "sweeper.r"), str(ROBOTS / "pilot.r")]
SCRIPT = "# all at once\ns\nb 3\n\nc\nc\nwatch n\nrc\ninfo breakpoints\nfrob\nprint n\n  print   n  \nlist\nq\ns\n"


class Texts(Base):
    """Texts of commands that don't move."""

    def a_script_and_standard_input(self) -> list[str]:
        """Both give the same text, which ends with `quit`; a last line needs no end."""
        wrong = []
        for text in (SCRIPT, "", "s", "\n\n", "s\r\nn\r\n", "s\nquit", "\x00\n\x1b[0m\n\xff\n"):
            Path(self._folder, "script").write_bytes(text.encode("latin-1"))
            given = self._run(text.encode("latin-1"), "-l200", "deep.r")
            read = self._run("s\n", "-x", "script", "-l200", "deep.r")
            wrong += differ((read.stdout, read.stderr, read.returncode), (given.stdout, b"", 0))
            wrong += [] if given.stdout.startswith(b"cycle 0, main, line 3, column ") and not given.stderr else [f"{text}: {given}"]
        return wrong

    def variables_and_calls(self) -> list[str]:
        """In the innermost call of three n is 0; main's is 0, too, and is hidden."""
        answers = self._answers(["b 11", "c", "print n", "p main.n", "info locals", "info externals", "bt", "reverse-finish", "print n"],
                                "-l100", "deep.r")
        return differ(answers[3:8] + answers[9:], [["n = 0"], ["main.n = 0"], ["n = 0"], ["no externals"], [
            "#0  down, line 11", "#1  down, line 10", "#2  down, line 10", "#3  main, line 3"], ["n = 1"]])

    def a_variable_of_the_innermost_call(self) -> list[str]:
        """Of a function that calls itself the name has the value in the innermost call, in whichever it is asked: 2, 1 and 0."""
        answers = self._answers(["b 9", *["c", "print down.n"] * 3], "-l100", "deep.r")
        return differ(answers[3::2], [["down.n = 2"], ["down.n = 1"], ["down.n = 0"]])

    def externals(self) -> list[str]:
        """After the second turn `seen` is 2."""
        answers = self._answers(["watch seen", "c", "c", "print seen", "info externals", "print looker"], "-l100", "looker.r")
        return differ(answers[4:], [["seen = 2"], ["seen = 2"], ["looker: no variable that main sees"]])

    def a_watch_is_of_the_function(self) -> list[str]:
        """n is in two functions: here it is that of the innermost call. Elsewhere it wants its function."""
        answers = self._answers(["watch n", "s", "watch n", "watch main.n", "info breakpoints"], "-l100", "deep.r")
        told = [["watch 1: main.n"], ["watch 2: down.n"], ["watch 3: main.n"]]
        wrong = differ([answers[1], answers[3], answers[4]], told) + differ(answers[5], [line for lines in told for line in lines])
        return wrong + differ(self._last(["watch x"], "-l100", "deep.r"), ["x: no variable"])

    def the_field(self) -> list[str]:
        """The rows of `trace --at`, in words."""
        rows = [row.split("\t") for row in self._traced("--at", "3000") if row.startswith("robot\t")][:2]
        wanted = [f"{'>' if row[1] == '2' else ' '}{row[1]}: x {row[2][:-1]}.{row[2][-1]}, y {row[3][:-1]}.{row[3][-1]}, heading {row[4]}, "
                  f"speed {row[5]}, damage {row[6]}%{', dead' if row[7] == 'dead' else ''}" for row in rows]
        return differ(self._last(["goto 3000", "info field"], *MATCH), wanted)

    def _traced(self, *words: str) -> list[str]:
        ran = subprocess.run([self._programs["crobots-trace"], *words, *MATCH], capture_output=True, text=True, timeout=PATIENCE, check=True)
        return ran.stdout.splitlines()

    def breakpoints(self) -> list[str]:
        """Numbers aren't used again; `break` alone is of this line."""
        answers = self._answers(["info breakpoints", "break", "b  scan  if reply>0&&reply != 700", "delete 1", "b hit", "info breakpoints",
                                 "delete 1", "delete x"], "-l100", "looker.r")
        return differ(answers[1:], [["no breakpoints"], ["breakpoint 1: line 4"], ["breakpoint 2: scan if reply>0&&reply != 700"], [],
                                    ["breakpoint 3: hit"], ["breakpoint 2: scan if reply>0&&reply != 700", "breakpoint 3: hit"],
                                    ["1: no breakpoint has this number"], ["x: no breakpoint has this number"]])

    def numbers_of_breakpoints(self) -> list[str]:
        """Whatever is set and deleted, drawn: each new one has the number behind the last one that was ever set, and what is listed is what
        was set and not deleted, in its order."""
        draw, wrong = random.Random(42), []
        for _ in range(20):
            commands, wanted = list[str](), list[list[str]]()
            there, last = dict[int, str](), 0
            for _ in range(30):
                what = draw.choice(("b", "b", "watch", "delete", "delete", "info"))
                number = draw.randint(1, last + 1)
                if what == "b":
                    last, line = last + 1, draw.choice((4, 5, 6))
                    there[last] = f"breakpoint {last}: line {line}"
                    command, told = f"b {line}", [there[last]]
                elif what == "watch":
                    last += 1
                    there[last] = f"watch {last}: seen"
                    command, told = "watch seen", [there[last]]
                elif what == "delete":
                    command, told = f"delete {number}", [] if there.pop(number, None) else [f"{number}: no breakpoint has this number"]
                else:
                    command, told = "info breakpoints", [*there.values()] or ["no breakpoints"]
                commands.append(command)
                wanted.append(told)
            wrong += differ(self._answers(commands, "-l20", "looker.r")[1:], wanted)
        return wrong[:3]

    def the_source(self) -> list[str]:
        """Eleven lines at most, with a mark at the one where the robot is."""
        answers = self._answers(["list", "list 12", "l 9"], "-l100", "deep.r")[1:]
        return differ(answers[0], ["  1  main() {", "  2    int n;", "> 3    n = down(2);", "  4    while (1)", "  5      ;", "  6  }", "  7",
                                   "  8  down(n) {", "  9    if (n)", " 10      return down(n - 1);", " 11    return 7;"]) \
            + differ([lines[-1] for lines in answers[1:]], [" 12  }"] * 2)

    def command_lines_for_this_moment(self) -> list[str]:
        """That of `trace` says the same cycle and line; that of `replay` makes a page."""
        stop, traced, replayed = self._answers(["goto 1500", "trace", "replay"], *MATCH)[1:]
        rows = self._shell(traced[0], "crobots-trace", self._programs["crobots-trace"]).splitlines()
        found = {row.split("\t")[0]: row.split("\t") for row in rows}
        wrong = differ(stop[0].split(", ")[:3], [f"cycle {found['cycle'][1]}", found["at"][4], f"line {found['at'][2]}"])
        self._shell(replayed[0], "crobots-replay", str(TOP / "scripts" / "replay"))
        wrong += [] if Path(self._folder, "match.html").stat().st_size > 1000 else ["no page"]
        return wrong + differ(replayed[1], "then open match.html#1500")

    def pages_of_any_moment(self) -> list[str]:
        """A page has the 1,500 cycles before a moment and behind it, and begins at the start if that is nearer: there its words are right, too."""
        wanted = {0: (0, 1500), 1: (0, 1501), 7: (0, 1507), 1499: (0, 2999), 1500: (0, 3000), 1501: (1, 3001), 4000: (2500, 5500)}
        answers = self._answers([it for cycle in wanted for it in (f"goto {cycle}", "replay")], "-l6000", "looker.r", "deep.r")[2::2]
        spans = [re.search(r" --from (\S+) --to (\S+) ", lines[0]) for lines in answers]
        wrong = differ([it and it.groups() for it in spans], [(str(first), str(last)) for first, last in wanted.values()])
        wrong += differ([lines[1] for lines in answers], [f"then open match.html#{cycle}" for cycle in wanted])
        self._shell(answers[0][0], "crobots-replay", str(TOP / "scripts" / "replay"))
        return wrong

    def _shell(self, line: str, name: str, path: str) -> str:
        """Runs a command line."""
        words = shlex.split(line)
        assert words[0] == name, line
        ran = subprocess.run([path, *words[1:]], cwd=self._folder, env=self._environment(), capture_output=True, text=True, timeout=PATIENCE, check=False)
        assert (ran.returncode, ran.stderr) == (0, ""), f"{line}: {ran}"
        return ran.stdout

    def help_names_each_command(self) -> list[str]:
        """At most 80 columns, and as many rows as a screen of 24 has; each word of it is taken."""
        lines = self._last(["help"], "-l20", "looker.r")
        heads = [word for line in lines for word in line.partition("  ")[0].split(", ")]
        names = [head.split()[0] for head in heads if head.split()[0] not in ("quit", "q")]
        answers = self._answers([f"help {name}" for name in names], "-l20", "looker.r")[1:]
        wrong = [line for line in lines if len(line) > 80] + ([] if 15 < len(lines) <= 21 else [f"{len(lines)} lines"])
        return wrong + [f"{name}: {answer}" for name, answer in zip(names, answers) if len(answer) != 1 or "no command" in answer[0]]
