"""The screen: its rows by themselves, and in a terminal by tmux, if that is installed."""

from __future__ import annotations

import itertools
import os
import shutil
import signal
import subprocess
import sys
import time
from pathlib import Path

from .base import ROBOTS, SCRIPT, Base, differ

sys.path.append(str(SCRIPT.parent))
from harness import PATIENCE, skip  # noqa: E402
from packages import lacking  # noqa: E402
from stepping.moments import Call, Moment, Question, Robot  # noqa: E402
from stepping.screens import PROMPT, Piece, filled, fitted_lines, prompt, screen, width  # noqa: E402
from stepping.sources import Source  # noqa: E402

NUMBERS = itertools.count()


class Made:
    """A session made by hand, with long and strange texts."""

    def __init__(self, robots: int, text: str, path: Path) -> None:
        path.write_text(text, encoding="utf-8")
        self.source = Source(str(path))
        calls = [Call(number, number, f"function{number}", {"a_long_name": -2**31, "b": number}) for number in range(40, 0, -1)]
        self.moment = Moment(10**9, True, False, 30, 5, "function40", "CHOP", "scan(359, 10)", "words",
                             Question(10**9 - 1, "scan(-2147483648, 2147483647)", -2**31), calls, {f"e{it}": it for it in range(30)}, [0] * 90,
                             [Robot(number, 9999, 9999, 359, 100, 100, False) for number in range(1, robots + 1)])
        self.robot = robots
        self.asked = self
        self.marks = self

    def lines(self) -> set[int]:
        return {3, 30}

    def restarted(self) -> str:
        return "frames"

    def file(self) -> str:
        return "a folder/a long name of a robot.r"


# Letters with the columns that terminals give them: small ones, wide and full ones of East Asia, half ones, and marks above others.
LETTERS = {"a": 1, "\u00e9": 1, "\u03a9": 1, "\u044f": 1, "\uff71": 1, "\uffe9": 1, "\u4e2d": 2, "\ud55c": 2, "\u30a2": 2, "\uff21": 2, "\uff01": 2,
           "\uffe6": 2, "\u3000": 2, "\U0001f680": 2, "\u0301": 0, "\u0308": 0, "\u3099": 0}


class Terminals(Base):
    """Screens of many sizes."""

    def letters_take_their_columns(self) -> list[str]:
        """Each alone, and three of them in a row of each width: as many as fit are shown, and blanks fill what is left."""
        wrong = [f"U+{ord(letter):04X} has {width(letter)} columns" for letter, columns in LETTERS.items() if width(letter) != columns]
        for letters in itertools.product(LETTERS, repeat=3):
            text = "".join(letters)
            for columns in range(8):
                fits = max(many for many in range(4) if sum(LETTERS[it] for it in letters[:many]) <= columns)
                blanks = columns - sum(LETTERS[it] for it in letters[:fits])
                found = filled([Piece(text)], columns)
                wrong += [] if found == [Piece(text[:fits] + " " * blanks)] else [f"{text!a} in {columns} columns: {found}"]
        return wrong[:5]

    def rows_of_any_size(self) -> list[str]:
        """Each row but the prompt's has as many columns as the screen, and there are as many rows."""
        text = "\tint a; /* \u4e2d\u6587 e\u0301 \x07 */\n" * 50
        wrong = []
        for robots in (2, 4):
            session = Made(robots, text, Path(self._folder, "made.r"))
            for columns in (1, 2, 8, 9, 10, 30, 59, 60, 61, 80, 200):
                for rows in (1, 2, 3, 4, 5, 8, 12, 24, 50):
                    found = screen(session, ["said " * 30, "more"], "typed", columns, rows)  # type: ignore[arg-type]
                    widths = {sum(width(piece.text) for piece in row) for row in found[:-1]} - {columns}
                    wrong += [f"{columns} {rows}: {len(found)} rows, {widths}"] if len(found) != rows or widths else []
        return wrong[:5]

    def lines_that_are_left_out_are_counted(self) -> list[str]:
        """Of any number of lines in any number of rows: those that are shown, and those that the last row counts, are all."""
        wrong = []
        for many, rows in itertools.product(range(9), repeat=2):
            lines = [f"line {number}" for number in range(many)]
            if many <= rows:
                wanted = lines + [""] * (rows - many)
            else:
                wanted = [*lines[:rows - 1], f".. and {many - (rows - 1)} more"] if rows else []
            wrong += differ(fitted_lines(lines, rows), wanted)
        return wrong[:5]

    def the_end_of_what_is_typed_is_shown(self) -> list[str]:
        """Of any length in any number of columns: as many letters of its end as there is room for, and the last column is the cursor's."""
        wrong = []
        for columns, many in itertools.product(range(1, 30), range(30)):
            typed = "".join(map(chr, range(97, 97 + many)))
            room = columns - 1 - len(PROMPT)
            wanted = PROMPT + typed[-room:] if room > 0 else (PROMPT + typed[-1:])[:columns - 1]
            wrong += differ(prompt(typed, columns), wanted)
        return wrong[:5]

    def what_a_screen_shows(self) -> list[str]:
        """The line, the innermost calls, variables and the question are there in 24 rows, wide or narrow."""
        session = Made(4, "int a;\n" * 50, Path(self._folder, "made.r"))
        wrong = []
        for columns, rows in ((80, 24), (200, 50), (40, 30)):
            text = "\n".join("".join(piece.text for piece in row) for row in screen(session, ["said"], "typed", columns, rows))  # type: ignore[arg-type]
            wanted = ["cycle 1000000000, function40, line 30", ">*30  int a;", "#0  function40, line 40", ".. and", "a_long_name = -2147483648",
                      "1: 999,999 359d s100 100%", "said", "(step) typed"]
            wrong += [f"{columns}x{rows}: {it} isn't there:\n{text}" for it in wanted if it not in text]
        return wrong

    def in_a_terminal(self) -> list[str]:
        """In 80, 40 and 200 columns: commands, an empty line that repeats a move, a line called back, another size of the window, the end."""
        if why := lacking(["tmux"]):
            skip("terminals", why)
            return []
        wrong = []
        for columns, rows in ((80, 24), (40, 24), (200, 50)):
            with Tmux(self._folder, self._environment(), columns, rows) as tmux:
                wrong += [f"{columns}x{rows}: {why}" for why in self._played(tmux)]
        return wrong

    def _played(self, tmux: Tmux) -> list[str]:
        """What goes wrong in a terminal."""
        wrong = tmux.lacks("cycle 0, main, line 3", "(step)", "3    n = down(2);", "help lists the commands")
        wrong += tmux.typed("step", "cycle 3, down, line 9", "#1  main, line 3", "n = 2", "variables of down")
        wrong += tmux.typed("", "down, line 10", "> 10")
        wrong += tmux.typed("b 11", "breakpoint 1: line 11") + tmux.typed("c", "down, line 11", ">*11", "#1  down, line 10")
        tmux.send("frog")
        tmux.send("BSpace", "BSpace", "BSpace", "BSpace", "Up", "Up")
        wrong += tmux.lacks("(step) b 11")
        tmux.send("C-u")
        tmux.size(70, 30)
        wrong += tmux.typed("info field", ">1: x ", " 2: x ")
        tmux.size(30, 12)
        wrong += tmux.typed("frob", "frob: no command")
        return wrong + tmux.typed("quit", "status 0")

    def it_ends_in_a_terminal(self) -> list[str]:
        """By Ctrl-C, by Ctrl-D, by a signal, and if crobots-debug is killed: the terminal is as it was, and there is a status."""
        if not shutil.which("tmux"):
            return []
        wrong = []
        for keys, wanted in ((["C-c"], "status 130"), (["C-d"], "status 0")):
            with Tmux(self._folder, self._environment(), 80, 24) as tmux:
                wrong += tmux.lacks("(step)")
                tmux.send(*keys)
                wrong += tmux.lacks(wanted)
        return wrong + self._ended() + self._killed()

    def _ended(self) -> list[str]:
        with Tmux(self._folder, self._environment(), 80, 24) as tmux:
            wrong = tmux.lacks("(step)")
            os.kill(int(tmux.child()), signal.SIGTERM)
            return wrong + tmux.lacks("status 143")

    def _killed(self) -> list[str]:
        with Tmux(self._folder, self._environment(), 80, 24) as tmux:
            wrong = tmux.lacks("(step)")
            child = subprocess.run(["pgrep", "-P", tmux.child()], capture_output=True, text=True, check=False).stdout.split()
            os.kill(int(child[0]), 9)
            return wrong + tmux.typed("s", "crobots-step: crobots-debug ended by signal 9", "status 137")

    def a_terminal_without_a_cursor(self) -> list[str]:
        """Lines are read and written as elsewhere."""
        if why := lacking(["script"]):
            skip("a terminal without a cursor", why)
            return []
        line = f"{SCRIPT} -l100 looker.r"
        ran = subprocess.run(["script", "-qec", line, "/dev/null"], cwd=self._folder, env=self._environment() | {"TERM": "dumb"}, input=b"print seen\nquit\n",
                             capture_output=True, timeout=PATIENCE, check=False)
        return differ(b"seen = 0\r\n" in ran.stdout, True)


class Tmux:
    """A session in a terminal of this size."""

    def __init__(self, folder: str, environment: dict[str, str], columns: int, rows: int) -> None:
        # a server that was told to end may not have ended yet
        self._socket = os.path.join(folder, f"tmux{next(NUMBERS)}")
        self._environment = environment
        line = f"trap : INT; '{SCRIPT}' -l9000 deep.r '{ROBOTS}/runner.r'; echo status $?; exec sleep {PATIENCE * 4}"
        self._tmux("-f", "/dev/null", "new-session", "-d", "-x", str(columns), "-y", str(rows), "-c", folder, f"exec sh -c {quoted(line)}")

    def __enter__(self) -> Tmux:
        return self

    def __exit__(self, *_: object) -> None:
        self._tmux("kill-server")

    def _tmux(self, *words: str) -> str:
        return subprocess.run(["tmux", "-S", self._socket, *words], env=self._environment, capture_output=True, text=True, timeout=PATIENCE, check=True).stdout

    def child(self) -> str:
        """The number of the process of the script."""
        shell = self._tmux("list-panes", "-F", "#{pane_pid}").strip()
        return subprocess.run(["pgrep", "-P", shell], capture_output=True, text=True, check=False).stdout.split()[0]

    def send(self, *keys: str) -> None:
        self._tmux("send-keys", *keys)

    def size(self, columns: int, rows: int) -> None:
        self._tmux("resize-window", "-x", str(columns), "-y", str(rows))

    def typed(self, line: str, *wanted: str) -> list[str]:
        """Types a line; answers which of the texts don't come."""
        if line:
            self._tmux("send-keys", "-l", line)
        self.send("Enter")
        return self.lacks(*wanted)

    def lacks(self, *wanted: str) -> list[str]:
        """Waits until the screen has all texts; answers those that don't come."""
        end = time.monotonic() + PATIENCE
        while True:
            shown = self._tmux("capture-pane", "-p")
            lacking = [text for text in wanted if text not in shown]
            if not lacking or time.monotonic() > end:
                return [f"{text!r} isn't there:\n{shown}" for text in lacking]
            time.sleep(0.05)


def quoted(line: str) -> str:
    """A line as one word of a shell."""
    return "'" + line.replace("'", "'\\''") + "'"
