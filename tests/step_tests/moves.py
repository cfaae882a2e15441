"""Moves: of sample robots by random commands, and of small robots by hand."""

from __future__ import annotations

import random
import re

from histories import History, Match, history_of

from .base import ROBOTS, Base, differ, plain
from .model import Happens, Model

MOVES = [f"{way}{name}" for way in ("", "reverse-") for name in ("step", "next", "finish", "continue")]
LETTERS = {"step": "s", "next": "n", "finish": "fin", "continue": "c"}
SAMPLES = [("pilot.r", "hunter.r", 1, 1), ("jumpy.r", "sniper.r", 2, 1), ("shuttle.r", "jouster.r", 1, 2)]
WALKS, LENGTH, CYCLES = 6, 40, 6000


class Moves(Base):
    """Where moves lead."""

    def _histories(self) -> list[History]:
        found = []
        for number, (one, other, robot, profile) in enumerate(SAMPLES, 3):
            match = Match([f"-k{number}", f"-l{CYCLES}", "-s5"], [ROBOTS / one, ROBOTS / other], robot, profile)
            found.append(history_of(match, *(self._programs[f"crobots{it}"] for it in ("", "-trace", "-stages", "-debug"))))
        return found

    def moves_of_the_sample_robots(self) -> list[str]:
        """Random walks over three robots, from random cycles: each answer is that of the plain model."""
        wrong, draw = [], random.Random(1)
        for history in self._histories():
            source = history.match.file.read_text(encoding="latin-1").splitlines()
            for _ in range(WALKS):
                wrong += self._walk(Model(history, source), draw)
        return wrong[:5]

    def _walk(self, model: Model, draw: random.Random) -> list[str]:
        """A walk with some breakpoints."""
        words = model.history.match.command("--robot", str(model.history.match.robot))
        marks = [random_mark(model.history, draw) for _ in range(draw.randrange(4))]
        for number, (command, told, happens) in enumerate(marks, 1):
            model.marks[f"{told.replace('N', str(number), 1)}"] = happens
        begin = draw.randrange(model.history.last + 1)
        model.cycle = begin
        names = [draw.choice(MOVES) for _ in range(LENGTH)]
        setting = [*(command for command, _, _ in marks), f"goto {begin}"]
        answers = self._answers([*setting, *map(lambda it: short(it, draw), names)], *words)
        for name, answer in zip(names, answers[len(setting) + 1:]):
            at, wanted = model.cycle, model.move(name)
            got = [line for line in plain(answer) if not line.startswith("watch ")]
            if got != [line for line in wanted if not line.startswith("watch ")]:
                return [f"{' '.join(words)}: {setting}, {name} at {at}: {got}\n  not {wanted}"]
        return []

    def a_walk_by_hand(self) -> list[str]:
        """Into down, twice into itself, and out of it; next and finish go over calls. Each is undone backwards."""
        words = ("-l200", "deep.r")
        steps = [plain(lines)[0].partition(", ")[2] for lines in self._answers(["s"] * 8, *words)]
        wrong = differ(steps, ["main, line 3"] + ["down, line 9", "down, line 10"] * 2 + ["down, line 9", "down, line 11", "main, line 4", "main, line 4"])
        wrong += differ(plain(self._last(["next"], *words))[0].partition(", ")[2], "main, line 4")
        wrong += differ(self._last(["s", "s", "s", "finish"], *words)[0], "down returned 7")
        there = self._answers(["s"] * 6 + ["rs"] * 6, *words)
        return wrong + differ(there[:7], there[6:][::-1])

    def a_finish_and_back(self) -> list[str]:
        """Back from down's first line is before the call, in line 3; so is reverse-next. main has no call around it."""
        words = ("-l200", "deep.r")
        found = [plain(self._last(["s", move], *words))[0].partition(", ")[2] for move in ("reverse-finish", "rfin", "rn")]
        wrong = differ(found, ["main, line 3"] * 3)
        return wrong + differ(self._last(["finish"], *words), ["main: it is the outermost call"])

    def the_ends_of_a_match(self) -> list[str]:
        """Forwards to the last cycle, backwards to cycle 0, and so again."""
        answers = self._answers(["c", "c", "s", "rc", "rs"], "-l200", "deep.r")[1:]
        wrong = differ([lines[0] for lines in answers], ["no more: this is the last cycle of the match"] * 3 + ["no more: this is the start of the match"] * 2)
        wrong += differ([lines[1].partition(",")[0] for lines in answers], ["cycle 200"] * 3 + ["cycle 0"] * 2)
        return wrong + differ(self._last(["s", "rs"], "-l200", "deep.r")[0].partition(",")[0], "cycle 0")

    def a_death(self) -> list[str]:
        """Its shots burst at its feet at each update from cycle 15 on. It is dead after cycle 90, and the match is over."""
        answers = self._answers(["break hurt", *["c"] * 7, "rc"], "suicide.r")
        wrong = differ([lines[1].partition(",")[0] for lines in answers[2:]], [f"cycle {it}" for it in (15, 30, 45, 60, 75, 90, 90, 75)])
        wrong += differ(answers[2][0].partition(" to ")[0], "breakpoint 1: hurt, damage from 0%")
        return wrong + differ(self._last(["goto 500"], "suicide.r")[0].partition(", column")[2][3:], ", dead, the match is over")

    def a_restart(self) -> list[str]:
        """Each move that leads there says why."""
        wrong = []
        for commands in (["b restart", "c"], ["s", "s", "s", "finish"], ["s", "finish"], ["b 2", "c"]):
            wrong += differ(self._last(commands, "-l9000", "diver.r")[-1], "restart: frames")
        return wrong

    def what_changed_is_told_of_the_cycle_before(self) -> list[str]:
        """However the robot came there, forwards, backwards or to a cycle: a variable that is counted up had one less, and each hurt begins
        where the one before it ended."""
        draw = random.Random(7)
        moves = [draw.choice(["c", "rc", "s", "rs", f"goto {draw.randrange(200)}"]) for _ in range(80)]
        answers = self._answers(["watch seen", *(it for move in moves for it in (move, "print seen"))], "-l200", "looker.r")[2:]
        told = [(re.match(r"watch 1: seen from (-?\d+) to (-?\d+)$", lines[0]), value[0]) for lines, value in zip(answers[::2], answers[1::2])]
        found = [(int(it[1]), int(it[2]), value) for it, value in told if it]
        wrong = [f"{it}" for it in found if it[0] + 1 != it[1] or it[2] != f"seen = {it[1]}"] + ([] if len(found) > 15 else [f"{len(found)} stops"])
        hurts = self._answers(["break hurt", *["c"] * 6, *["rc"] * 5, *["c"] * 5], "suicide.r")[2:]
        spans = [[int(it) for it in re.findall(r"(\d+)%", lines[0])] for lines in hurts]
        ends = [0, *(span[1] for span in spans[:6])]
        way = [*range(6), *range(4, -1, -1), *range(1, 6)]
        return wrong + differ(spans, [[ends[at], ends[at + 1]] for at in way]) + ([] if ends[-1] == 100 else [f"{ends}"])

    def several_breakpoints_in_one_cycle(self) -> list[str]:
        """After cycle 7 the reply is stored, which no line enters; in cycle 12 `seen` changes."""
        answers = self._answers(["b scan if reply >= 0 && reply != 5", "watch seen", "watch a", "b 6", "c", "c", "c"], "-l100", "looker.r")
        return differ([lines[0] for lines in answers[5:]],
                      ["breakpoint 1: scan if reply >= 0 && reply != 5", "breakpoint 4: line 6", "watch 2: seen from 0 to 1"])


def short(name: str, draw: random.Random) -> str:
    """A move by its word or its letter."""
    way, word = ("r", name.removeprefix("reverse-")) if name.startswith("reverse-") else ("", name)
    return draw.choice([name, way + LETTERS[word]])


def random_mark(history: History, draw: random.Random) -> tuple[str, str, Happens]:
    """A breakpoint of any kind: its command, how it is listed with N for its number, and whether it happens in a cycle."""
    return draw.choice([line_mark, reply_mark, reply_mark, hurt_mark, hit_mark, restart_mark])(history, draw)


def line_mark(history: History, draw: random.Random) -> tuple[str, str, Happens]:
    line = draw.choice(sorted({line for line, _ in history.places.values()}))
    entries = history.entries({line})
    return f"break {line}", f"breakpoint N: line {line}", lambda cycle: history.states[cycle].at in entries


def reply_mark(history: History, draw: random.Random) -> tuple[str, str, Happens]:
    asked = draw.choice(history.asked)
    sign, test = draw.choice([(">", int.__gt__), ("<", int.__lt__), ("==", int.__eq__), ("!=", int.__ne__), (">=", int.__ge__), ("<=", int.__le__)])
    replies = {it.cycle: it.reply for it in history.asked if it.function == asked.function}
    text = f"{asked.function} if reply {sign} {asked.reply}"
    return f"b {text}", f"breakpoint N: {text}", lambda cycle: cycle in replies and test(replies[cycle], asked.reply)


def hurt_mark(history: History, _: random.Random) -> tuple[str, str, Happens]:
    return "break hurt", "breakpoint N: hurt", lambda cycle: cycle in history.hurts


def hit_mark(history: History, _: random.Random) -> tuple[str, str, Happens]:
    return "break hit", "breakpoint N: hit", lambda cycle: cycle in history.hits


def restart_mark(history: History, _: random.Random) -> tuple[str, str, Happens]:
    return "b restart", "breakpoint N: restart", lambda cycle: cycle in history.restarts
