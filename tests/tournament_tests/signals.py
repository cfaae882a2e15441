"""Signals and kills: how a tournament ends before its table, and that nothing of what was played is lost."""

from __future__ import annotations

import itertools
import os
import random
import shutil
import signal
import subprocess
import time

from catalog.commands import packages_of
from harness import PATIENCE, copied
from web_tests.pages import is_in_time

from .base import SCRIPTS, Base, read, write

KILLS = 20


def session_of(process: str) -> int:
    """The session of a process, or nothing if it is gone."""
    try:
        return int(read(f"/proc/{process}/stat").rpartition(")")[2].split()[3])
    except (OSError, IndexError):
        return 0


class Signals(Base):
    def a_signal_stops_it_within_a_second(self) -> list[str]:
        """Long matches of 40 robots, one at a time and four: no child is left, and what was played is kept."""
        wrong = []
        for number, jobs in itertools.product((signal.SIGINT, signal.SIGTERM), ("-j1", "-j4")):
            journal = f"stopped{number}{jobs}"
            child = self._started("-m400", "--piece", "4", jobs, "--journal", journal, *self._forty)
            while child.poll() is None and len(self._lines(journal)) < 3:
                time.sleep(0.02)
            begun = time.monotonic()
            child.send_signal(number)
            text, faults = child.communicate(timeout=PATIENCE)
            taken = time.monotonic() - begun
            left = [it for it in os.listdir("/proc") if it.isdigit() and session_of(it) == child.pid]
            lines = len(self._lines(journal))
            said = f"tournament: stopped: {lines} of 78000 series were played, {4 * lines} matches; {journal} has what was played\n"
            if (child.returncode, text, faults, left) != (128 + number, "", said, []) or not is_in_time(taken, 1):
                wrong.append(f"{child.returncode} {text!r} {faults!r} {left} {taken}")
        return wrong

    def a_signal_after_all_was_played(self) -> list[str]:
        """While the table is made, and while records are merged: here modules wait there until the signal comes."""
        wait = "import time\ndef ratings(*_: object) -> None:\n    print(end='rating', flush=True)\n    time.sleep(9999)\n"
        for package in packages_of("tournament"):
            copied(os.path.join(SCRIPTS, package), self._at(f"waiting/{package}"))
        shutil.copy(os.path.join(SCRIPTS, "tournament"), self._at("waiting/tournament"))
        with open(self._at("waiting/tournaments/ratings.py"), "a", encoding="ascii") as module:
            module.write(wait)
        self._plan("late.plan", "-m2", "-l100", "a.r", "b.r")
        self._sh("sh late.plan > late.records")
        played = "tournament: stopped while the table was made: 2 of 2 series were played, 2 matches"
        cases = {
            ("-m2", "-l100", "--crobots", self._program, "a.r", "b.r"): f"{played}\n",
            ("-m2", "-l100", "--crobots", self._program, "--journal", "late.j", "a.r", "b.r"): f"{played}; late.j has what was played\n",
            ("--merge", "late.records"): "tournament: stopped while records were merged\n",
        }
        wrong = []
        for words, said in cases.items():
            child = subprocess.Popen([self._at("waiting/tournament"), *words], cwd=self._folder, stdout=subprocess.PIPE,
                                     stderr=subprocess.PIPE, text=True)
            assert child.stdout
            begun = child.stdout.read(6)
            child.send_signal(signal.SIGINT)
            text, faults = child.communicate(timeout=PATIENCE)
            got = (child.returncode, begun, text, faults)
            wrong += [] if got == (130, "rating", "", said) else [f"{got}, not {said}"]
        return wrong

    def a_signal_while_the_modules_are_read(self) -> list[str]:
        """Here they are one that sends the signal."""
        copied(os.path.join(SCRIPTS, "tools"), self._at("early/tools"))
        write(self._at("early/tournaments/main.py"), "import os, signal, time\nos.kill(os.getpid(), signal.SIGINT)\ntime.sleep(9)\n")
        shutil.copy(os.path.join(SCRIPTS, "tournament"), self._at("early/tournament"))
        ran = subprocess.run([self._at("early/tournament")], capture_output=True, text=True, check=False, timeout=PATIENCE)
        return self._answers(ran, "", "tournament: stopped while no series was played\n", 130)

    def killed_at_any_instant(self) -> list[str]:
        """Nothing that was played is lost or played again, and the table is that of a tournament without interruption. An
        instant is a random time after a random number of series, or after the start."""
        words = ("-m2", "-l20000", "-j2", "--piece", "1", *self._forty)
        source, kills, before = random.Random(32), 0, list[str]()
        wrong = []
        for _ in range(KILLS):
            child = self._started("--journal", "killed", *words)
            more = source.randrange(60)
            while child.poll() is None and more > 5 and len(self._lines("killed")) < len(before) + more:
                time.sleep(0.01)
            time.sleep(source.uniform(0, 0.02 if more > 5 else 0.3))
            kills += child.poll() is None
            child.kill()
            child.communicate()
            now = self._lines("killed")
            wrong += [] if now[: len(before)] == before else ["what was played was lost"]
            before = now
        ended = self._run("--journal", "killed", *words)
        lines = self._lines("killed")
        if kills < KILLS or not 5 < len(before) < 1560 or len(lines) != 1560 or len(set(lines)) != 1560:
            wrong.append(f"{kills} kills, {len(before)} and then {len(lines)} series")
        write(self._at("uninterrupted"), self._run(*words).stdout)
        return wrong + ([] if ended.stdout == read(self._at("uninterrupted")) and ended.stdout else [f"{ended}"])

    def a_league(self) -> list[str]:
        """Forty robots: interrupted twice and resumed, and merged from a plan under parallel --joblog, it gives one table."""
        words = ("-m2", "-l20000", *self._forty)
        for _ in range(2):
            child = self._started("-j2", "--journal", "league", *words)
            begun = len(self._lines("league"))
            while child.poll() is None and len(self._lines("league")) < begun + 100:
                time.sleep(0.02)
            child.send_signal(signal.SIGINT)
            child.communicate()
        resumed = self._run("--quiet", "-j4", "--journal", "league", *words)
        self._plan("league.plan", *words)
        by = "parallel -j 4 --joblog log" if shutil.which("parallel") else "xargs -P 4 -d '\\n' -n 1 sh -c"
        merged = self._sh(f"{by} < league.plan > league.out; tournament --merge --against league.plan league.out")
        if not os.path.exists(self._at("uninterrupted")):
            write(self._at("uninterrupted"), self._run(*words).stdout)
        table = read(self._at("uninterrupted"))
        return self._answers(merged, table) + self._answers(resumed, table)
