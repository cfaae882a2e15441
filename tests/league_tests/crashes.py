"""Kills, signals, a second session, and output that fails."""

from __future__ import annotations

import random
import signal
import subprocess
import time

from harness import PATIENCE

from .base import LEAGUE, Base, League

KILLS = 40


class Crashes(Base):
    """Whatever comes between."""

    def kills(self) -> list[str]:
        """At any instant: nothing that was done is lost, and nothing is played twice but what was being played."""
        source, program = random.Random(7), f"--crobots={self._counting}"
        it = League(self, "kills", "-m4", program, robots=("a.r", "b.r", "c.r"))
        self._series()
        adding = [f"r{by}.r" for by in range(0, 60, 5)]
        kills, wrong, before = 0, [], 0
        while kills < KILLS:
            words = (
                ("add", it.folder, adding[0], program)
                if adding and kills % 4 == 1
                else ("play", it.folder, "-j2", "--piece=1", program)
            )
            child = self._begun(*words)
            try:
                child.wait(source.uniform(0.02, 0.45))
            except subprocess.TimeoutExpired:
                child.kill()
                kills += child.wait() == -signal.SIGKILL
            if words[0] == "add" and it.rows(f"SELECT 1 FROM robot WHERE id = '{adding[0][:-2]}'"):
                adding.pop(0)
            if (now := len(it.battles())) < before:
                wrong.append(f"{before - now} matches were lost")
            before = now
            kills += child.returncode == 0 and words[0] == "play" and not adding
        for robot in adding:
            it.run("add", robot, program)
        it.run("play", "-j2", "--piece=1", program)
        other = League(self, "unkilled", "-m4", program, robots=("a.r", "b.r", "c.r"))
        other.run("add", *(f"r{by}.r" for by in range(0, 60, 5)), program)
        series = self._series()
        other.run("play", "-j2", program)
        twice = len(series) - len(it.battles())
        if it.battles() != other.battles() or not 0 <= twice <= 2 * KILLS:
            wrong.append(f"{len(it.battles())} matches and not {len(other.battles())}, {twice} were played twice")
        return wrong + ([] if it.rows("PRAGMA integrity_check") == [("ok",)] else ["the database is broken"])

    def one_plays_others_read(self) -> list[str]:
        it = League(self, "alone", "-m1000", "-l200000", robots=("b.r", "c.r", "d.r"))
        child = self._begun("play", it.folder, "-j1", "--piece=20")
        wrong = []
        try:
            until = time.monotonic() + PATIENCE
            while not it.battles() and time.monotonic() < until:
                time.sleep(0.02)
            ran = it.ran("play")
            if ran.returncode != 3 or "is being played already" not in ran.stderr:
                wrong.append(f"two play: {ran.stderr}")
            if "is being played" not in it.run("status") or "rank" not in it.run("table"):
                wrong.append("while it is played nothing can be read")
            it.run("add", "a.r")
        finally:
            child.terminate()
            child.wait()
        wrong += [] if child.returncode == 143 else [f"TERM ends it with status {child.returncode}"]
        if "nobody plays" not in it.run("status"):
            wrong.append("the lock stays")
        return wrong

    def output_that_fails(self) -> list[str]:
        """A message that can't be written ends nothing; a table that can't be written has a status."""
        it = League(self, "output", "-m2", robots=("a.r", "b.r"))
        wrong = []
        with open("/dev/full", "w", encoding="utf-8") as full:
            if (ran := it.ran("play", "-j1", stderr=full)).returncode or len(it.battles()) != 2:
                wrong.append(f"play with a full standard error: status {ran.returncode}")
            if (ran := it.ran("table", stdout=full)).returncode != 3 or "cannot write" not in ran.stderr:
                wrong.append(f"a table on a full disk: status {ran.returncode}, {ran.stderr!r}")
        ran = subprocess.run(
            ["sh", "-c", f"exec {LEAGUE} table {it.folder} >&-"],
            env=self._environment,
            capture_output=True,
            text=True,
            check=False,
        )
        if ran.returncode != 3 or ran.stderr.count("\n") != 1:
            wrong.append(f"a closed standard output: status {ran.returncode}, {ran.stderr!r}")
        return wrong
