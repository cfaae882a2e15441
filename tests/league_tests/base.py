"""What the tests of leagues share: robots, the script, and leagues in folders."""

from __future__ import annotations

import csv
import io
import os
import re
import sqlite3
import subprocess
from contextlib import closing
from typing import Any

from harness import PATIENCE

HERE = os.path.dirname(os.path.abspath(__file__))
LEAGUE = os.path.join(HERE, "..", "..", "scripts", "league")
# A robot that shoots itself at once, so it is dead in cycle 90; one that stands still; and one that shoots itself in
# the given number of 100 matches.
SHOOTER = "main(){while(1)cannon(0,0);}"
IDLE = "main(){while(1);}"
RISKY = "main(){if(rand(100)<%d)while(1)cannon(0,0);while(1);}"
BAD = "main(){\nbreak; }"
FILES = {
    "a.r": SHOOTER,
    "b.r": IDLE,
    "c.r": IDLE,
    "d.r": IDLE + "\n",
    "bad.r": BAD,
    **{f"r{it}.r": RISKY % it for it in range(0, 100, 5)},
}
DAY = "--day=2026-03-01"
BATTLES = (
    "SELECT hashes, seed, battle.number, battle.cycles, damage1, damage2, damage3, damage4 FROM battle "
    "JOIN seating ON seating.number = seating ORDER BY 1, 2, 3"
)


def write(path: str, text: str) -> None:
    with open(path, "w", encoding="utf-8") as file:
        file.write(text)


def read(path: str) -> str:
    with open(path, encoding="utf-8") as file:
        return file.read()


class Base:
    """Tests of one subject, in their own folder: each method of a subclass whose name doesn't begin with _ is one."""

    def __init__(self, program: str, folder: str) -> None:
        self._program = program
        self._folder = os.path.join(folder, type(self).__name__)
        os.makedirs(self._folder)
        self._environment = os.environ | {
            "PYTHONPYCACHEPREFIX": self.at("cache"),
            "LC_ALL": "C.UTF-8",
            "COLUMNS": "200",
        }
        self._environment.pop("PYTHONDONTWRITEBYTECODE", None)
        self._log = self.at("log")
        self._counting = self.at("counting")
        for name, text in FILES.items():
            write(self.at(name), text)
        write(self._counting, f'#!/bin/sh\necho "$*" >> {self._log}\nexec {program} "$@"\n')
        os.chmod(self._counting, 0o755)
        os.makedirs(self.at("bin"))
        os.symlink(program, self.at("bin/crobots"))
        self._environment["PATH"] = f"{self.at('bin')}:{os.environ['PATH']}"

    def at(self, name: str) -> str:
        return os.path.join(self._folder, name)

    def ran(self, *words: str, **more: Any) -> subprocess.CompletedProcess[str]:
        """Runs the script in the folder."""
        files = {"stdin": subprocess.DEVNULL, "stdout": subprocess.PIPE, "stderr": subprocess.PIPE}
        options: dict[str, Any] = {**files, "cwd": self._folder, "env": self._environment, "timeout": PATIENCE, **more}
        return subprocess.run([LEAGUE, *words], text=True, check=False, **options)

    def _begun(self, *words: str) -> subprocess.Popen[bytes]:
        """Starts the script in the folder."""
        return subprocess.Popen(
            [LEAGUE, *words],
            cwd=self._folder,
            env=self._environment,
            stdin=subprocess.DEVNULL,
            stdout=subprocess.DEVNULL,
            stderr=subprocess.DEVNULL,
        )

    def _series(self) -> list[str]:
        """The series that were played by the program that counts, each by its command line; then it counts anew."""
        lines = (
            [line for line in read(self._log).splitlines() if not line.startswith("-c")]
            if os.path.exists(self._log)
            else []
        )
        write(self._log, "")
        return lines

    def _farmed(self, plan: str) -> str:
        """What the lines of a plan write."""
        ran = [
            subprocess.run(
                ["sh", "-c", line], cwd=self._folder, env=self._environment, capture_output=True, text=True, check=True
            )
            for line in plan.splitlines()
        ]
        return "".join(it.stdout for it in ran)


class League:
    """A league in a folder, and the commands that use it."""

    def __init__(self, tests: Base, name: str, *rules: str, robots: tuple[str, ...] = ()) -> None:
        self.tests = tests
        self.folder = tests.at(name)
        self.run("init", *([] if any(it.startswith("-l") for it in rules) else ["-l300"]), DAY, *rules)
        if robots:
            self.run("add", *robots, DAY)

    def ran(self, command: str, *words: str, **more: Any) -> subprocess.CompletedProcess[str]:
        return self.tests.ran(command, self.folder, *words, **more)

    def run(self, command: str, *words: str, **more: Any) -> str:
        """Runs a command that has to succeed; answers what it wrote."""
        it = self.ran(command, *words, **more)
        assert it.returncode == 0, f"{command} {' '.join(words)}: status {it.returncode}: {it.stderr}"
        return it.stdout

    def rows(self, query: str) -> list[tuple[Any, ...]]:
        with closing(sqlite3.connect(os.path.join(self.folder, "league.db"), timeout=PATIENCE)) as database:
            return database.execute(query).fetchall()

    def battles(self) -> list[tuple[Any, ...]]:
        return self.rows(BATTLES)

    def missing(self) -> int:
        found = re.search(r"^missing: (\d+) matches", self.run("status"), re.MULTILINE)
        assert found
        return int(found[1])

    def table(self, *words: str) -> list[dict[str, str]]:
        return [*csv.DictReader(io.StringIO(self.run("table", "--csv", *words)))]
