"""What all tests of tournaments share: a folder with robots, and ways to run the scripts there."""

from __future__ import annotations

import contextlib
import hashlib
import itertools
import os
import re
import subprocess
from typing import Any

from harness import PATIENCE

TOP = os.path.normpath(os.path.join(os.path.dirname(os.path.abspath(__file__)), "..", ".."))
SCRIPTS = os.path.join(TOP, "scripts")
ROBOTS = os.path.join(TOP, "robots")
# The sample robots below the ladder's upper rungs: many of them are close to each other.
SAMPLES = ("centre.r", "hunter.r", "jumpy.r", "leader.r", "pilot.r", "runner.r", "sniper.r", "sweeper.r", "wallhugger.r", "wanderer.r")

# A robot that shoots itself, and two that stand still: each match ends in cycle 90 with the others alive.
SHOOTER = "main(){while(1)cannon(0,0);}"
COUNTER = "main(){while(1);}"
FILES = {
    "a.r": SHOOTER, "b.r": COUNTER, "c.r": COUNTER, "bad.r": "main(){\nbreak; }", "large.r": "main(){" + "1;" * 1200 + "}",
    "one/x.r": SHOOTER, "two/x.r": COUNTER, "two/y.r": COUNTER,
}
TABLE = """\
rank  robot  played  won  tied  lost  points
   1  b.r        20   10    10     0   2.000
   1  c.r        20   10    10     0   2.000
   3  a.r        20    0     0    20   0.000
"""
FORMS: tuple[list[str], ...] = ([], ["--csv"], ["--matrix"], ["--long"], ["--json"])
# Tests run side by side, on a machine that may have other work.
Ran = subprocess.CompletedProcess[str]


def sha256(source: str) -> str:
    return hashlib.sha256(source.encode()).hexdigest()


def seed_of(seed: int, *keys: str) -> int:
    """The seed of a seating, worked out here once more."""
    return int(hashlib.sha256("\n".join(["crobots seating", str(seed), *keys]).encode()).hexdigest()[:16], 16)


def unrated(table: str) -> str:
    """A table without its ratings: they are tested by themselves."""
    lines = table.splitlines()
    if lines and "," in lines[0]:
        return "".join(",".join(line.split(",")[:-4]) + "\n" for line in lines)
    end = lines[0].index("points") + len("points") if lines else 0
    return "".join(line[:end] + "\n" for line in lines)


def write(path: str, text: str) -> None:
    os.makedirs(os.path.dirname(path), exist_ok=True)
    with open(path, "w", encoding="utf-8") as file:
        file.write(text)


def read(path: str) -> str:
    with open(path, encoding="utf-8") as file:
        return file.read()


def changed(source: str, by: int) -> str:
    """A robot whose numbers of two digits and more are larger by so much, but for those in comments."""
    parts = re.split(r"(/\*.*?\*/)", source, flags=re.S)
    return "".join(it if it.startswith("/*") else re.sub(r"\b[1-9][0-9]+\b", lambda n: str(int(n[0]) + by), it) for it in parts)


class Base:
    """Each method whose name does not begin with _ is a test: it answers what is wrong."""

    def __init__(self, program: str, folder: str) -> None:
        self._program = program
        self._folder = folder
        for name, text in FILES.items():
            write(self._at(name), text)
        self._forty: list[str] = []
        for by, name in itertools.product(range(4), SAMPLES):
            self._forty.append(f"{by}/{name}")
            write(self._at(self._forty[-1]), changed(read(os.path.join(ROBOTS, name)), by))

    def _at(self, name: str) -> str:
        return os.path.join(self._folder, name)

    def _words(self, *words: str, script: str = "tournament") -> list[str]:
        return [os.path.join(SCRIPTS, script), *([] if "--crobots" in words else ["--crobots", self._program]), *words]

    def _run(self, *words: str, script: str = "tournament", **how: Any) -> Ran:
        given: dict[str, Any] = {"capture_output": True, "text": True, "timeout": PATIENCE} | how
        return subprocess.run(self._words(*words, script=script), cwd=self._folder, check=False, **given)

    def _started(self, *words: str, **how: Any) -> subprocess.Popen[str]:
        given: dict[str, Any] = {"stdout": subprocess.PIPE, "stderr": subprocess.PIPE, "text": True} | how
        return subprocess.Popen(self._words(*words), cwd=self._folder, start_new_session=True, **given)

    def _sh(self, command: str) -> Ran:
        path = os.environ | {"PATH": f"{SCRIPTS}:{os.environ['PATH']}", "PROGRAM": self._program}
        return subprocess.run(["bash", "-c", command], cwd=self._folder, env=path, capture_output=True, text=True,
                              check=False, timeout=PATIENCE)

    def _program_of(self, name: str, does: str) -> None:
        write(self._at(name), f"#!/bin/sh\n{does}\n")
        os.chmod(self._at(name), 0o755)

    def _plan(self, name: str, *words: str) -> None:
        write(self._at(name), self._run("--plan", *words).stdout)

    def _lines(self, journal: str) -> list[str]:
        with contextlib.suppress(FileNotFoundError):
            return [line for line in read(self._at(journal)).splitlines(True) if line.endswith("\n")]
        return []

    def _answers(self, ran: Ran, text: str, faults: str = "", status: int = 0) -> list[str]:
        wanted = (text, faults, status)
        got = (ran.stdout, ran.stderr, ran.returncode)
        return [] if got == wanted else [f"{got!r:.600}, not {wanted!r:.600}"]

    def _unrated(self, ran: Ran, text: str) -> list[str]:
        ran.stdout = unrated(ran.stdout)
        return self._answers(ran, text)
